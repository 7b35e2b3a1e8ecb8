//! What a reference in a rule comes to, and the names that it is looked up in.

#[derive(Debug, Clone, Copy, PartialEq, Eq)]
pub struct LampRef {
    pub adapter_id: u8,
    pub id: u16,
}

#[derive(Debug, Clone, Copy, PartialEq, Eq)]
pub struct GroupRef {
    pub adapter_id: u8,
    pub id: u16,
}

#[derive(Debug, Clone, Copy, PartialEq, Eq)]
pub struct DeviceRef {
    pub adapter_id: u8,
    pub short_address: u8,
}

#[derive(Debug, Clone, Copy, PartialEq, Eq)]
pub struct InputDeviceRef {
    pub adapter_id: u8,
    pub device_short_address: u8,
}

#[derive(Debug, Clone, Copy, PartialEq, Eq)]
pub struct InputRef {
    pub adapter_id: u8,
    pub device_short_address: u8,
    pub instance_number: u8,
}

#[derive(Debug, Clone, Copy, PartialEq, Eq)]
pub struct InputGroupSelector {
    pub adapter_id: u8,
    pub instance_group: u8,
    pub instance_type: Option<u8>,
}

#[derive(Debug, Clone, Copy, PartialEq, Eq)]
pub enum InputSelector {
    Instance(InputRef),
    Group(InputGroupSelector),
}

#[derive(Debug, Clone, Copy, PartialEq, Eq)]
pub enum LightTarget {
    Lamp(LampRef),
    Group(GroupRef),
    Broadcast { adapter_id: u8 },
}

/// The names and adapters that a text may speak of. Each lookup gives every row of the name, in the sheet's order.
pub trait NameResolver {
    fn primary_adapter(&self) -> u8;
    fn adapter_exists(&self, adapter: u8) -> bool;
    fn resolve_lamp(&self, name: &str) -> Vec<LampRef>;
    fn resolve_group(&self, name: &str) -> Vec<GroupRef>;
    fn resolve_device(&self, name: &str) -> Vec<DeviceRef>;
    fn resolve_input_device(&self, name: &str) -> Vec<InputDeviceRef>;
}
