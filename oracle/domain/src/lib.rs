//! Stand-in for the part of `dali2rust_domain` that refs.rs names: four instance types.

pub mod dali {
    pub mod dev103 {
        /// The numbers that document 01 gives for the type words (IEC 62386-301 to -304).
        pub mod instance_type {
            pub const PUSH_BUTTON: u8 = 1;
            pub const ABSOLUTE_INPUT: u8 = 2;
            pub const OCCUPANCY: u8 = 3;
            pub const LIGHT_SENSOR: u8 = 4;
        }
    }
}
