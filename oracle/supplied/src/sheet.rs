//! The name sheet of document 01 with the parties of document 02 §6 and the line ends and names of §8, and the names that it gives
//! to the supplied Rust.

use dali2rust_rules_model::{DeviceRef, GroupRef, InputDeviceRef, LampRef, NameResolver};

const MOST_BYTES: usize = 16_384;
const MOST_ROWS: usize = 512;
const MOST_NAME_BYTES: usize = 48;
/// The number of adapters that a row can name.
const ADAPTERS: usize = 256;

#[derive(Debug, Clone, Copy, PartialEq, Eq)]
enum Kind {
    Lamp,
    Group,
    Device,
    Input,
}

/// A row that names something. The name is kept as bytes: it need not be UTF-8.
struct Named {
    kind: Kind,
    adapter: u8,
    number: u8,
    name: Vec<u8>,
}

/// A well-formed sheet, its rows in their order.
pub struct Sheet {
    rows: usize,
    listed: Vec<u8>,
    named: Vec<Named>,
    /// The party of each adapter that a `party` row names.
    parties: [Option<u8>; ADAPTERS],
}

/// The supplied Rust's resolver: the rows on the party's adapters, and the call's primary.
pub struct Names {
    primary: u8,
    listed: Vec<u8>,
    named: Vec<Named>,
}

/// A decimal number without a leading zero, at most `most`.
fn number(field: &[u8], most: u8) -> Option<u8> {
    let plain = field == b"0" || (field.first() != Some(&b'0') && field.iter().all(u8::is_ascii_digit));
    if !plain {
        return None;
    }
    std::str::from_utf8(field).ok()?.parse().ok().filter(|&n| n <= most)
}

fn kind(field: &[u8]) -> Option<(Kind, u8)> {
    match field {
        b"lamp" => Some((Kind::Lamp, 63)),
        b"group" => Some((Kind::Group, 15)),
        b"device" => Some((Kind::Device, 63)),
        b"input" => Some((Kind::Input, 63)),
        _ => None,
    }
}

/// The fields of a line: what stands behind the third comma is one, with all its commas.
fn fields(line: &[u8]) -> Vec<&[u8]> {
    let mut fields: Vec<&[u8]> = Vec::new();
    let mut rest = line;
    while let (Some(comma), 0..=2) = (rest.iter().position(|&b| b == b','), fields.len()) {
        fields.push(&rest[..comma]);
        rest = &rest[comma + 1..];
    }
    fields.push(rest);
    fields
}

/// Whether a row may have the name.
fn is_name(name: &[u8]) -> bool {
    let fits = |&byte: &u8| byte != b'"' && byte != b'\r';
    !name.is_empty() && name.len() <= MOST_NAME_BYTES && name.iter().all(fits)
}

/// Whether a line may be the first. Its adapter is not kept, since the call names the primary.
fn is_first(line: &[u8]) -> bool {
    matches!(fields(line)[..], [b"primary", adapter] if number(adapter, 255).is_some())
}

/// The lines of a sheet: each ends with LF, which the last may lack, and with one CR before that end, if there is one. An empty sheet
/// is one empty line.
fn lines(bytes: &[u8]) -> impl Iterator<Item = &[u8]> {
    let lines = bytes.strip_suffix(b"\n").unwrap_or(bytes).split(|&b| b == b'\n');
    lines.map(|line| match line {
        [before @ .., b'\r'] => before,
        _ => line,
    })
}

impl Sheet {
    /// The sheet, or its first bad line (0 if the sheet is too long).
    pub fn read(bytes: &[u8]) -> Result<Sheet, u32> {
        if bytes.len() > MOST_BYTES {
            return Err(0);
        }
        let mut sheet = Sheet { rows: 0, listed: Vec::new(), named: Vec::new(), parties: [None; ADAPTERS] };
        for (line, number) in lines(bytes).zip(1u32..) {
            let taken = if number == 1 { is_first(line) } else { sheet.row(line).is_some() };
            if !taken {
                return Err(number);
            }
        }
        Ok(sheet)
    }

    /// The names for a party's call with this primary; none if the primary is not the party's.
    pub fn names_for(mut self, party: u8, primary: u8) -> Option<Names> {
        let parties = self.parties;
        let own = |adapter: u8| parties[usize::from(adapter)].unwrap_or(0) == party;
        self.listed.retain(|&adapter| own(adapter));
        self.named.retain(|row| own(row.adapter));
        own(primary).then_some(Names { primary, listed: self.listed, named: self.named })
    }

    /// Takes in a row; nothing if it is bad or one too many.
    fn row(&mut self, line: &[u8]) -> Option<()> {
        if self.rows == MOST_ROWS {
            return None;
        }
        self.rows += 1;
        match fields(line)[..] {
            [b"adapter", adapter] => self.listed.push(number(adapter, 255)?),
            [b"party", adapter, party] => {
                let of = &mut self.parties[usize::from(number(adapter, 255)?)];
                if of.replace(number(party, 255)?).is_some() {
                    return None;
                }
            }
            [word, adapter, id, name] => {
                let (kind, most) = kind(word)?;
                let (adapter, number) = (number(adapter, 255)?, number(id, most)?);
                if !is_name(name) {
                    return None;
                }
                self.named.push(Named { kind, adapter, number, name: name.to_vec() });
            }
            _ => return None,
        }
        Some(())
    }
}

impl Names {
    /// Every row of the kind and name, made into a reference from its adapter and number.
    fn rows<T>(&self, kind: Kind, name: &str, make: fn(u8, u8) -> T) -> Vec<T> {
        let wanted = |row: &&Named| row.kind == kind && row.name == name.as_bytes();
        self.named.iter().filter(wanted).map(|row| make(row.adapter, row.number)).collect()
    }
}

impl NameResolver for Names {
    fn primary_adapter(&self) -> u8 {
        self.primary
    }

    fn adapter_exists(&self, adapter: u8) -> bool {
        self.listed.contains(&adapter)
    }

    fn resolve_lamp(&self, name: &str) -> Vec<LampRef> {
        self.rows(Kind::Lamp, name, |adapter_id, id| LampRef { adapter_id, id: id.into() })
    }

    fn resolve_group(&self, name: &str) -> Vec<GroupRef> {
        self.rows(Kind::Group, name, |adapter_id, id| GroupRef { adapter_id, id: id.into() })
    }

    fn resolve_device(&self, name: &str) -> Vec<DeviceRef> {
        self.rows(Kind::Device, name, |adapter_id, short_address| DeviceRef { adapter_id, short_address })
    }

    fn resolve_input_device(&self, name: &str) -> Vec<InputDeviceRef> {
        self.rows(Kind::Input, name, |adapter_id, device_short_address| InputDeviceRef {
            adapter_id,
            device_short_address,
        })
    }
}
