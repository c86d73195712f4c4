//! The calls that a case makes on its buffer and its name file, and their form in a file of cases.

use crate::filled::Filled;
use crate::format::Plan;
use crate::name_file::Named;
use crate::order::ByteOrder;
use crate::reading::Reading;
use crate::register::Object;

/// What a registration brings, its name owned.
#[derive(Clone, Debug, PartialEq, Eq)]
pub struct Registration {
    pub kind: u8,
    pub pointer: u32,
    pub parameters: [u32; 2],
    pub reserved: [u8; 2],
    pub name: Vec<u8>,
}

impl Registration {
    pub fn object(&self) -> Object<'_> {
        Object {
            kind: self.kind,
            pointer: self.pointer,
            parameters: self.parameters,
            reserved: self.reserved,
            name: &self.name,
        }
    }
}

/// A record to write into the name file, its name owned.
#[derive(Clone, Debug, PartialEq, Eq)]
pub struct Naming {
    pub named: Named,
    pub number: u32,
    pub offset: usize,
    pub name: Filled,
}

#[derive(Clone, Debug, PartialEq, Eq)]
pub enum Call {
    Check,
    Event {
        position: usize,
    },
    FindName {
        pointer: u32,
    },
    Line {
        reading: Reading,
        position: usize,
        room: u32,
    },
    Listing {
        reading: Reading,
        room: u32,
    },
    Format(Plan),
    Record([u32; 8]),
    Register(Registration),
    Remove {
        pointer: u32,
    },
    Bytes,
    Mend {
        room: u32,
    },
    EventWithNames {
        position: usize,
    },
    FindNameWithNames {
        pointer: u32,
    },
    LineWithNames {
        reading: Reading,
        position: usize,
        room: u32,
    },
    ListingWithNames {
        reading: Reading,
        room: u32,
    },
    WriteName(Naming),
}

impl Call {
    /// The byte that stands for the kind of call.
    pub fn letter(&self) -> u8 {
        match self {
            Call::Check => b'c',
            Call::Event { .. } => b'e',
            Call::FindName { .. } => b'n',
            Call::Line { .. } => b'l',
            Call::Listing { .. } => b'a',
            Call::Format(_) => b'f',
            Call::Record(_) => b'w',
            Call::Register(_) => b'o',
            Call::Remove { .. } => b'x',
            Call::Bytes => b'b',
            Call::Mend { .. } => b'm',
            Call::EventWithNames { .. } => b'E',
            Call::FindNameWithNames { .. } => b'N',
            Call::LineWithNames { .. } => b'L',
            Call::ListingWithNames { .. } => b'A',
            Call::WriteName(_) => b'r',
        }
    }

    /// Kind, length of the arguments, arguments.
    pub fn encode(&self, file: &mut Vec<u8>) {
        let arguments = self.arguments();
        file.push(self.letter());
        file.extend_from_slice(&(arguments.len() as u16).to_le_bytes());
        file.extend_from_slice(&arguments);
    }

    fn arguments(&self) -> Vec<u8> {
        match self {
            Call::Check | Call::Bytes => Vec::new(),
            Call::Event { position } | Call::EventWithNames { position } => {
                long_bytes(*position).to_vec()
            }
            Call::FindName { pointer }
            | Call::FindNameWithNames { pointer }
            | Call::Remove { pointer } => word_bytes(&[*pointer]),
            Call::Line {
                reading,
                position,
                room,
            }
            | Call::LineWithNames {
                reading,
                position,
                room,
            } => {
                let mut bytes = reading_bytes(reading);
                bytes.extend_from_slice(&long_bytes(*position));
                bytes.extend_from_slice(&room.to_le_bytes());
                bytes
            }
            Call::Listing { reading, room } | Call::ListingWithNames { reading, room } => {
                let mut bytes = reading_bytes(reading);
                bytes.extend_from_slice(&room.to_le_bytes());
                bytes
            }
            Call::Format(plan) => plan_bytes(plan),
            Call::Record(words) => word_bytes(words),
            Call::Register(registration) => registration_bytes(registration),
            Call::Mend { room } => word_bytes(&[*room]),
            Call::WriteName(naming) => naming_bytes(naming),
        }
    }
}

fn plan_bytes(plan: &Plan) -> Vec<u8> {
    let mut bytes = vec![u8::from(plan.order == ByteOrder::Big)];
    bytes.extend_from_slice(&word_bytes(&[plan.base, plan.mask]));
    bytes.extend_from_slice(&plan.name_size.to_le_bytes());
    bytes.extend_from_slice(&long_bytes(plan.entries));
    bytes
}

fn registration_bytes(registration: &Registration) -> Vec<u8> {
    let mut bytes = vec![registration.kind];
    bytes.extend_from_slice(&registration.pointer.to_le_bytes());
    bytes.extend_from_slice(&word_bytes(&registration.parameters));
    bytes.extend_from_slice(&registration.reserved);
    bytes.extend_from_slice(&registration.name);
    bytes
}

fn naming_bytes(naming: &Naming) -> Vec<u8> {
    let mut bytes = vec![u8::from(naming.named == Named::Thread)];
    bytes.extend_from_slice(&naming.number.to_le_bytes());
    bytes.extend_from_slice(&long_bytes(naming.offset));
    bytes.extend_from_slice(&naming.name.length.to_le_bytes());
    bytes.push(naming.name.fill);
    bytes.extend_from_slice(&naming.name.given);
    bytes
}

fn reading_bytes(reading: &Reading) -> Vec<u8> {
    let mut bytes = word_bytes(&[reading.rate, reading.unit]);
    bytes.extend_from_slice(&reading.serial.to_le_bytes());
    bytes
}

fn word_bytes(words: &[u32]) -> Vec<u8> {
    words.iter().flat_map(|word| word.to_le_bytes()).collect()
}

fn long_bytes(number: usize) -> [u8; 8] {
    (number as u64).to_le_bytes()
}
