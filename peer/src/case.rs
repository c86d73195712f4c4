//! A case: a buffer, a name file, the calls made on them in turn, and its form in a file of cases.

use crate::call::Call;
use crate::filled::Filled;

#[derive(Clone, Debug, PartialEq, Eq)]
pub struct Case {
    pub title: String,
    buffer: Filled,
    names: Filled,
    pub calls: Vec<Call>,
}

impl Case {
    /// Makes a case of a whole buffer and a whole name file.
    pub fn new(title: String, buffer: &[u8], names: &[u8], calls: Vec<Call>) -> Case {
        Case {
            title,
            buffer: Filled::new(buffer),
            names: Filled::new(names),
            calls,
        }
    }

    /// The buffer before the first call.
    pub fn buffer(&self) -> Vec<u8> {
        self.buffer.bytes()
    }

    /// The name file before the first call.
    pub fn names(&self) -> Vec<u8> {
        self.names.bytes()
    }

    pub fn encode(&self, file: &mut Vec<u8>) {
        file.push(self.title.len() as u8);
        file.extend_from_slice(self.title.as_bytes());
        for bytes in [&self.buffer, &self.names] {
            file.extend_from_slice(&bytes.length.to_le_bytes());
            file.push(bytes.fill);
            file.extend_from_slice(&(bytes.given.len() as u32).to_le_bytes());
            file.extend_from_slice(&bytes.given);
        }
        for call in &self.calls {
            call.encode(file);
        }
        file.push(b'.');
    }
}
