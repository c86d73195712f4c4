//! All that one call is lent: a buffer, a name file, a name, an output.

use crate::lent::Lent;
use crate::told::{front, hex};
use peer::generate::chance::Chance;

#[derive(Default)]
pub struct Loan {
    pub buffer: Lent,
    pub names: Lent,
    pub name: Lent,
    pub out: Lent,
    /// What the output holds before the call.
    pub fill: u8,
}

impl Loan {
    pub fn ready(
        &mut self,
        chance: &mut Chance,
        buffer: &[u8],
        names: &[u8],
        room: usize,
        name: &[u8],
    ) {
        self.fill = chance.byte();
        self.buffer.copy(chance, buffer);
        self.names.copy(chance, names);
        self.name.copy(chance, name);
        self.out.fill(chance, room, self.fill);
    }

    /// What is not as it must be after a call: the buffer and the name file as the peer leaves them, the name, the text or the copy written, and the output past it.
    pub fn fault(
        &self,
        buffer: &[u8],
        names: &[u8],
        name: &[u8],
        written: &[u8],
    ) -> Option<String> {
        for (lent, left) in [(&self.buffer, buffer), (&self.names, names)] {
            let given = lent.bytes();
            if given != left {
                return Some(format!(
                    "the library leaves {}\nthe peer leaves {}",
                    hex(given),
                    hex(left)
                ));
            }
        }
        if self.name.bytes() != name {
            return Some("the library changed the name".to_string());
        }
        self.output_fault(written)
    }

    pub fn output_fault(&self, written: &[u8]) -> Option<String> {
        let out = self.out.bytes();
        if !out.starts_with(written) {
            let given = front(&out[..written.len().min(out.len())]);
            return Some(format!("the library writes {given}"));
        }
        if !all_are(&out[written.len()..], self.fill) {
            return Some("the library changed the output past what it wrote".to_string());
        }
        let lent = [&self.buffer, &self.names, &self.name, &self.out];
        if !lent.iter().all(|lent| lent.guards_hold()) {
            return Some("the library changed bytes beside the lent ones".to_string());
        }
        None
    }
}

/// Comparing the bytes with themselves, one further on, is quicker than one by one.
fn all_are(bytes: &[u8], byte: u8) -> bool {
    match bytes.first() {
        Some(&first) => first == byte && bytes[1..] == bytes[..bytes.len() - 1],
        None => true,
    }
}
