//! Bytes whose end is one byte over and over: their form in a file of cases, where a long buffer takes little room.

#[derive(Clone, Debug, Default, PartialEq, Eq)]
pub struct Filled {
    pub length: u32,
    pub fill: u8,
    /// The front; the rest is the fill byte.
    pub given: Vec<u8>,
}

impl Filled {
    /// Equal bytes at the end become the fill.
    pub fn new(bytes: &[u8]) -> Filled {
        let fill = bytes.last().copied().unwrap_or(0);
        let kept = bytes.iter().rposition(|&byte| byte != fill);
        Filled {
            length: bytes.len() as u32,
            fill,
            given: bytes[..kept.map_or(0, |last| last + 1)].to_vec(),
        }
    }

    pub fn bytes(&self) -> Vec<u8> {
        let mut bytes = self.given.clone();
        bytes.resize(self.length as usize, self.fill);
        bytes
    }
}
