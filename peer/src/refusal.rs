//! The answer given in place of a result: a number and a place, as documents 01 and 02 give them.

#[derive(Clone, Copy, Debug, PartialEq, Eq)]
pub struct Refusal {
    pub number: u32,
    pub place: usize,
}

impl Refusal {
    pub fn new(number: u32) -> Refusal {
        Refusal { number, place: 0 }
    }

    pub fn at(number: u32, place: usize) -> Refusal {
        Refusal { number, place }
    }
}

/// Refuses with the number given where the condition holds.
pub fn refuse_if(condition: bool, number: u32) -> Result<(), Refusal> {
    if condition {
        Err(Refusal::new(number))
    } else {
        Ok(())
    }
}
