//! Compares the text of one number.

use crate::loan::Loan;
use lepsaino::raw::lepsaino_number;
use peer::generate::chance::Chance;

pub fn compare(chance: &mut Chance, loan: &mut Loan) -> Result<(), String> {
    let number = some_number(chance);
    let whole = peer::number(number);
    let room = some_room(chance, whole.len());
    let text = if whole.len() <= room { &whole[..] } else { "" };
    loan.ready(chance, &[], &[], room, &[]);
    let length = written(chance, loan, number);
    let fault = match loan.output_fault(text.as_bytes()) {
        None if length == text.len() => return Ok(()),
        fault => fault.unwrap_or_default(),
    };
    Err(format!("number {number} into {room} bytes\nthe peer gives {text:?}\nthe library gives {length}\n{fault}"))
}

fn written(chance: &mut Chance, loan: &mut Loan, number: u64) -> usize {
    if chance.one_in(4) {
        return lepsaino::number(loan.out.bytes_mut(), number).unwrap_or(0);
    }
    let (out, room) = loan.out.pointer(chance);
    // SAFETY: the pointer is to so many bytes that nothing else uses, or null with the length 0.
    unsafe { lepsaino_number(out, room, number) }
}

/// Numbers of every length; those beside a power of ten, and those beside two to the 53, come often.
fn some_number(chance: &mut Chance) -> u64 {
    let power = 10u64.pow(chance.below(20) as u32);
    let step = chance.long_below(5).wrapping_sub(2);
    match chance.below(4) {
        0 => (1u64 << 53).wrapping_add(step),
        1 => power.wrapping_add(step),
        2 => chance
            .pick(&[0, u64::MAX, 1 << 63, (1 << 63) - 1, 1 << 32])
            .wrapping_add(step),
        _ => chance.long() >> chance.below(64),
    }
}

/// Often just enough room, or one byte too little.
fn some_room(chance: &mut Chance, length: usize) -> usize {
    let any = chance.below(40);
    chance.pick(&[length, length - 1, length + 1, 0, any])
}
