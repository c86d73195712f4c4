//! Compares inputs: the peer's answer with the library's, and every byte that was lent.

use crate::change::change;
use crate::loan::Loan;
use crate::tally::Tally;
use crate::told::{shown, told};
use crate::{expected, number, pieces, plain, states, wrapped};
use peer::answers::{answer, Reply};
use peer::call::Call;
use peer::case::Case;
use peer::generate::chance::Chance;
use std::borrow::Cow;

pub struct Comparison {
    chance: Chance,
    loan: Loan,
    /// The buffer as it is before a call.
    before: Vec<u8>,
    /// The name file as it is before a call.
    names_before: Vec<u8>,
    /// A buffer near the case's own.
    near: Vec<u8>,
    /// A name file near the case's own.
    names_near: Vec<u8>,
    pub tally: Tally,
}

impl Comparison {
    pub fn new(seed: u64) -> Comparison {
        Comparison {
            // The generator starts from the seed itself.
            chance: Chance::new(!seed),
            loan: Loan::default(),
            before: Vec::new(),
            names_before: Vec::new(),
            near: Vec::new(),
            names_near: Vec::new(),
            tally: Tally::default(),
        }
    }

    /// Makes the calls of a case in turn, each first on a buffer and a name file near those that it finds. An error tells the first difference.
    pub fn case(&mut self, case: &Case) -> Result<(), String> {
        let mut buffer = case.buffer();
        let mut names = case.names();
        for (index, call) in case.calls.iter().enumerate() {
            if *call != Call::Bytes {
                self.call(&mut buffer, &mut names, call)
                    .map_err(|difference| format!("call {}, {}", index + 1, difference))?;
            }
        }
        self.tally.count_number();
        number::compare(&mut self.chance, &mut self.loan)
    }

    fn call(&mut self, buffer: &mut [u8], names: &mut [u8], call: &Call) -> Result<(), String> {
        for _ in 0..self.times_changed(buffer.len().max(names.len())) {
            self.input_near(buffer, names, call)?;
        }
        self.input(buffer, names, call)
    }

    /// Large buffers take long, and a change in them seldom matters.
    fn times_changed(&mut self, length: usize) -> usize {
        match length {
            0..=1023 => 2,
            1024..=8191 => 1,
            _ => usize::from(self.chance.one_in(8)),
        }
    }

    fn input_near(&mut self, buffer: &[u8], names: &[u8], call: &Call) -> Result<(), String> {
        let mut near = std::mem::take(&mut self.near);
        near.clear();
        near.extend_from_slice(buffer);
        let mut names_near = std::mem::take(&mut self.names_near);
        names_near.clear();
        names_near.extend_from_slice(names);
        let (in_buffer, in_names) = self.changed_parts(call);
        if in_buffer {
            change(&mut self.chance, &mut near);
        }
        if in_names {
            change(&mut self.chance, &mut names_near);
        }
        let inputs = self.tally.inputs;
        let result = self.input(&mut near, &mut names_near, call);
        self.tally.changed += self.tally.inputs - inputs;
        self.near = near;
        self.names_near = names_near;
        result
    }

    /// Whether the buffer and the name file are changed: what the call takes no notice of is not.
    fn changed_parts(&mut self, call: &Call) -> (bool, bool) {
        match call.letter() {
            b'E' | b'N' | b'L' | b'A' => {
                let parts = [(true, false), (false, true), (false, true), (true, true)];
                self.chance.pick(&parts)
            }
            b'r' => (false, true),
            _ => (true, false),
        }
    }

    /// One call, by the peer on this buffer and this name file and by the library on copies.
    fn input(&mut self, buffer: &mut [u8], names: &mut [u8], call: &Call) -> Result<(), String> {
        self.before.clear();
        self.before.extend_from_slice(buffer);
        self.names_before.clear();
        self.names_before.extend_from_slice(names);
        let (chance, name) = (&mut self.chance, name(call));
        self.loan.ready(chance, buffer, names, room(call), &name);
        let reply = answer(buffer, names, call);
        self.tally.count(&self.before, call, &reply);
        let differing = self.differing(call, &reply);
        let faulty = differing.or_else(|| self.fault(buffer, names, call, &reply));
        match faulty.or_else(|| self.in_pieces(call, &reply)) {
            None => Ok(()),
            Some(difference) => {
                let (before, names) = (&self.before, &self.names_before);
                Err(told(before, names, call, &reply, &difference))
            }
        }
    }

    /// What differs where the dump that was checked comes in pieces; now and then a state with changed fields goes on with it.
    fn in_pieces(&mut self, call: &Call, reply: &Reply) -> Option<String> {
        if *call != Call::Check {
            return None;
        }
        self.tally.count_in_pieces(&self.before, reply);
        let (chance, lent) = (&mut self.chance, &mut self.loan.buffer);
        let mut compared = pieces::compare(chance, lent, &self.before, reply);
        if compared.is_ok() && chance.one_in(16) {
            self.tally.states += 1;
            compared = states::compare(chance, lent, &self.before);
        }
        compared.err()
    }

    /// The library's answer, where it is not the peer's.
    fn differing(&mut self, call: &Call, reply: &Reply) -> Option<String> {
        if self.chance.one_in(4) {
            let given = wrapped::answer(&mut self.chance, &mut self.loan, call)
                .expect("the library has this call");
            (given != *reply).then(|| format!("the wrapper gives {}", shown(&given)))
        } else {
            let given = plain::answer(&mut self.chance, &mut self.loan, call)
                .expect("the library has this call");
            let equal = expected::given(reply).as_ref() == Some(&given);
            (!equal).then(|| format!("the library gives {given:?}"))
        }
    }

    /// What is wrong with the bytes after the call.
    fn fault(&self, buffer: &[u8], names: &[u8], call: &Call, reply: &Reply) -> Option<String> {
        let written = match reply {
            Reply::Text {
                result: Ok(text), ..
            } => &text[..],
            Reply::Mend {
                result: Ok(answer), ..
            } => &answer.copy,
            _ => &[],
        };
        let writes = matches!(reply, Reply::Written { result: Ok(_), .. });
        let of_names = matches!(call, Call::WriteName(_));
        let buffer_stays = !writes || of_names;
        let names_stay = !writes || !of_names;
        if buffer_stays && buffer != self.before || names_stay && names != self.names_before {
            return Some("the peer changed bytes that must stay".to_string());
        }
        self.loan.fault(buffer, names, &name(call), written)
    }
}

/// The room for the text of a line or a listing, or for a mended copy.
fn room(call: &Call) -> usize {
    match call {
        Call::Line { room, .. }
        | Call::Listing { room, .. }
        | Call::LineWithNames { room, .. }
        | Call::ListingWithNames { room, .. }
        | Call::Mend { room } => *room as usize,
        _ => 0,
    }
}

/// The name of an object to register, or of a record to write.
fn name(call: &Call) -> Cow<'_, [u8]> {
    match call {
        Call::Register(registration) => Cow::Borrowed(&registration.name),
        Call::WriteName(naming) => Cow::Owned(naming.name.bytes()),
        _ => Cow::Borrowed(&[]),
    }
}
