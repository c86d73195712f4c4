//! Counts of the mendings that were compared.

use peer::answers::MendAnswer;
use peer::mend::COUNTS;
use peer::Refusal;
use std::fmt;

#[derive(Default)]
pub struct Mends {
    accepted: u64,
    refused: u64,
    /// The accepted ones with each of the counts above 0.
    above: [u64; COUNTS.len()],
}

impl Mends {
    pub fn count(&mut self, result: &Result<MendAnswer, Refusal>) {
        let answer = match result {
            Ok(answer) => answer,
            Err(_) => {
                self.refused += 1;
                return;
            }
        };
        self.accepted += 1;
        for (sum, count) in self.above.iter_mut().zip(answer.mended.counts()) {
            *sum += u64::from(count > 0);
        }
    }

    /// The counts that were always 0.
    pub fn missing(&self) -> Vec<String> {
        COUNTS
            .iter()
            .zip(self.above)
            .filter(|(_, sum)| *sum == 0)
            .map(|(name, _)| format!("mend with {name} above 0"))
            .collect()
    }
}

impl fmt::Display for Mends {
    fn fmt(&self, text: &mut fmt::Formatter) -> fmt::Result {
        writeln!(text, "{:>10} mends accepted", self.accepted)?;
        writeln!(text, "{:>10} mends refused", self.refused)?;
        for (name, sum) in COUNTS.iter().zip(self.above) {
            writeln!(text, "{:>10} mends with {} above 0", sum, name)?;
        }
        Ok(())
    }
}
