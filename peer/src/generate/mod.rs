//! Makes cases without end from a seed: each kind of case is one short function.

pub mod chance;
pub mod cut;
pub mod cut_cases;
pub mod damage;
pub mod document;
pub mod draft;
mod draft_names;
pub mod filed;
pub mod filed_cases;
pub mod gone;
pub mod gone_cases;
pub mod mend_cases;
pub mod mending;
pub mod microseconds;
pub mod name_files;
pub mod names;
pub mod naming_cases;
pub mod readings;
pub mod reads;
pub mod sketch;
pub mod sound;
pub mod values;
pub mod writes;

use crate::case::Case;
use chance::Chance;
use readings::Readings;

pub struct Generator {
    chance: Chance,
    readings: Readings,
    made: u64,
}

impl Generator {
    pub fn new(seed: u64) -> Generator {
        Generator::with_readings(seed, false)
    }

    /// No two whole listings that are accepted share a key.
    pub fn with_distinct_keys(seed: u64) -> Generator {
        Generator::with_readings(seed, true)
    }

    fn with_readings(seed: u64, distinct: bool) -> Generator {
        Generator {
            chance: Chance::new(seed),
            readings: Readings::new(distinct),
            made: 0,
        }
    }

    pub fn next_case(&mut self) -> Case {
        let mut case = match self.chance.below(312) {
            0..=23 => reads::sound_dump(self),
            24..=35 => gone::gone_threads(self),
            36..=45 => reads::many_threads(self),
            46..=90 => reads::damaged_once(self),
            91..=93 => gone::comes_back(self),
            94..=119 => reads::damaged_twice(self),
            120..=131 => cut::cut_dump(self),
            132..=143 => reads::flipped_bits(self),
            144..=152 => reads::cut_or_lengthened(self),
            153..=157 => reads::random_bytes(self),
            158..=161 => reads::header_only(self),
            162..=165 => reads::filled(self),
            166..=169 => microseconds::at_the_limit(self),
            170..=192 => writes::history(self),
            193..=200 => writes::registry(self),
            201..=214 => writes::formatting(self),
            215..=226 => mending::one_harm(self),
            227..=238 => mending::several_harms(self),
            239..=241 => mending::harms_and_refusal(self),
            242..=269 => filed::sound_names(self),
            270..=280 => filed::damaged_names(self),
            281..=293 => filed::all_broken(self),
            294..=301 => filed::written_names(self),
            302..=306 => filed::name_offsets(self),
            307..=310 => filed::many_names(self),
            _ => filed::long_name(self),
        };
        self.made += 1;
        case.title = format!("{} {}", self.made, case.title);
        case
    }
}
