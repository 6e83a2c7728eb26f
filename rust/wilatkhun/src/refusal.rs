//! Refusals, in words that a crew understands: those of README.md's table.

use std::fmt;

/// Why a call refused: the number of the specification's table (or of `include/wilatkhun.h`) and its index. It changes
/// nothing: whatever was lent to the call is as it was. Printed, it says what is wrong and what to do.
#[derive(Clone, Copy, PartialEq, Eq, Hash, Debug)]
pub struct Refusal {
    /// 1 to 9 the plan, 10 a record, 11 the yard, 12 the roll's length, 13 the engaged bytes, 14 to 19 the plan file,
    /// 20 the bytes lent for one, 27 a plan or yard of the wrong length.
    pub number: u8,
    /// The device, slot or record at fault, from 1; 0 where there is none to name.
    pub index: usize,
}

struct Words {
    number: u8,
    wrong: &'static str,
    index: &'static str,
    advice: &'static str,
}

/// README.md's table, row by row.
static WORDS: &[Words] = &include!(concat!(env!("OUT_DIR"), "/words.rs"));

static NONE: Words = Words { number: 0, wrong: "no refusal has this number", index: "0", advice: "nothing" };

impl Refusal {
    fn words(&self) -> &'static Words {
        WORDS.iter().find(|words| words.number == self.number).unwrap_or(&NONE)
    }

    /// What is wrong.
    pub fn what(&self) -> &'static str {
        self.words().wrong
    }

    /// What the index names: a device, a slot, a record; `0` where there is none to name.
    pub fn index_names(&self) -> &'static str {
        self.words().index
    }

    /// What to do about it.
    pub fn advice(&self) -> &'static str {
        self.words().advice
    }
}

impl fmt::Display for Refusal {
    fn fmt(&self, f: &mut fmt::Formatter<'_>) -> fmt::Result {
        let Words { wrong, index, advice, .. } = self.words();
        write!(f, "refused {} {}: {wrong} (index: {index}); what to do: {advice}", self.number, self.index)
    }
}

impl std::error::Error for Refusal {}
