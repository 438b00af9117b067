//! Verdicts, refusals and the answer of a judged call, with the numbers of 01 as 02 amends them.

use std::fmt;

use crate::setting;

/// The rule id of an answer or event that no rule stands behind.
pub const NO_RULE: u16 = 65_535;
/// The place that refusal 4 carries where no rule is at fault.
pub const NO_PLACE: u8 = 64;

#[derive(Clone, Copy, PartialEq, Eq, Debug)]
#[repr(u8)]
pub enum Verdict {
    Passed = 0,
    PassedByDefault = 1,
    Blocked = 2,
    OverRate = 3,
    /// No place is free, or the socket is at its number.
    NoFreePlace = 5,
    BlockedByDefault = 6,
    /// The four flags are no kind of segment, whether a conversation is held or not.
    WrongFlags = 40,
    /// The kind is not open, and no such conversation is held.
    NoSuchConversation = 41,
    /// A conversation is held, in a state in which 01's table does not allow the kind.
    KindNotAllowed = 42,
}

impl Verdict {
    pub fn number(self) -> u8 {
        self as u8
    }

    pub fn passes(self) -> bool {
        matches!(self, Verdict::Passed | Verdict::PassedByDefault)
    }
}

#[derive(Clone, Copy, PartialEq, Eq, Debug)]
pub enum Refusal {
    ShortFrame,
    LongFrame,
    SmallSpace,
    /// The first rule at fault and the first setting at fault in it.
    BadTable {
        place: u8,
        setting: u8,
    },
    BadRecord,
    NoSuchState,
    /// A record of a capture stored shorter than it was on the wire.
    StoredShort,
    /// A capture whose file header is short or no good one.
    BadCapture,
    /// A socket above 1.
    NoSuchSocket,
}

impl Refusal {
    /// The fault is in the rule count or the states: no rule, and none of its settings.
    pub const NO_RULE_AT_FAULT: Refusal = Refusal::BadTable { place: NO_PLACE, setting: setting::NONE };

    pub fn number(self) -> u8 {
        match self {
            Refusal::ShortFrame => 1,
            Refusal::LongFrame => 2,
            Refusal::SmallSpace => 3,
            Refusal::BadTable { .. } => 4,
            Refusal::BadRecord => 5,
            Refusal::NoSuchState => 6,
            Refusal::StoredShort => 7,
            Refusal::BadCapture => 8,
            Refusal::NoSuchSocket => 9,
        }
    }

    /// Only refusal 4 carries a place and a setting; the others give 0 and 0.
    pub fn place_and_setting(self) -> (u8, u8) {
        match self {
            Refusal::BadTable { place, setting } => (place, setting),
            _ => (0, 0),
        }
    }
}

/// The three numbers that a refusal carries.
impl fmt::Display for Refusal {
    fn fmt(&self, to: &mut fmt::Formatter) -> fmt::Result {
        let (place, setting) = self.place_and_setting();
        write!(to, "{} {place} {setting}", self.number())
    }
}

#[derive(Clone, Copy, PartialEq, Eq, Debug)]
pub struct Answer {
    pub verdict: Verdict,
    pub rule: u16,
    /// How many bytes of the event space were written.
    pub length: usize,
}
