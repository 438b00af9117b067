//! Writes small captures, and looks at what it writes to know what they reach (02, 4/12).

mod flow;
mod header;
mod seen;

use std::fs;
use std::io;
use std::path::Path;

use crate::answer::Refusal;
use crate::capture::{Form, Head, Header, FILE_HEADER, FORMS, KEPT, RECORD_HEADER};
use crate::layers::{LONGEST, SHORTEST};
use crate::random::Random;
use crate::reach::Reach;
use flow::Flow;
use header::{Fault, FAULTS};

/// From this many captures on, everything named must be reached.
pub const ENOUGH: u64 = 300;
/// Records of one capture whose lines fill an output buffer, and those whose bytes fill an input buffer.
const MANY: usize = 5_000;
const LARGE: usize = 60;
const SEGMENTS: usize = 40;

/// What a capture is made to show, beside any records.
#[derive(Clone, Copy)]
enum Show {
    NoRecords(Form),
    /// So many bytes of a good file header and no more.
    ShortHeader(usize),
    BadHeader(Fault),
    /// So many bytes of a record's header at the end.
    CutHeader(usize),
    Cut(Cut),
    /// A refused record, later than those around it, moves no clock; or it ages nothing.
    KeepsClock(Refusal),
    AgesNothing(Refusal),
    RefusedFirst(Refusal),
    /// Many segments of few conversations.
    Segments,
    /// Records stored longer than they were on the wire and refused for their length, and records stored shorter.
    StoredMore,
    StoredShort,
    /// Thousands of records without bytes.
    Many,
    /// Many of the longest frames.
    Large,
    /// A record of so many bytes.
    Long(u32),
}

/// How many bytes are there of a record that the end cuts short.
#[derive(Clone, Copy)]
enum Cut {
    BehindHeader,
    InBytes,
    LastByte,
    /// Of one that would be refused 1, and of one that would be refused 7.
    TooShort,
    StoredShort,
    /// Of one that would be refused 2: fewer than are kept, as many, more, all but one.
    TooLong,
    TooLongAtKept,
    TooLongBeyond,
    TooLongLastByte,
    /// Of one that says it stores so many, a few or a few thousand.
    Vast(u32),
    VastBeyond(u32),
}

const CUTS: [Cut; 15] = [
    Cut::BehindHeader,
    Cut::InBytes,
    Cut::LastByte,
    Cut::TooShort,
    Cut::StoredShort,
    Cut::TooLong,
    Cut::TooLongAtKept,
    Cut::TooLongBeyond,
    Cut::TooLongLastByte,
    // as a signed number below 0; one that wraps with the header, and one with the file header too; the highest
    Cut::Vast(1 << 31),
    Cut::Vast(u32::MAX - 15),
    Cut::Vast(u32::MAX - 39),
    Cut::Vast(u32::MAX),
    Cut::VastBeyond(1 << 31),
    Cut::VastBeyond(u32::MAX),
];

/// What a record can be refused for.
const REFUSALS: [Refusal; 3] = [Refusal::ShortFrame, Refusal::LongFrame, Refusal::StoredShort];

impl Show {
    fn all() -> Vec<Show> {
        let mut all: Vec<Show> = FORMS.map(Show::NoRecords).to_vec();
        all.extend((0..FILE_HEADER).map(Show::ShortHeader));
        all.extend(FAULTS.map(Show::BadHeader));
        all.extend((1..RECORD_HEADER).map(Show::CutHeader));
        all.extend(CUTS.map(Show::Cut));
        all.extend(REFUSALS.map(Show::KeepsClock));
        all.extend(REFUSALS.map(Show::AgesNothing));
        all.extend(REFUSALS.map(Show::RefusedFirst));
        all.extend([Show::Segments, Show::StoredMore, Show::StoredShort]);
        // the last is of 60 bytes if its length is taken in 16 bits
        all.extend([Show::Many, Show::Large, Show::Long(20_000), Show::Long(60_001), Show::Long(65_536 + 60)]);
        all
    }
}

impl Cut {
    /// How many bytes it says it stores, how many it had on the wire, how many are there.
    fn draw(self, random: &mut Random) -> (u32, u32, u32) {
        let good = random.between(SHORTEST as u64, LONGEST as u64) as u32;
        let short = random.between(1, SHORTEST as u64 - 1) as u32;
        let long = random.between(KEPT as u64 + 2, 3_000) as u32;
        let kept = KEPT as u32;
        let few = random.below(20) as u32;
        match self {
            Cut::BehindHeader => (good, good, 0),
            Cut::InBytes => (good, good, random.between(1, u64::from(good) - 1) as u32),
            Cut::LastByte => (good, good, good - 1),
            Cut::TooShort => (short, short, random.below(short.into()) as u32),
            Cut::StoredShort => (good, good + 1 + few, random.below(good.into()) as u32),
            Cut::TooLong => (long, long, random.below(kept.into()) as u32),
            Cut::TooLongAtKept => (long, long, kept),
            Cut::TooLongBeyond => (long, long, random.between(kept.into(), u64::from(long) - 1) as u32),
            Cut::TooLongLastByte => (long, long, long - 1),
            Cut::Vast(stored) => (stored, stored, few),
            Cut::VastBeyond(stored) => (stored, random.pick(&[0, 60, stored, u32::MAX]), kept + 500 + few),
        }
    }
}

/// Draws captures, one after the other.
pub struct Captures {
    random: Random,
    pub reach: Reach,
    shows: Vec<Show>,
    /// How many of the odd lengths came: they come in turn, so that each comes before any comes twice.
    odd: usize,
}

/// Writes so many captures and says what they reached; true if nothing is missing.
pub fn write(seed: u64, count: u64, directory: &Path) -> io::Result<bool> {
    fs::create_dir_all(directory)?;
    let mut captures = Captures::new(seed);
    for number in 0..count {
        fs::write(directory.join(format!("{number}.pcap")), captures.draw(number))?;
    }
    Ok(captures.reach.report() == 0)
}

impl Captures {
    pub fn new(seed: u64) -> Captures {
        Captures { random: Random::new(seed), reach: Reach::of(seen::names()), shows: Show::all(), odd: 0 }
    }

    /// Every second capture is made to show something, in turn.
    pub fn draw(&mut self, number: u64) -> Vec<u8> {
        let turn = number as usize / 2;
        let bytes = if number % 2 == 0 { self.records() } else { self.show(turn) };
        seen::look(&bytes, &mut self.reach);
        bytes
    }

    fn records(&mut self) -> Vec<u8> {
        let form = self.random.pick(&FORMS);
        let count = self.random.between(1, 30) as usize;
        let mut flow = self.flow(form);
        flow.any_records(count);
        flow.bytes
    }

    fn show(&mut self, turn: usize) -> Vec<u8> {
        let show = self.shows[turn % self.shows.len()];
        let form = match show {
            Show::NoRecords(form) => form,
            _ => self.random.pick(&FORMS),
        };
        let before = [0, 1, 0, 3][turn % 4];
        let mut flow = self.flow(form);
        match show {
            Show::NoRecords(_) => {}
            Show::ShortHeader(length) => flow.bytes.truncate(length),
            Show::BadHeader(fault) => {
                flow.any_records(2);
                flow.spoil_header(fault);
            }
            Show::CutHeader(length) => {
                flow.any_records(before + 1);
                flow.cut_last_header(length);
            }
            Show::Cut(cut) => {
                flow.any_records(before);
                flow.cut_record(cut);
            }
            Show::KeepsClock(refusal) => flow.keeps_clock(refusal),
            Show::AgesNothing(refusal) => flow.ages_nothing(refusal),
            Show::RefusedFirst(refusal) => {
                flow.refused(refusal);
                flow.any_records(5);
            }
            Show::Segments => flow.segments(SEGMENTS),
            Show::StoredMore => flow.stored_more(),
            Show::StoredShort => flow.stored_short(),
            Show::Many => flow.many(MANY),
            Show::Large => flow.large(LARGE),
            Show::Long(length) => {
                flow.any_records(before);
                flow.long(length);
                flow.any_records(3);
            }
        }
        let bytes = flow.bytes;
        if let Show::BadHeader(fault) = show {
            self.reach.hit(fault.name);
        }
        bytes
    }

    /// A capture of this form without records; the fields of its header that are not looked at hold anything.
    fn flow(&mut self, form: Form) -> Flow<'_> {
        let random = &mut self.random;
        let header = Header {
            zone: random.pick(&[0, 0, 3_600, u32::MAX]),
            accuracy: random.pick(&[0, 0, 6, u32::MAX]),
            snap: random.pick(&[65_535, 262_144, 0, 50, u32::MAX]),
            ..Header::good(form.precision)
        };
        Flow::new(form, header, random, &mut self.odd)
    }
}
