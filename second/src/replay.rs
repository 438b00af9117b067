//! A capture judged under table T, a line for each record (02, 4/12).

use std::io::{self, Read, Write};

use crate::answer::{Answer, Refusal};
use crate::capture::{Capture, Head, Next};
use crate::event;
use crate::judge::judge;
use crate::layers::be16;
use crate::records::{fresh, Records};
use crate::table::Table;
use crate::table_t::table_t;

/// "captures and M1 to M11 use socket 0" (02, 6/12).
pub const SOCKET: u8 = 0;

/// Table T and its records from one record of a capture to the next.
pub struct Replay {
    table: Table,
    records: Records,
    space: [u8; event::SPACE],
}

impl Replay {
    /// Fresh at the time of the first record, whatever comes of it.
    pub fn new(time: u64) -> Replay {
        let table = table_t();
        let records = fresh(&table, time).expect("table T is good");
        Replay { table, records, space: [0; event::SPACE] }
    }

    /// A record stored shorter than it was on the wire is refused before its bytes are looked at; one stored longer is judged as stored.
    pub fn judge(&mut self, time: u64, head: &Head, frame: &[u8]) -> Result<Answer, Refusal> {
        if head.stored < head.wire {
            return Err(Refusal::StoredShort);
        }
        judge(&self.table, &mut self.records, SOCKET, frame, time, &mut self.space)
    }

    /// The last reading that the records have seen.
    #[cfg(test)]
    pub fn last(&self) -> u64 {
        self.records.last
    }

    /// The number of the event that this answer has written, 0 where there is none.
    pub fn event(&self, answer: Answer) -> u16 {
        if answer.length == 0 {
            0
        } else {
            be16(&self.space, 0)
        }
    }
}

/// Prints the lines of a capture.
pub fn lines(input: impl Read, output: &mut impl Write) -> io::Result<()> {
    match Capture::open(input)? {
        None => writeln!(output, "R {}", Refusal::BadCapture.number())?,
        Some(mut capture) => record_lines(&mut capture, output)?,
    }
    output.flush()
}

fn record_lines(capture: &mut Capture<impl Read>, output: &mut impl Write) -> io::Result<()> {
    let precision = capture.form.precision;
    let mut replay = None;
    for place in 0u64.. {
        let (head, frame) = match capture.record()? {
            Next::Record(record) => record,
            Next::Cut => return writeln!(output, "cut"),
            Next::End => break,
        };
        let time = head.milliseconds(precision);
        let replay = replay.get_or_insert_with(|| Replay::new(time));
        match replay.judge(time, &head, frame) {
            Ok(answer) => {
                let (verdict, rule, event) = (answer.verdict.number(), answer.rule, replay.event(answer));
                writeln!(output, "{place} {time} {verdict} {rule} {event}")?;
            }
            Err(refusal) => writeln!(output, "{place} {time} R {}", refusal.number())?,
        }
    }
    Ok(())
}
