//! A classic pcap capture as a case stream: table T, fresh records at the first record's time, a judged call for each record.

use std::io::{self, Error, ErrorKind, Read, Write};

use crate::capture::{Capture, Next};
use crate::image::write_table;
use crate::random::Random;
use crate::table_t::table_t;

/// The event space of each call.
const SPACE: u16 = 256;

/// Writes the stream, and ends with the records printed. A record that is cut, or was on the wire longer than it is stored, is none that a
/// call can judge.
pub fn stream(input: &mut impl Read, output: &mut impl Write) -> io::Result<()> {
    let bad = || Error::new(ErrorKind::InvalidData, "a record that is not whole");
    let mut capture = Capture::open_good(input)?;
    let precision = capture.form.precision;
    output.write_all(b"T")?;
    output.write_all(&write_table(&table_t(), &mut Random::new(0)))?;
    let mut started = false;
    loop {
        let (head, frame) = match capture.record()? {
            Next::Record((head, frame)) if head.stored >= head.wire => (head, frame),
            Next::End => break,
            _ => return Err(bad()),
        };
        let reading = head.milliseconds(precision);
        if !started {
            output.write_all(b"F")?;
            output.write_all(&reading.to_be_bytes())?;
            started = true;
        }
        output.write_all(b"J")?;
        output.write_all(&reading.to_be_bytes())?;
        output.write_all(&SPACE.to_be_bytes())?;
        output.write_all(&(frame.len() as u16).to_be_bytes())?;
        output.write_all(frame)?;
    }
    output.write_all(b"P")
}
