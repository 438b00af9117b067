//! The records of a capture in another form of the file.

use std::io::{self, Error, ErrorKind, Read, Write};

use crate::capture::{Capture, Form, Head, Header, Next, Order, Precision};

/// The form that these words name.
pub fn form(order: &str, precision: &str) -> Option<Form> {
    let order = match order {
        "big" => Order::Big,
        "little" => Order::Little,
        _ => return None,
    };
    let precision = match precision {
        "micro" => Precision::Micro,
        "nano" => Precision::Nano,
        _ => return None,
    };
    Some(Form { order, precision })
}

/// Times are kept; from nano to micro what is below a microsecond goes. A record that is cut stays cut.
pub fn rewrite(input: impl Read, to: Form, output: &mut impl Write) -> io::Result<()> {
    let mut capture = Capture::open_good(input)?;
    let from = capture.form.precision;
    output.write_all(&Header { magic: to.precision.magic(), ..capture.header }.bytes(to.order))?;
    loop {
        let head = match capture.head()? {
            Next::Record(head) => head,
            // of a cut header one byte is as good as fifteen
            Next::Cut => {
                output.write_all(&[0])?;
                break;
            }
            Next::End => break,
        };
        let timed = with_precision(head, from, to.precision)
            .ok_or_else(|| Error::new(ErrorKind::InvalidData, "a time that no nanoseconds can say"))?;
        output.write_all(&timed.bytes(to.order))?;
        io::copy(&mut capture.input.by_ref().take(head.stored.into()), output)?;
    }
    output.flush()
}

/// Where more nanoseconds come of it than the field holds, its whole seconds go to the others; none where these have no room.
fn with_precision(head: Head, from: Precision, to: Precision) -> Option<Head> {
    let (seconds, fraction) = match (from, to) {
        (Precision::Nano, Precision::Micro) => (head.seconds, head.fraction / 1_000),
        (Precision::Micro, Precision::Nano) => match head.fraction.checked_mul(1_000) {
            Some(fraction) => (head.seconds, fraction),
            None => (head.seconds.checked_add(head.fraction / 1_000_000)?, head.fraction % 1_000_000 * 1_000),
        },
        _ => (head.seconds, head.fraction),
    };
    Some(Head { seconds, fraction, ..head })
}
