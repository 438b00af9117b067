//! The case stream: reads calls by parts, makes them, prints what they answer.

use std::io::{self, Read, Write};

use crate::answer::{Answer, Refusal};
use crate::image::{self, RECORD_IMAGE, TABLE_IMAGE};
use crate::judge::judge;
use crate::layers::{self, be16, be64, Addresses, Ip, Kind, Layers, SomeIp, ACK, FIN, RST, SYN};
use crate::records::{self, Conversation, Records, FREE};
use crate::table::{Table, PLACES, RULES, SOCKETS};

pub const LONGEST_FRAME: usize = 2_048;
pub const LARGEST_SPACE: usize = 512;
/// What every byte of the event space holds before a call.
pub const UNTOUCHED: u8 = 170;

/// The current table and records, and room for what a call carries.
struct Run {
    table: Table,
    records: Records,
    /// That of the judge calls that follow.
    socket: u8,
    image: Vec<u8>,
    frame: [u8; LONGEST_FRAME],
    space: [u8; LARGEST_SPACE],
}

/// What the calls `J` and `B` carry beside the frame.
struct Judging {
    reading: u64,
    size: usize,
    length: usize,
}

/// Why a run ends before its input does.
enum Stop {
    BadStream,
    Failed(io::Error),
}

impl From<io::Error> for Stop {
    fn from(error: io::Error) -> Stop {
        match error.kind() {
            io::ErrorKind::UnexpectedEof => Stop::BadStream,
            _ => Stop::Failed(error),
        }
    }
}

pub fn run(input: &mut impl Read, output: &mut impl Write) -> io::Result<()> {
    let mut run = Run {
        table: image::read_table(&[0; TABLE_IMAGE]),
        records: Records::empty(0),
        socket: 0,
        image: vec![0; RECORD_IMAGE],
        frame: [0; LONGEST_FRAME],
        space: [UNTOUCHED; LARGEST_SPACE],
    };
    while let Some(letter) = next_letter(input)? {
        match run.call(letter, input, output) {
            Ok(()) => {}
            Err(Stop::BadStream) => {
                writeln!(output, "?")?;
                break;
            }
            Err(Stop::Failed(error)) => return Err(error),
        }
    }
    output.flush()
}

/// The next call's letter; none where the input ends between two calls.
fn next_letter(input: &mut impl Read) -> io::Result<Option<u8>> {
    let mut letter = [0];
    match input.read_exact(&mut letter) {
        Ok(()) => Ok(Some(letter[0])),
        Err(error) if error.kind() == io::ErrorKind::UnexpectedEof => Ok(None),
        Err(error) => Err(error),
    }
}

fn take<const N: usize>(input: &mut impl Read) -> Result<[u8; N], Stop> {
    let mut bytes = [0; N];
    input.read_exact(&mut bytes)?;
    Ok(bytes)
}

impl Run {
    fn call(&mut self, letter: u8, input: &mut impl Read, output: &mut impl Write) -> Result<(), Stop> {
        match letter {
            b'T' => {
                input.read_exact(&mut self.image[..TABLE_IMAGE])?;
                self.table = image::read_table(&self.image);
            }
            b'R' => {
                input.read_exact(&mut self.image[..RECORD_IMAGE])?;
                self.records = image::read_records(&self.image);
            }
            b'C' => print_done(output, "C", records::check(&self.table, &self.records))?,
            b'F' => {
                let fresh = records::fresh(&self.table, u64::from_be_bytes(take(input)?));
                print_done(output, "F", fresh.map(|fresh| self.records = fresh))?;
            }
            b'V' => {
                let [state] = take(input)?;
                print_done(output, "V", records::switch(&self.table, &mut self.records, state))?;
            }
            b'S' => [self.socket] = take(input)?,
            b'J' => self.judge(input, output)?,
            b'B' => self.pace(input, output)?,
            b'L' => {
                let length = usize::from(u16::from_be_bytes(take(input)?));
                print_layers(output, layers::read(self.take_frame(input, length)?))?;
            }
            b'P' => print_records(output, &self.records)?,
            _ => return Err(Stop::BadStream),
        }
        Ok(())
    }

    fn take_frame(&mut self, input: &mut impl Read, length: usize) -> Result<&[u8], Stop> {
        if length > LONGEST_FRAME {
            return Err(Stop::BadStream);
        }
        input.read_exact(&mut self.frame[..length])?;
        Ok(&self.frame[..length])
    }

    fn take_judging(&mut self, input: &mut impl Read) -> Result<Judging, Stop> {
        let head: [u8; 12] = take(input)?;
        let (reading, size) = (be64(&head, 0), usize::from(be16(&head, 8)));
        let length = usize::from(be16(&head, 10));
        if size > LARGEST_SPACE {
            return Err(Stop::BadStream);
        }
        self.take_frame(input, length)?;
        Ok(Judging { reading, size, length })
    }

    /// Not inlined, so that each call of a long row is made in full.
    #[inline(never)]
    fn judge_once(&mut self, call: &Judging) -> Result<Answer, Refusal> {
        let space = &mut self.space[..call.size];
        space.fill(UNTOUCHED);
        judge(&self.table, &mut self.records, self.socket, &self.frame[..call.length], call.reading, space)
    }

    fn judge(&mut self, input: &mut impl Read, output: &mut impl Write) -> Result<(), Stop> {
        let call = self.take_judging(input)?;
        let judged = self.judge_once(&call);
        Ok(print_judged(output, judged, &self.space[..call.size])?)
    }

    /// One frame many times at readings that rise by a step; a reading that would pass the highest stays.
    fn pace(&mut self, input: &mut impl Read, output: &mut impl Write) -> Result<(), Stop> {
        let times = u32::from_be_bytes(take(input)?);
        let step = u64::from(u32::from_be_bytes(take(input)?));
        if times == 0 {
            return Err(Stop::BadStream);
        }
        let mut call = self.take_judging(input)?;
        let mut judged = self.judge_once(&call);
        for _ in 1..times {
            call.reading = call.reading.checked_add(step).unwrap_or(call.reading);
            judged = self.judge_once(&call);
        }
        Ok(print_judged(output, judged, &self.space[..call.size])?)
    }
}

fn print_done(output: &mut impl Write, letter: &str, done: Result<(), Refusal>) -> io::Result<()> {
    match done {
        Ok(()) => writeln!(output, "{letter}"),
        Err(refusal) => writeln!(output, "X {refusal}"),
    }
}

fn print_judged(output: &mut impl Write, judged: Result<Answer, Refusal>, space: &[u8]) -> io::Result<()> {
    let written = judged.map_or(0, |answer| answer.length);
    match judged {
        Ok(answer) => write!(output, "J {} {} {} ", answer.verdict.number(), answer.rule, answer.length)?,
        Err(refusal) => write!(output, "X {refusal}")?,
    }
    if judged.is_ok() && written == 0 {
        output.write_all(b"-")?;
    }
    print_hex(output, &space[..written])?;
    if space[written..].iter().any(|byte| *byte != UNTOUCHED) {
        output.write_all(b" dirty")?;
    }
    output.write_all(b"\n")
}

fn print_hex(output: &mut impl Write, bytes: &[u8]) -> io::Result<()> {
    const DIGITS: &[u8; 16] = b"0123456789abcdef";
    for byte in bytes {
        output.write_all(&[DIGITS[usize::from(byte >> 4)], DIGITS[usize::from(byte & 15)]])?;
    }
    Ok(())
}

fn print_layers(output: &mut impl Write, read: Result<Layers, Refusal>) -> io::Result<()> {
    let layers = match read {
        Ok(layers) => layers,
        Err(refusal) => return writeln!(output, "X {refusal}"),
    };
    write!(output, "L {:012x} {:012x} ", layers.dst, layers.src)?;
    match layers.tag {
        Some(tag) => write!(output, "{},{}", tag.priority, tag.vlan)?,
        None => write!(output, "-")?,
    }
    write!(output, " {} ", layers.ether)?;
    match layers.ip {
        Some(Ip::V4(ip)) => write!(output, "{},{},{},{} ", ip.source, ip.destination, ip.protocol, ip.header)?,
        Some(Ip::V6(ip)) => {
            write!(output, "6,{:032x},{:032x},", ip.source, ip.destination)?;
            match ip.payload {
                Some(payload) => write!(output, "{} ", payload.protocol)?,
                None => write!(output, "- ")?,
            }
        }
        None => write!(output, "- ")?,
    }
    match layers.transport {
        Some(udp) if udp.kind == Kind::Udp => write!(output, "U,{},{} ", udp.sport, udp.dport)?,
        Some(tcp) => {
            let [fin, syn, rst, ack] = [FIN, SYN, RST, ACK].map(|flag| u8::from(tcp.flags & flag != 0));
            write!(output, "T,{},{},{fin},{syn},{rst},{ack},{} ", tcp.sport, tcp.dport, tcp.header)?;
        }
        None => write!(output, "- ")?,
    }
    print_someip(output, layers.someip)
}

/// Every message, joined by `;`.
fn print_someip(output: &mut impl Write, someip: Option<SomeIp>) -> io::Result<()> {
    let Some(someip) = someip else { return writeln!(output, "-") };
    for (at, m) in someip.messages().enumerate() {
        let joint = if at == 0 { "" } else { ";" };
        write!(output, "{joint}{},{},{},{},{}", m.service, m.method, m.version, m.message, m.code)?;
    }
    writeln!(output)
}

/// Prints records as they stand, bad ones too.
fn print_records(output: &mut impl Write, records: &Records) -> io::Result<()> {
    let default = records.default;
    writeln!(output, "P {} {} {} {}", records.last, records.state, default.passed, default.blocked)?;
    for place in 0..RULES {
        let (levels, counts) = (records.levels[place], records.counts[place]);
        let held = records.held[place] != [FREE; PLACES];
        if levels != [0; SOCKETS] || counts.passed != 0 || counts.blocked != 0 || held {
            let [level0, level1] = levels;
            writeln!(output, "p {place} {level0} {level1} {} {}", counts.passed, counts.blocked)?;
            print_conversations(output, records, place)?;
        }
    }
    writeln!(output, ".")
}

fn print_conversations(output: &mut impl Write, records: &Records, place: usize) -> io::Result<()> {
    for slot in 0..PLACES {
        let held = records.held[place][slot];
        if held == FREE {
            continue;
        }
        let Conversation { quadruple: of, age } = records.conversations[place][slot];
        write!(output, "c {place} {slot} {} ", records.sockets[place][slot])?;
        match of.addresses {
            Addresses::V4 { source, destination } => write!(output, "{source} {destination} ")?,
            Addresses::V6 { source, destination } => {
                let [source, destination] = [source, destination].map(u128::from_be_bytes);
                write!(output, "{source:032x} {destination:032x} ")?;
            }
        }
        writeln!(output, "{} {} {held} {age}", of.sport(), of.dport())?;
    }
    Ok(())
}

#[cfg(test)]
mod tests {
    use super::run;
    use crate::image::write_table;
    use crate::random::Random;
    use crate::table_t::{arp, table_t};

    fn lines(calls: &[u8]) -> String {
        let mut stream = b"T".to_vec();
        stream.extend(write_table(&table_t(), &mut Random::new(0)));
        stream.extend(calls);
        let mut printed = Vec::new();
        run(&mut stream.as_slice(), &mut printed).expect("printed");
        String::from_utf8(printed).expect("text")
    }

    fn judged(reading: u64) -> Vec<u8> {
        let frame = arp();
        let mut call = reading.to_be_bytes().to_vec();
        call.extend([256u16.to_be_bytes(), (frame.len() as u16).to_be_bytes()].concat());
        call.extend(frame);
        call
    }

    fn one_by_one(readings: &[u64]) -> String {
        let calls: Vec<u8> = readings.iter().flat_map(|reading| [b"J".to_vec(), judged(*reading)].concat()).collect();
        lines(&[calls, b"P".to_vec()].concat())
    }

    fn in_one(times: u32, step: u32, reading: u64) -> String {
        let head = [b"B".to_vec(), times.to_be_bytes().to_vec(), step.to_be_bytes().to_vec()].concat();
        lines(&[head, judged(reading), b"P".to_vec()].concat())
    }

    #[test]
    fn many_calls_in_one_print_the_last_and_leave_the_same_records() {
        let each = one_by_one(&[100, 107, 114]);
        let (_, from_last) = each.match_indices("J ").nth(2).map(|(at, _)| each.split_at(at)).expect("three lines");
        assert_eq!(in_one(3, 7, 100), from_last);
        assert_eq!(in_one(1, 7, 100), one_by_one(&[100]));
    }

    #[test]
    fn a_reading_that_would_pass_the_highest_stays() {
        let each = one_by_one(&[u64::MAX - 5, u64::MAX - 1, u64::MAX - 1]);
        assert!(each.ends_with(&in_one(3, 4, u64::MAX - 5)));
    }

    #[test]
    fn no_times_is_no_call() {
        assert_eq!(in_one(0, 1, 0), "?\n");
    }
}
