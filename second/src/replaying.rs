//! Tests of 02's request 4/12: captures in their four forms, read by parts, a line for each record.

use std::io::{self, Read};

use crate::answer::Refusal;
use crate::capture::{Form, Head, Header, Order, Precision, FILE_HEADER, FORMS, RECORD_HEADER};
use crate::captures::{Captures, ENOUGH};
use crate::recording;
use crate::replay::{lines, Replay};
use crate::rewrite::rewrite;
use crate::table_t::{arp, frame_a};

const PLAIN: Form = Form { order: Order::Little, precision: Precision::Micro };

/// A capture, record by record.
struct File {
    form: Form,
    bytes: Vec<u8>,
}

impl File {
    fn new(form: Form) -> File {
        File { form, bytes: Header::good(form.precision).bytes(form.order).to_vec() }
    }

    fn head(mut self, seconds: u32, fraction: u32, stored: u32, wire: u32) -> File {
        self.bytes.extend(Head { seconds, fraction, stored, wire }.bytes(self.form.order));
        self
    }

    fn and(mut self, bytes: &[u8]) -> File {
        self.bytes.extend(bytes);
        self
    }

    fn record(self, seconds: u32, frame: &[u8]) -> File {
        self.on_wire(seconds, frame, frame.len() as u32)
    }

    fn on_wire(self, seconds: u32, frame: &[u8], wire: u32) -> File {
        self.head(seconds, 0, frame.len() as u32, wire).and(frame)
    }

    fn lines(&self) -> String {
        printed(&self.bytes[..])
    }
}

fn printed(input: impl Read) -> String {
    let mut output = Vec::new();
    lines(input, &mut output).expect("a replay in memory");
    String::from_utf8(output).expect("plain text")
}

/// Gives so many bytes at a time.
struct Parts<'a> {
    left: &'a [u8],
    most: usize,
}

impl Read for Parts<'_> {
    fn read(&mut self, into: &mut [u8]) -> io::Result<usize> {
        let most = into.len().min(self.most);
        self.left.read(&mut into[..most])
    }
}

/// The frame of 02's example.
fn ether_0806() -> Vec<u8> {
    let mut frame = arp();
    frame.resize(60, 0);
    frame
}

/// Records of every kind: two that pass, refusals 7, 1 and 2, one that the default blocks.
fn mixed(form: Form) -> File {
    let mut other = frame_a();
    other[56] = 0x81;
    File::new(form)
        .record(1, &ether_0806())
        .on_wire(1, &[0; 20], 60)
        .record(2, &[0; 5])
        .record(3, &[0; 1_600])
        .record(4, &[])
        .record(5, &frame_a())
        .record(5, &other)
}

const MIXED: [&str; 7] =
    ["0 1000 0 30 0", "1 1000 R 7", "2 2000 R 1", "3 3000 R 2", "4 4000 R 1", "5 5000 0 10 0", "6 5000 6 65535 56"];

fn joined(lines: &[&str]) -> String {
    lines.iter().map(|line| format!("{line}\n")).collect()
}

// ---- a line for each record

#[test]
fn three_frames_at_time_zero() {
    for form in FORMS {
        let three = (0..3).fold(File::new(form), |file, _| file.record(0, &ether_0806()));
        assert_eq!(three.lines(), "0 0 0 30 0\n1 0 0 30 0\n2 0 3 30 64\n");
    }
}

#[test]
fn place_time_verdict_rule_event_or_refusal() {
    for form in FORMS {
        assert_eq!(mixed(form).lines(), joined(&MIXED));
    }
}

#[test]
fn no_records_no_lines() {
    for form in FORMS {
        assert_eq!(File::new(form).lines(), "");
    }
}

#[test]
fn any_parts_answer_as_the_whole() {
    let file = mixed(PLAIN);
    for most in [1, 2, 3, 7, 15, 16, 17, 23, 24, 25, 1_519, 1_520] {
        assert_eq!(printed(Parts { left: &file.bytes, most }), file.lines(), "{most} bytes at a time");
    }
}

// ---- the file header

#[test]
fn a_short_header_is_refused_8() {
    for form in FORMS {
        for length in 0..FILE_HEADER {
            assert_eq!(printed(&File::new(form).bytes[..length]), "R 8\n", "{length} bytes");
        }
    }
}

#[test]
fn any_other_magic_version_or_link_type_is_refused_8() {
    let fields = [("magic", 0..4), ("version", 4..8), ("link type", 20..24)];
    for form in FORMS {
        for (field, places) in fields.clone() {
            for (place, bit) in places.flat_map(|place| (0..8).map(move |bit| (place, bit))) {
                let mut file = mixed(form);
                file.bytes[place] ^= 1 << bit;
                assert_eq!(file.lines(), "R 8\n", "{field}: byte {place}, bit {bit}");
            }
        }
    }
}

#[test]
fn the_magic_tells_the_order_of_every_field() {
    for form in FORMS {
        let mut turned = mixed(form);
        turned.bytes[..4].reverse();
        assert_eq!(turned.lines(), "R 8\n");
    }
}

#[test]
fn zone_accuracy_and_snap_length_are_not_looked_at() {
    for place in 8..20 {
        let mut file = mixed(PLAIN);
        file.bytes[place] ^= 0xff;
        assert_eq!(file.lines(), joined(&MIXED));
    }
}

// ---- time

/// The time of a record with these fields.
fn time(precision: Precision, seconds: u32, fraction: u32) -> String {
    let file = File::new(Form { precision, ..PLAIN }).head(seconds, fraction, 60, 60).and(&ether_0806());
    file.lines().split(' ').nth(1).expect("a time").to_string()
}

#[test]
fn whole_milliseconds_rounded_down() {
    for (fraction, ms) in [(0, "7000"), (999, "7000"), (1_000, "7001"), (1_999, "7001"), (999_999, "7999")] {
        assert_eq!(time(Precision::Micro, 7, fraction), ms);
    }
    for (fraction, ms) in [(0, "7000"), (999_999, "7000"), (1_000_000, "7001"), (999_999_999, "7999")] {
        assert_eq!(time(Precision::Nano, 7, fraction), ms);
    }
}

#[test]
fn a_fraction_above_a_second_is_taken_as_it_stands() {
    assert_eq!(time(Precision::Micro, 7, 1_000_000), "8000");
    assert_eq!(time(Precision::Nano, 7, 2_500_000_000), "9500");
    assert_eq!(time(Precision::Micro, u32::MAX, u32::MAX), "4294971589967");
    assert_eq!(time(Precision::Nano, u32::MAX, u32::MAX), "4294967299294");
}

#[test]
fn a_refused_record_leaves_the_last_reading() {
    let mut replay = Replay::new(5_000);
    let short = Head { seconds: 9, fraction: 0, stored: 13, wire: 13 };
    assert_eq!(replay.judge(9_000, &short, &[0; 13]), Err(Refusal::ShortFrame));
    assert_eq!(replay.last(), 5_000);
}

// ---- refused records

#[test]
fn refusal_7_comes_before_1_and_2() {
    for stored in [0, 1, 13, 14, 60, 1_518, 1_519, 3_000] {
        for wire in [stored + 1, stored + 65_536, u32::MAX] {
            let file = File::new(PLAIN).on_wire(0, &vec![0; stored as usize], wire);
            assert_eq!(file.lines(), "0 0 R 7\n", "{stored} of {wire}");
        }
    }
}

#[test]
fn one_stored_longer_than_on_the_wire_is_judged_as_stored() {
    for wire in [0, 13, 59] {
        assert_eq!(File::new(PLAIN).on_wire(0, &ether_0806(), wire).lines(), "0 0 0 30 0\n");
    }
    assert_eq!(File::new(PLAIN).on_wire(0, &[0; 13], 0).lines(), "0 0 R 1\n");
    assert_eq!(File::new(PLAIN).on_wire(0, &[0; 1_519], 60).lines(), "0 0 R 2\n");
}

#[test]
fn lengths() {
    let mut tagged = vec![0; 18];
    tagged[12..14].copy_from_slice(&[0x81, 0x00]);
    let lines = |frame: &[u8]| File::new(PLAIN).record(0, frame).lines();
    assert_eq!([lines(&[]), lines(&[0; 13]), lines(&tagged[..17])], ["0 0 R 1\n"; 3]);
    assert_eq!([lines(&[0; 14]), lines(&[0; 17]), lines(&tagged), lines(&[0; 1_518])], ["0 0 6 65535 54\n"; 4]);
    assert_eq!([lines(&[0; 1_519]), lines(&[0; 1_520]), lines(&vec![0; 70_000])], ["0 0 R 2\n"; 3]);
}

/// What the last of four frames is answered, the bucket full at 20 s, if this record comes before it at 30 s.
fn after(seconds: u32, refused: (&[u8], u32)) -> String {
    let full = (0..3).fold(File::new(PLAIN), |file, _| file.record(20, &ether_0806()));
    let file = full.on_wire(30, refused.0, refused.1).record(seconds, &ether_0806());
    file.lines().lines().last().expect("a line").to_string()
}

#[test]
fn a_refused_record_moves_no_clock_and_ages_nothing() {
    let refused: [(&[u8], u32); 3] = [(&[0; 60], 61), (&[0; 13], 13), (&[0; 1_519], 1_519)];
    for record in refused {
        assert_eq!(after(22, record), "4 22000 0 30 0", "two seconds since the last judged frame");
        assert_eq!(after(20, record), "4 20000 3 30 64", "none");
    }
    assert_eq!(after(20, (&[0; 60], 60)), "4 20000 0 30 0", "one that is judged does both");
}

#[test]
fn a_clock_that_goes_back_counts_as_no_time() {
    let times = [20, 20, 20, 10, 13];
    let file = times.iter().fold(File::new(PLAIN), |file, seconds| file.record(*seconds, &ether_0806()));
    let verdicts: Vec<String> = file.lines().lines().map(|line| line.split(' ').nth(2).unwrap().to_string()).collect();
    assert_eq!(verdicts, ["0", "0", "3", "3", "0"]);
}

// ---- records that the end cuts short

/// The lines of those records that are whole, then `cut` unless the end is that of one.
#[test]
fn cut_at_every_byte() {
    for form in FORMS {
        let file = mixed(form);
        let mut ends = vec![FILE_HEADER];
        for stored in [60, 20, 5, 1_600, 0, 72, 72] {
            ends.push(ends[ends.len() - 1] + RECORD_HEADER + stored);
        }
        for length in FILE_HEADER..file.bytes.len() {
            let whole = ends.iter().filter(|end| **end <= length).count() - 1;
            let mut expected = joined(&MIXED[..whole]);
            if !ends.contains(&length) {
                expected.push_str("cut\n");
            }
            assert_eq!(printed(&file.bytes[..length]), expected, "{length} bytes");
        }
    }
}

#[test]
fn cut_comes_before_7() {
    assert_eq!(File::new(PLAIN).head(0, 0, 60, 61).and(&[0; 59]).lines(), "cut\n");
    assert_eq!(File::new(PLAIN).head(0, 0, 0, 61).lines(), "0 0 R 7\n");
}

#[test]
fn a_stored_length_may_be_anything() {
    for stored in [1 << 31, u32::MAX - 40, u32::MAX - 15, u32::MAX] {
        for there in [0, 100, 1_519, 100_000] {
            let file = File::new(PLAIN).record(0, &ether_0806()).head(0, 0, stored, 60).and(&vec![0; there]);
            assert_eq!(file.lines(), "0 0 0 30 0\ncut\n", "{there} of {stored}");
        }
    }
}

#[test]
fn what_is_not_kept_is_passed_over() {
    let start = File::new(PLAIN).head(0, 0, 30_000_000, 30_000_000);
    let end = File { form: PLAIN, bytes: vec![] }.record(1, &ether_0806());
    let input = start.bytes.chain(io::repeat(0xaa).take(30_000_000)).chain(&end.bytes[..]);
    assert_eq!(printed(input), "0 0 R 2\n1 1000 0 30 0\n");
}

// ---- the other commands

fn rewritten(bytes: &[u8], to: Form) -> Vec<u8> {
    let mut output = Vec::new();
    rewrite(bytes, to, &mut output).expect("written");
    output
}

#[test]
fn a_rewritten_capture_has_the_same_lines() {
    for (from, to) in FORMS.into_iter().flat_map(|from| FORMS.map(|to| (from, to))) {
        let mut file = mixed(from).head(6, 3 * from.precision.per_ms(), 60, 60).and(&ether_0806());
        for length in [file.bytes.len(), file.bytes.len() - 1, file.bytes.len() - 70] {
            file.bytes.truncate(length);
            let other = rewritten(&file.bytes, to);
            assert_eq!(printed(&other[..]), file.lines());
            assert_eq!(Form::of(other.first_chunk().expect("a header")), Some(to));
        }
    }
    assert_eq!(rewritten(&mixed(PLAIN).bytes, PLAIN), mixed(PLAIN).bytes);
}

/// The record's header once it is rewritten with the other precision.
fn timed(precision: Precision, seconds: u32, fraction: u32) -> io::Result<(u32, u32)> {
    let to = if precision == Precision::Micro { Precision::Nano } else { Precision::Micro };
    let mut output = Vec::new();
    let file = File::new(Form { precision, ..PLAIN }).head(seconds, fraction, 0, 0);
    rewrite(&file.bytes[..], Form { precision: to, ..PLAIN }, &mut output)?;
    let head = Head::read(output[FILE_HEADER..].first_chunk().expect("a record"), PLAIN.order);
    Ok((head.seconds, head.fraction))
}

#[test]
fn a_rewritten_time_is_kept() {
    assert_eq!(timed(Precision::Nano, 7, 1_999_999).unwrap(), (7, 1_999));
    assert_eq!(timed(Precision::Micro, 7, 1_999).unwrap(), (7, 1_999_000));
    assert_eq!(timed(Precision::Micro, 7, 4_294_967).unwrap(), (7, 4_294_967_000));
    assert_eq!(timed(Precision::Micro, 7, 4_294_968).unwrap(), (11, 294_968_000));
    assert!(timed(Precision::Micro, u32::MAX, u32::MAX).is_err());
}

#[test]
fn a_recording_is_one_stream_in_every_form() {
    let stream = |file: File| {
        let mut output = Vec::new();
        recording::stream(&mut &file.bytes[..], &mut output).map(|_| output)
    };
    let file = |form| File::new(form).record(1, &frame_a()).record(2, &[0; 5]);
    let plain = stream(file(PLAIN)).expect("written");
    for form in FORMS {
        assert_eq!(stream(file(form)).expect("written"), plain);
    }
    assert!(stream(file(PLAIN).head(0, 0, 1, 1)).is_err(), "one that is cut");
    assert!(stream(file(PLAIN).head(0, 0, 0, 1)).is_err(), "one stored shorter than it was on the wire");
}

#[test]
fn drawn_captures_reach_everything_and_read_by_parts() {
    for seed in 0..3 {
        let (mut captures, mut again) = (Captures::new(seed), Captures::new(seed));
        for number in 0..ENOUGH {
            let bytes = captures.draw(number);
            assert_eq!(bytes, again.draw(number), "seed {seed} says capture {number}");
            let parts = Parts { left: &bytes, most: 1 + number as usize % 40 };
            assert_eq!(printed(parts), printed(&bytes[..]), "seed {seed}, capture {number}");
        }
        assert_eq!(captures.reach.missing(), Vec::<&str>::new(), "seed {seed}");
    }
}
