//! What a capture reaches, by name: it is gone through whole, in memory.

use super::*;
use crate::answer::{Answer, Verdict, NO_RULE};
use crate::judge::judge;
use crate::layers::{be16, ETHER_TAG, SHORTEST_TAGGED};
use crate::records::Records;
use crate::replay::{self, Replay};
use crate::table::Table;
use crate::table_t::table_t;

const BUFFER: usize = 1 << 16;
/// A jump of the clock, in ms.
const JUMP: u64 = 1_000_000;

const NAMES: [&str; 57] = [
    "accuracy-set",
    "clock-ahead",
    "clock-ahead-within-ms",
    "clock-back",
    "clock-back-before-first",
    "clock-back-by-jump",
    "clock-jump",
    "clock-same",
    "cut-at-kept",
    "cut-behind-header",
    "cut-beyond-kept",
    "cut-first",
    "cut-in-bytes",
    "cut-last-byte",
    "cut-later",
    "cut-stored-highest",
    "cut-stored-short",
    "cut-stored-signed",
    "cut-stored-wraps",
    "cut-too-long",
    "cut-too-short",
    "file-above-64-kib",
    "fraction-0",
    "fraction-above-second-micro",
    "fraction-above-second-nano",
    "fraction-highest",
    "fraction-rounded-down",
    "length-0",
    "length-1",
    "length-13",
    "length-14",
    "length-17",
    "length-17-tagged",
    "length-18-tagged",
    "length-1518",
    "length-1519",
    "length-1520",
    "length-2000",
    "length-above-16-bits",
    "length-tens-of-thousands",
    "lines-above-64-kib",
    "records-thousands",
    "refusal-7-before-1",
    "refusal-7-before-2",
    "refusal-7-of-0-bytes",
    "refusal-7-of-good-frame",
    "seconds-highest",
    "snap-0",
    "snap-below-stored",
    "time-0",
    "time-above-32-bits",
    "wire-0",
    "wire-as-stored",
    "wire-highest",
    "wire-more-in-high-half-alone",
    "wire-one-more",
    "zone-set",
];
/// What a record stored longer than it was on the wire is answered, and one on the wire by one shorter.
const STORED_MORE: [&str; 4] =
    ["stored-more-judged", "stored-more-refused-1", "stored-more-refused-2", "stored-one-more"];

/// The answers that table T can give, and the events with them.
const ANSWERS: [(Verdict, u16, u16); 12] = [
    (Verdict::Passed, 10, 0),
    (Verdict::Passed, 20, 0),
    (Verdict::Passed, 30, 0),
    (Verdict::Blocked, 40, 0),
    (Verdict::OverRate, 30, 64),
    (Verdict::NoFreePlace, 20, 61),
    (Verdict::WrongFlags, 20, 63),
    (Verdict::NoSuchConversation, 20, 63),
    (Verdict::KindNotAllowed, 20, 63),
    (Verdict::BlockedByDefault, NO_RULE, 54),
    (Verdict::BlockedByDefault, NO_RULE, 55),
    (Verdict::BlockedByDefault, NO_RULE, 56),
];

pub fn names() -> Vec<String> {
    let mut names: Vec<String> = NAMES.iter().chain(&STORED_MORE).map(|name| name.to_string()).collect();
    names.extend(FORMS.map(|form| form_name("form", form)));
    names.extend(FORMS.map(|form| form_name("no-records", form)));
    names.extend((0..FILE_HEADER).map(|length| format!("header-short-{length}")));
    names.extend(FAULTS.map(|fault| fault.name.to_string()));
    names.extend((1..RECORD_HEADER).map(|length| format!("cut-header-at-{length}")));
    names.extend(ANSWERS.map(|(verdict, rule, event)| answer_name(verdict, rule, event)));
    for number in REFUSALS.map(Refusal::number) {
        names.extend([format!("refusal-{number}"), format!("refusal-{number}-first")]);
        names.extend([false, true].map(|ages| shadow_name(number, ages)));
    }
    names.push("refusal-8".to_string());
    names
}

fn form_name(of: &str, form: Form) -> String {
    format!("{of}-{:?}-{:?}", form.order, form.precision).to_lowercase()
}

fn answer_name(verdict: Verdict, rule: u16, event: u16) -> String {
    format!("answer-{}-{rule}-{event}", verdict.number())
}

fn shadow_name(refusal: u8, ages: bool) -> String {
    format!("refusal-{refusal}-{}", if ages { "ages-nothing" } else { "moves-no-clock" })
}

/// Hits the names of all that a capture reaches.
pub fn look(capture: &[u8], reach: &mut Reach) {
    let Some(header) = capture.first_chunk() else {
        reach.hit(&format!("header-short-{}", capture.len()));
        return reach.hit("refusal-8");
    };
    match Form::of(header) {
        None => reach.hit("refusal-8"),
        Some(form) => Look::new(form, Header::read(header, form.order), reach).records(capture),
    }
}

/// The records as they would be if one refusal moved the clock, or if it aged them as well.
struct Shadow {
    refusal: u8,
    ages: bool,
    records: Records,
}

impl Shadow {
    fn refused(&mut self, table: &Table, refusal: u8, time: u64) {
        if refusal == self.refusal {
            let elapsed = self.records.elapse(time);
            if self.ages {
                self.records.age(table, elapsed);
            }
        }
    }
}

struct Look<'a> {
    reach: &'a mut Reach,
    form: Form,
    header: Header,
    table: Table,
    shadows: Vec<Shadow>,
    replay: Option<Replay>,
    /// The header and time of the record before, and the time of the first.
    before: Option<(Head, u64)>,
    first: u64,
    count: usize,
}

impl<'a> Look<'a> {
    fn new(form: Form, header: Header, reach: &'a mut Reach) -> Look<'a> {
        let table = table_t();
        Look { reach, form, header, table, shadows: vec![], replay: None, before: None, first: 0, count: 0 }
    }

    fn records(&mut self, capture: &[u8]) {
        let mut rest = &capture[FILE_HEADER..];
        if rest.is_empty() {
            return self.reach.hit(&form_name("no-records", self.form));
        }
        while let Some((head, behind)) = rest.split_first_chunk() {
            let head = Head::read(head, self.form.order);
            let Some((frame, behind)) = behind.split_at_checked(head.stored as usize) else {
                return self.cut(&head, behind.len());
            };
            self.record(&head, frame);
            rest = behind;
        }
        if !rest.is_empty() {
            self.reach.hit(&format!("cut-header-at-{}", rest.len()));
        }
        self.whole(capture);
    }

    fn cut(&mut self, head: &Head, there: usize) {
        let stored = head.stored as usize;
        self.reach.hit(if self.count == 0 { "cut-first" } else { "cut-later" });
        self.reach.hit(if there == 0 { "cut-behind-header" } else { "cut-in-bytes" });
        self.reach.hit_if("cut-last-byte", there + 1 == stored);
        self.reach.hit_if("cut-too-short", stored < SHORTEST);
        self.reach.hit_if("cut-too-long", stored > LONGEST && there <= LONGEST);
        self.reach.hit_if("cut-at-kept", there == KEPT);
        self.reach.hit_if("cut-beyond-kept", there > KEPT);
        self.reach.hit_if("cut-stored-short", head.stored < head.wire);
        self.reach.hit_if("cut-stored-signed", head.stored >= 1 << 31);
        self.reach.hit_if("cut-stored-wraps", head.stored.checked_add(RECORD_HEADER as u32).is_none());
        self.reach.hit_if("cut-stored-highest", head.stored == u32::MAX);
    }

    /// Of a capture whose records are whole.
    fn whole(&mut self, capture: &[u8]) {
        let mut lines = Vec::new();
        replay::lines(capture, &mut lines).expect("a replay in memory");
        self.reach.hit_if("lines-above-64-kib", lines.len() > BUFFER);
        self.reach.hit_if("file-above-64-kib", capture.len() > BUFFER);
        self.reach.hit_if("records-thousands", self.count >= 2_000);
        self.reach.hit_if("zone-set", self.header.zone != 0);
        self.reach.hit_if("accuracy-set", self.header.accuracy != 0);
        self.reach.hit_if("snap-0", self.header.snap == 0);
    }

    fn record(&mut self, head: &Head, frame: &[u8]) {
        let time = head.milliseconds(self.form.precision);
        self.clock(head, time);
        self.wire(head);
        // what is judged is what is kept
        let frame = &frame[..frame.len().min(KEPT)];
        let replay = self.replay.get_or_insert_with(|| Replay::new(time));
        let judged = replay.judge(time, head, frame);
        let event = judged.map_or(0, |answer| replay.event(answer));
        self.answered(head, frame, judged, event);
        self.shadows(frame, time, judged);
        self.before = Some((*head, time));
        self.count += 1;
    }

    fn clock(&mut self, head: &Head, time: u64) {
        let precision = self.form.precision;
        let above = head.fraction >= 1_000 * precision.per_ms();
        self.reach.hit_if(&format!("fraction-above-second-{precision:?}").to_lowercase(), above);
        self.reach.hit_if("fraction-0", head.fraction == 0);
        self.reach.hit_if("fraction-highest", head.fraction == u32::MAX);
        self.reach.hit_if("fraction-rounded-down", head.fraction % precision.per_ms() == precision.per_ms() - 1);
        self.reach.hit_if("seconds-highest", head.seconds == u32::MAX);
        self.reach.hit_if("time-0", time == 0);
        self.reach.hit_if("time-above-32-bits", time > u32::MAX.into());
        let Some((head_before, before)) = self.before else {
            self.first = time;
            return;
        };
        let later = head.seconds == head_before.seconds && head.fraction > head_before.fraction;
        self.reach.hit_if("clock-same", time == before);
        self.reach.hit_if("clock-ahead", time > before);
        self.reach.hit_if("clock-ahead-within-ms", time == before && later);
        self.reach.hit_if("clock-jump", time > before + JUMP);
        self.reach.hit_if("clock-back", time < before);
        self.reach.hit_if("clock-back-by-jump", time + JUMP < before);
        self.reach.hit_if("clock-back-before-first", time < self.first);
    }

    fn wire(&mut self, head: &Head) {
        let Head { stored, wire, .. } = *head;
        self.reach.hit_if("wire-as-stored", wire == stored);
        self.reach.hit_if("wire-one-more", u64::from(wire) == u64::from(stored) + 1);
        self.reach.hit_if("wire-more-in-high-half-alone", wire > stored && wire as u16 == stored as u16);
        self.reach.hit_if("wire-highest", wire == u32::MAX);
        self.reach.hit_if("wire-0", wire == 0 && stored > 0);
        self.reach.hit_if("stored-one-more", stored > 0 && wire == stored - 1);
        self.reach.hit_if("snap-below-stored", self.header.snap < stored);
    }

    fn answered(&mut self, head: &Head, frame: &[u8], judged: Result<Answer, Refusal>, event: u16) {
        let more = head.stored > head.wire;
        match judged {
            Ok(answer) => {
                self.reach.hit(&form_name("form", self.form));
                self.reach.hit(&answer_name(answer.verdict, answer.rule, event));
                self.reach.hit_if("stored-more-judged", more);
                self.length(head.stored, frame);
            }
            Err(refusal) => {
                let number = refusal.number();
                self.reach.hit(&format!("refusal-{number}"));
                self.reach.hit_if(&format!("refusal-{number}-first"), self.count == 0);
                if refusal == Refusal::StoredShort {
                    return self.stored_short(frame);
                }
                self.reach.hit_if(&format!("stored-more-refused-{number}"), more);
                self.length(head.stored, frame);
            }
        }
    }

    /// What it would be answered if it had been as long on the wire.
    fn stored_short(&mut self, frame: &[u8]) {
        self.reach.hit_if("refusal-7-of-0-bytes", frame.is_empty());
        self.reach.hit(match crate::layers::read(frame) {
            Ok(_) => "refusal-7-of-good-frame",
            Err(Refusal::ShortFrame) => "refusal-7-before-1",
            Err(_) => "refusal-7-before-2",
        });
    }

    fn length(&mut self, stored: u32, frame: &[u8]) {
        let tagged = frame.len() >= SHORTEST && be16(frame, 12) == ETHER_TAG;
        match stored as usize {
            17 if tagged => self.reach.hit("length-17-tagged"),
            SHORTEST_TAGGED if tagged => self.reach.hit("length-18-tagged"),
            0 | 1 | 13 | 14 | 17 | 1_518 | 1_519 | 1_520 | 2_000 => self.reach.hit(&format!("length-{stored}")),
            20_000..=65_535 => self.reach.hit("length-tens-of-thousands"),
            65_536.. => self.reach.hit("length-above-16-bits"),
            _ => {}
        }
    }

    /// Each shadow goes on as if its reading were right, until an answer tells that it is not.
    fn shadows(&mut self, frame: &[u8], time: u64, judged: Result<Answer, Refusal>) {
        if self.count == 0 {
            let each = REFUSALS.iter().flat_map(|refusal| [false, true].map(|ages| (refusal.number(), ages)));
            let shadow = |(refusal, ages)| Shadow { refusal, ages, records: Records::empty(time) };
            self.shadows = each.map(shadow).collect();
        }
        for shadow in &mut self.shadows {
            match judged {
                Err(refusal) => shadow.refused(&self.table, refusal.number(), time),
                Ok(answer) => {
                    let mut space = [0; crate::event::SPACE];
                    if judge(&self.table, &mut shadow.records, replay::SOCKET, frame, time, &mut space) != Ok(answer) {
                        self.reach.hit(&shadow_name(shadow.refusal, shadow.ages));
                    }
                }
            }
        }
    }
}
