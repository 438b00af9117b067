//! The records of one capture, drawn one after the other: frames for table T, times, and lengths stored and on the wire.

use super::*;
use crate::draft::{junk, Draft, Packet, DAMAGES};
use crate::layers::{ACK, ETHER_IPV4, ETHER_TAG, FIN, RST, SYN};
use crate::table_t::{arp, table_t};
use crate::world::{aim, draw_frame, near_miss};

/// The places of T's rules: for messages, conversations, 0x0806, and ports that are blocked.
const TRACKED: usize = 1;
const RULES: usize = 4;
/// Conversations of a capture, more than rule 20 has places.
const CONVERSATIONS: usize = 3;
/// Segments that run one conversation, open it once more, open another, and find no place for a third.
const OPENED: [(usize, u8); 5] = [(0, SYN), (0, ACK), (0, SYN), (1, SYN | ACK), (2, SYN)];
/// Lengths at the ends of what may be judged, and whether the frame is tagged where it can be.
const ODD: [(usize, bool); 11] = [
    (0, false),
    (1, false),
    (13, false),
    (14, false),
    (17, true),
    (17, false),
    (18, true),
    (1_518, false),
    (1_519, false),
    (1_520, true),
    (2_000, false),
];
/// Steps of the clock that rule 20's idle limit and rule 30's bucket tell from one another, in ms.
const STEPS: [u32; 10] = [1, 1, 1, 5, 5, 40, 300, 999, 1_000, 1_001];

pub struct Flow<'a> {
    pub bytes: Vec<u8>,
    form: Form,
    random: &'a mut Random,
    odd: &'a mut usize,
    seconds: u32,
    fraction: u32,
    conversations: Vec<Draft>,
    /// Where the last record starts.
    last: usize,
}

/// A draft of a segment that rule 20 decides; those of other numbers are of other conversations.
fn conversation(number: usize, random: &mut Random) -> Draft {
    let draft = aim(&table_t().rules[TRACKED], random);
    Draft { dport: 5_000 + number as u16, chain: vec![], ..draft }
}

impl<'a> Flow<'a> {
    pub fn new(form: Form, header: Header, random: &'a mut Random, odd: &'a mut usize) -> Flow<'a> {
        let conversations = (0..CONVERSATIONS).map(|number| conversation(number, random)).collect();
        let seconds = random.pick(&[0, 1, 1_000_000, 1_700_000_000, u32::MAX - 2]);
        let fraction = random.below(1_000 * u64::from(form.precision.per_ms())) as u32;
        let bytes = header.bytes(form.order).to_vec();
        Flow { last: bytes.len(), bytes, form, random, odd, seconds, fraction, conversations }
    }

    /// Every second time they come so close that conversations go on.
    pub fn any_records(&mut self, count: usize) {
        let close = self.random.chance(50);
        for _ in 0..count {
            let frame = self.frame();
            let wire = self.wire(frame.len() as u32);
            self.record(&frame, wire);
            if close && self.random.chance(95) {
                self.close();
            } else {
                self.tick();
            }
        }
    }

    fn record(&mut self, frame: &[u8], wire: u32) {
        self.head(frame.len() as u32, wire);
        self.bytes.extend(frame);
    }

    fn whole(&mut self, frame: &[u8]) {
        self.record(frame, frame.len() as u32);
    }

    fn head(&mut self, stored: u32, wire: u32) {
        self.last = self.bytes.len();
        let head = Head { seconds: self.seconds, fraction: self.fraction, stored, wire };
        self.bytes.extend(head.bytes(self.form.order));
    }

    // ---- what a record holds

    fn frame(&mut self) -> Vec<u8> {
        let draft = match self.random.below(100) {
            0..=34 => self.segment(),
            35..=47 => return self.ether_0806(),
            48..=77 => self.aimed(),
            78..=85 => draw_frame(self.random),
            _ => return self.odd_length(),
        };
        draft.bytes(self.random)
    }

    /// A segment of one of the conversations, over IPv4 or IPv6, with any flags.
    fn segment(&mut self) -> Draft {
        let flags = [SYN, SYN, SYN | ACK, SYN | ACK, ACK, ACK, ACK, FIN | ACK, RST, RST | ACK, 0, SYN | FIN];
        let number = self.random.below(CONVERSATIONS as u64) as usize;
        Draft { flags: self.random.pick(&flags), ..self.conversations[number].clone() }
    }

    fn ether_0806(&mut self) -> Vec<u8> {
        let mut frame = arp();
        frame.resize(self.random.pick(&[42, 60, 60, 64]), 0);
        frame
    }

    /// Aimed at a rule of T; often missing it a little, or damaged.
    fn aimed(&mut self) -> Draft {
        let rule = table_t().rules[self.random.below(RULES as u64) as usize];
        let mut draft = aim(&rule, self.random);
        match self.random.below(100) {
            0..=24 => near_miss(&rule, &mut draft, self.random),
            25..=39 => {
                draft.damage = self.random.pick(&DAMAGES);
                draft.show_damage(Packet::V4);
            }
            // a datagram, but no message
            40..=49 => draft.messages.clear(),
            _ => {}
        }
        draft
    }

    fn odd_length(&mut self) -> Vec<u8> {
        let (length, tagged) = ODD[*self.odd % ODD.len()];
        *self.odd += 1;
        let mut frame = junk(length, self.random);
        if let Some(ether) = frame.get_mut(12..14) {
            let number = if tagged { ETHER_TAG } else { self.random.pick(&[ETHER_IPV4, 0x0806, 0x88f7]) };
            ether.copy_from_slice(&number.to_be_bytes());
        }
        frame
    }

    /// How long a record was on the wire: mostly as it is stored.
    fn wire(&mut self, stored: u32) -> u32 {
        match self.random.below(100) {
            0..=2 => stored + 1,
            3..=4 => stored + self.random.between(2, 3_000) as u32,
            5..=6 => stored | (self.random.between(1, 0xffff) << 16) as u32,
            7 => u32::MAX,
            8..=10 => stored.saturating_sub(1),
            11..=13 => self.random.below(u64::from(stored) + 1) as u32,
            14..=15 => 0,
            _ => stored,
        }
    }

    // ---- the clock

    fn close(&mut self) {
        let step = self.random.pick(&[0, 0, 1, 20]);
        self.ahead(step);
    }

    /// Moves the clock: mostly by little or not at all, now and then very far, or back.
    fn tick(&mut self) {
        let per_ms = self.form.precision.per_ms();
        let step = self.random.pick(&STEPS);
        match self.random.below(100) {
            0..=39 => {}
            40..=75 => self.ahead(step),
            76..=79 => self.fraction = self.within_ms(),
            80..=81 => self.seconds = self.seconds.saturating_add(self.random.between(1_000, 1 << 31) as u32),
            82..=85 => self.seconds = self.seconds.saturating_sub(self.random.between(1, 5) as u32),
            86..=87 => self.seconds = self.seconds.saturating_sub(self.random.between(1_000, 1 << 31) as u32),
            88..=89 => (self.seconds, self.fraction) = (0, self.random.pick(&[0, per_ms - 1, per_ms])),
            90 => self.seconds = u32::MAX,
            91..=94 => self.fraction = self.fraction_above_second(),
            95..=96 => self.fraction = self.fraction / per_ms / 2 * per_ms + per_ms - 1,
            _ => self.fraction = 0,
        }
    }

    /// What goes beyond the highest second starts again at 0.
    fn ahead(&mut self, ms: u32) {
        let (per_ms, second) = (u64::from(self.form.precision.per_ms()), u64::from(self.second()));
        let time = u64::from(self.seconds) * second + u64::from(self.fraction) + u64::from(ms) * per_ms;
        (self.seconds, self.fraction) = ((time / second) as u32, (time % second) as u32);
    }

    fn within_ms(&mut self) -> u32 {
        let per_ms = self.form.precision.per_ms();
        let ms = self.fraction.min(u32::MAX - per_ms) / per_ms;
        ms * per_ms + self.random.below(per_ms.into()) as u32
    }

    fn second(&self) -> u32 {
        1_000 * self.form.precision.per_ms()
    }

    fn fraction_above_second(&mut self) -> u32 {
        let second = self.second();
        let more = self.random.below(u64::from(u32::MAX - second)) as u32;
        self.random.pick(&[second, second + 1, 2 * second, second + more, u32::MAX, u32::MAX])
    }

    // ---- what is to be shown

    /// A record that is refused for this.
    pub fn refused(&mut self, refusal: Refusal) {
        let frame = self.frame_refused(refusal);
        let more = u32::from(refusal == Refusal::StoredShort);
        self.record(&frame, frame.len() as u32 + more);
    }

    fn frame_refused(&mut self, refusal: Refusal) -> Vec<u8> {
        let length = match refusal {
            Refusal::ShortFrame => self.random.between(1, SHORTEST as u64 - 1) as usize,
            Refusal::LongFrame => KEPT + self.random.below(500) as usize,
            _ => self.random.pick(&[0, 13, 60, KEPT]),
        };
        junk(length, self.random)
    }

    /// Three frames that fill rule 30's bucket, from a time on which the clock can go on.
    fn fill_bucket(&mut self) {
        (self.seconds, self.fraction) = (self.random.between(1, 1 << 31) as u32, 0);
        for _ in 0..3 {
            let frame = self.ether_0806();
            self.whole(&frame);
        }
    }

    /// The frame at the end passes since two seconds have gone by since the last judged one.
    pub fn keeps_clock(&mut self, refusal: Refusal) {
        self.fill_bucket();
        self.ahead(10_000);
        self.refused(refusal);
        self.seconds -= 8;
        let frame = self.ether_0806();
        self.whole(&frame);
    }

    /// The frame at the end is over the rate since no time has.
    pub fn ages_nothing(&mut self, refusal: Refusal) {
        self.fill_bucket();
        self.ahead(10_000);
        self.refused(refusal);
        self.seconds -= 10;
        let frame = self.ether_0806();
        self.whole(&frame);
    }

    /// Segments of the conversations alone, so close that none ends for its age.
    pub fn segments(&mut self, count: usize) {
        for number in 0..count {
            let draft = match OPENED.get(number) {
                Some((number, flags)) => Draft { flags: *flags, ..self.conversations[*number].clone() },
                None => self.segment(),
            };
            let frame = draft.bytes(self.random);
            self.whole(&frame);
            self.close();
        }
    }

    /// Each that is refused for its length is on the wire shorter than it is stored.
    pub fn stored_more(&mut self) {
        for refusal in [Refusal::ShortFrame, Refusal::LongFrame] {
            let frame = self.frame_refused(refusal);
            let wire = self.random.below(frame.len() as u64) as u32;
            self.record(&frame, wire);
        }
    }

    /// Each that is refused 7, whatever else could be said of it.
    pub fn stored_short(&mut self) {
        for length in [0, 13, 60, KEPT, 2_000] {
            let frame = junk(length, self.random);
            let more = self.random.pick(&[1, 40, 65_536, u32::MAX - length as u32]);
            self.record(&frame, length as u32 + more);
        }
    }

    pub fn many(&mut self, count: usize) {
        for _ in 0..count {
            let wire = self.random.pick(&[0, 0, 0, 1]);
            self.record(&[], wire);
            self.ahead(1);
        }
    }

    pub fn large(&mut self, count: usize) {
        for _ in 0..count {
            let mut frame = self.frame();
            frame.resize(self.random.between(1_200, LONGEST as u64) as usize, 0);
            self.whole(&frame);
            self.tick();
        }
    }

    pub fn long(&mut self, length: u32) {
        let mut frame = self.ether_0806();
        frame.resize(length as usize, 0xa5);
        let wire = self.random.pick(&[length, 0, 60]);
        self.record(&frame, wire);
    }

    pub fn spoil_header(&mut self, fault: Fault) {
        header::spoil(&mut self.bytes, self.form, fault, self.random);
    }

    /// Leaves so many bytes of the last record's header.
    pub fn cut_last_header(&mut self, length: usize) {
        self.bytes.truncate(self.last + length);
    }

    pub fn cut_record(&mut self, cut: Cut) {
        let (stored, wire, there) = cut.draw(self.random);
        self.head(stored, wire);
        let frame = junk(there as usize, self.random);
        self.bytes.extend(frame);
    }
}
