//! Writes a case stream, and judges what it writes to know what the stream reaches.

mod bad;
mod bundles;
mod calls;
mod conversations;
mod sockets;
mod wishes;

use std::io::{self, Write};

use crate::answer::Refusal;
use crate::dispatch::Bundle;
use crate::draft::{junk, At, Damage, Draft, Packet, BROKEN, DAMAGES, DAMAGES6};
use crate::event::SPACE;
use crate::faults::{spoil_records, undercut_records, BadTable, RECORD_FAULTS};
use crate::image;
use crate::judge::judge;
use crate::layers::{self, Addresses, Kind, ACK, FIN, RST, SYN};
use crate::modem::Wish;
use crate::random::Random;
use crate::reach::{before_9, flag_sets, flags_name, Call, Reach};
use crate::records::{self, Conversation, Quadruple, Records, CLOSING, FREE, HIGHEST_LEVEL, OPENING, RUNNING};
use crate::stream::{LONGEST_FRAME, UNTOUCHED};
use crate::table::{set, Rule, Table, PLACES, RULES, SOCKETS};
use crate::terminal::Sharing;
use crate::world::{aim, draw_frame, draw_table, draw_table_without_rules, near_miss, STEADY};
use sockets::below_number;

/// Judged calls to one table, about; images are long, so tables must not change too often.
const PER_TABLE: u64 = 300;
/// Judged calls kept for what comes after a table's main flow.
const TAIL: u64 = 60;
/// From this many judged calls on, everything named must be reached.
pub const ENOUGH: u64 = 1_000;
/// From this many on there is room for each single fault, and for the modem's table, which comes at every fourth; so do the
/// dispatch's, from the second table on, and the terminal's, from the third.
const SOME: u64 = 500;
/// A frame that is to show something may be refused for its event space, so that another must come.
const TRIES: usize = 4;

pub struct Gen<W: Write> {
    output: W,
    random: Random,
    table: Table,
    records: Records,
    reach: Reach,
    now: u64,
    /// That of the judged calls to come, the one that the stream said last, and the calls since then that leave it in force.
    socket: u8,
    said: u8,
    across: Vec<u8>,
    /// Judged calls to write in all, and those still to come.
    calls: u64,
    left: u64,
    /// Faults come in turn, so that each comes before any comes twice. In a short stream none comes with another.
    bad_tables: Vec<BadTable>,
    table_fault: usize,
    record_fault: usize,
    /// Whether a table stands under which the records are bad.
    undercut: bool,
    /// How many of the odd lengths came, and which of the damages came last.
    odd: usize,
    damage: usize,
}

/// Writes a stream of `calls` judged calls and says what it reached; true if nothing is missing.
pub fn generate<W: Write>(seed: u64, calls: u64, output: W) -> io::Result<bool> {
    let mut bad_tables = BadTable::all();
    if calls < ENOUGH {
        bad_tables.retain(|bad| bad.has_one_fault());
    }
    let mut gen = Gen {
        output,
        random: Random::new(seed),
        table: image::read_table(&[0; image::TABLE_IMAGE]),
        records: Records::empty(0),
        reach: Reach::new(),
        now: 0,
        socket: 0,
        said: 0,
        across: vec![],
        calls,
        left: calls,
        bad_tables,
        table_fault: 0,
        record_fault: 0,
        undercut: false,
        odd: 0,
        damage: 0,
    };
    let tables = (calls / PER_TABLE).max(1);
    gen.before_any_table()?;
    for number in 0..tables {
        gen.one_table(number, tables)?;
    }
    gen.print()?;
    // Whatever follows the stream is on the socket of a start.
    gen.say_socket(0)?;
    gen.output.flush()?;
    Ok(gen.reach.report() == 0)
}

/// How many faults of `all` have come once table `number` is done: each at least once in a stream that is long enough,
/// and `percent` to a table in long ones.
fn due(all: usize, number: u64, tables: u64, percent: u64, calls: u64) -> usize {
    let all = all as u64 * calls.min(SOME) / SOME;
    let once = (all * (number + 1)).div_ceil(tables);
    once.min(all).max((number + 1) * percent / 100) as usize
}

impl<W: Write> Gen<W> {
    /// The stream starts with a table and records of zeros: a bad table.
    fn before_any_table(&mut self) -> io::Result<()> {
        self.check()?.expect_err("a table with no vehicle state is bad");
        self.fresh(5)?;
        self.switch(0)?;
        self.print()
    }

    fn one_table(&mut self, number: u64, tables: u64) -> io::Result<()> {
        match number % 4 {
            0 if self.calls >= SOME => self.modem()?,
            1 => self.dispatch()?,
            2 => self.terminal()?,
            _ => {}
        }
        let good = draw_table(number, &mut self.random);
        self.begin_table(&good)?;
        let share = self.left / (tables - number);
        self.flow_until(self.left - share.saturating_sub(TAIL))?;
        self.print()?;
        self.all_states()?;
        self.warm_up()?;
        while self.record_fault < due(RECORD_FAULTS.len(), number, tables, 50, self.calls) {
            self.bad_records(&good, tables)?;
        }
        if number == 0 || self.random.chance(15) {
            self.put_back(&good)?;
            self.high_records()?;
        }
        while self.table_fault < due(self.bad_tables.len(), number, tables, 160, self.calls) {
            self.bad_table(&good)?;
        }
        if number % 8 == 0 {
            self.without_rules()?;
        }
        if number + 1 == tables && self.left > 0 {
            self.begin_table(&good)?;
            self.flow_until(0)?;
        }
        self.print()
    }

    /// Shows each of these that no frame for another has shown.
    fn until_shown<T: Copy>(
        &mut self,
        all: Vec<T>,
        name: fn(T) -> String,
        show: fn(&mut Self, T) -> io::Result<()>,
    ) -> io::Result<()> {
        let before: Vec<u64> = all.iter().map(|one| self.reach.count(&name(*one))).collect();
        for (one, before) in all.into_iter().zip(before) {
            for _ in 0..TRIES {
                if self.reach.count(&name(one)) == before {
                    self.now = self.now.saturating_add(self.random.below(3));
                    show(self, one)?;
                }
            }
        }
        Ok(())
    }

    fn begin_table(&mut self, table: &Table) -> io::Result<()> {
        self.put_table(table)?;
        self.undercut = false;
        self.now = self.random.pick(&[0, 1_000, 1_000_000, 1 << 40, u64::MAX - 20_000]);
        self.fresh(self.now)?;
        self.check()?.expect("a drawn table is good");
        Ok(())
    }

    fn flow_until(&mut self, left: u64) -> io::Result<()> {
        while self.left > left {
            self.flow()?;
        }
        Ok(())
    }

    /// The good table again, where another was put under the records, and good records.
    fn put_back(&mut self, good: &Table) -> io::Result<()> {
        if self.undercut {
            self.put_table(good)?;
            self.undercut = false;
        }
        if records::check(good, &self.records).is_err() {
            self.fresh(self.now)?;
        }
        Ok(())
    }

    fn without_rules(&mut self) -> io::Result<()> {
        let table = draw_table_without_rules(&mut self.random);
        self.put_table(&table)?;
        self.fresh(self.now)?;
        for _ in 0..4 {
            let frame = draw_frame(&mut self.random).bytes(&mut self.random);
            self.turn_socket();
            self.judge(&frame)?;
            let state = self.random.below(3) as u8;
            self.switch(state)?;
        }
        Ok(())
    }

    /// One frame of the main flow, with other calls beside it now and then.
    fn flow(&mut self) -> io::Result<()> {
        self.tick();
        self.turn_socket();
        if self.random.chance(2) {
            self.no_socket();
        }
        let tracked = if self.all_flags_seen() { 44 } else { 53 };
        match self.random.below(100) {
            at if at < tracked => self.tracked()?,
            0..=82 => self.aimed()?,
            83..=94 => {
                let frame = draw_frame(&mut self.random).bytes(&mut self.random);
                self.judge(&frame)?;
            }
            _ => self.odd_length(true)?,
        }
        match self.random.below(100) {
            0..=2 => self.print(),
            3 => self.check().map(drop),
            4..=8 => self.any_switch(),
            // Back to the state with most rules active, where the most happens.
            9..=14 => self.switch(0),
            _ => Ok(()),
        }
    }

    /// Some frames in each of the states in which few rules are active.
    fn all_states(&mut self) -> io::Result<()> {
        for state in 1..6 {
            self.switch(state)?;
            for _ in 0..4 {
                self.tick();
                self.turn_socket();
                let frame = draw_frame(&mut self.random).bytes(&mut self.random);
                self.judge(&frame)?;
            }
        }
        Ok(())
    }

    fn any_switch(&mut self) -> io::Result<()> {
        let count = self.table.state_count;
        let existing = self.random.below(count.into()) as u8;
        let state = self.random.pick(&[existing, existing, existing, existing, count, 255]);
        self.switch(state)
    }

    /// Moves the clock: mostly by little, now and then to an idle limit, back, or very far.
    fn tick(&mut self) {
        // At its end the clock can only go back.
        if self.now == u64::MAX && self.random.chance(40) {
            return self.now = self.random.pick(&[1, 1_000, 1 << 40]);
        }
        let step = match self.random.below(200) {
            0..=89 => 0,
            90..=169 => self.random.between(1, 15),
            170..=187 => self.to_idle_limit(),
            188..=191 => self.random.between(500, 20_000),
            192..=193 => 1 << self.random.between(33, 63),
            194 => u64::MAX,
            195 => return self.now = 0,
            _ => return self.now = self.now.saturating_sub(self.random.between(1, 3_000)),
        };
        self.now = self.now.saturating_add(step);
    }

    /// The time until some conversation reaches its idle limit, or one less.
    fn to_idle_limit(&mut self) -> u64 {
        let held: Vec<u32> = (0..self.table.rules().len())
            .flat_map(|place| (0..PLACES).map(move |slot| (place, slot)))
            .filter(|&(place, slot)| self.records.held[place][slot] != FREE)
            .map(|(place, slot)| self.table.rules[place].idle - self.records.conversations[place][slot].age)
            .collect();
        if held.is_empty() {
            return 1;
        }
        u64::from(self.random.pick(&held)) - self.random.below(2)
    }

    /// An active rule's place, mostly; any rule's now and then.
    fn some_place(&mut self, asked: impl Fn(&Rule) -> bool) -> Option<usize> {
        let any = self.random.chance(15);
        let marks = self.table.states.get(self.records.state as usize)?.marks;
        let rules = self.table.rules();
        let places: Vec<usize> =
            (0..rules.len()).filter(|place| (any || marks >> place & 1 != 0) && asked(&rules[*place])).collect();
        if places.is_empty() {
            None
        } else {
            Some(self.random.pick(&places))
        }
    }

    /// A frame aimed at a rule; often missing it a little, often damaged.
    fn aimed(&mut self) -> io::Result<()> {
        let draft = match self.some_place(|_| true) {
            None => draw_frame(&mut self.random),
            Some(place) => {
                let rule = self.table.rules[place];
                self.aim_socket(&rule);
                let mut draft = aim(&rule, &mut self.random);
                if self.random.chance(30) {
                    near_miss(&rule, &mut draft, &mut self.random);
                }
                draft
            }
        };
        self.damaged(draft)
    }

    fn damaged(&mut self, mut draft: Draft) -> io::Result<()> {
        let packet = draft.packet;
        if packet != Packet::None && draft.carries_messages() && self.random.chance(12) {
            draft.damage = Damage::Message(self.random.pick(&BROKEN), self.random.pick(&[At::First, At::Later]));
            draft.show_damage(packet);
        } else if packet == Packet::V6 && self.random.chance(30) {
            draft.damage = self.random.pick(&DAMAGES6);
            if self.random.chance(70) {
                draft.show_damage(Packet::V6);
            }
        } else if self.random.chance(60) {
            self.damage = (self.damage + 1) % DAMAGES.len();
            draft.damage = DAMAGES[self.damage];
            if self.random.chance(85) {
                draft.show_damage(Packet::V4);
            }
        }
        let frame = draft.bytes(&mut self.random);
        if self.random.chance(15) {
            self.layers(&frame)?;
        }
        self.judge(&frame)
    }

    /// Lengths at the ends of what may be judged, in turn where the call is judged and not refused before the frame is looked at.
    fn odd_length(&mut self, in_turn: bool) -> io::Result<()> {
        let any = self.random.below(2_049) as usize;
        let few = self.random.between(1, 13) as usize;
        let lengths = [0, few, 14, 1_518, 17, 1_519, 2_048, 34, 16, 18, few, 14, 15, 17, 0, 38, 1_517, any];
        let length = if in_turn {
            self.odd += 1;
            lengths[(self.odd - 1) % lengths.len()]
        } else {
            self.random.pick(&lengths)
        };
        let frame = junk(length, &mut self.random);
        if self.random.chance(15) {
            self.layers(&frame)?;
        }
        self.judge(&frame)
    }
}
