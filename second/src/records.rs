//! The records: what makes them bad, fresh records, the switch of vehicle state, and step 2.

use crate::answer::Refusal;
use crate::layers::Addresses;
use crate::table::{set, Rule, Table, PLACES, RULES, SOCKETS};

pub const HIGHEST_LEVEL: u32 = 4_294_967_000;

/// How a place is held.
pub const FREE: u8 = 0;
pub const OPENING: u8 = 1;
pub const RUNNING: u8 = 2;
pub const CLOSING: u8 = 3;

/// Equal where the kind of the addresses and all their bits are, and the ports. Two conversations of one quadruple on two sockets are two.
#[derive(Clone, Copy, PartialEq, Eq, Debug)]
pub struct Quadruple {
    pub addresses: Addresses,
    /// The source port above, the destination port below.
    pub ports: u32,
}

impl Default for Quadruple {
    /// What a place holds in a fresh record.
    fn default() -> Quadruple {
        Quadruple { addresses: Addresses::V4 { source: 0, destination: 0 }, ports: 0 }
    }
}

impl Quadruple {
    #[inline]
    pub fn new(addresses: Addresses, sport: u16, dport: u16) -> Quadruple {
        Quadruple { addresses, ports: u32::from(sport) << 16 | u32::from(dport) }
    }

    pub fn sport(self) -> u16 {
        (self.ports >> 16) as u16
    }

    pub fn dport(self) -> u16 {
        self.ports as u16
    }

    /// A short mark: equal quadruples have the same, different ones hardly ever.
    #[inline]
    fn mark(self) -> u32 {
        let (source, destination) = match self.addresses {
            Addresses::V4 { source, destination } => (source, destination),
            Addresses::V6 { source, destination } => (folded(source), folded(destination)),
        };
        (source.rotate_left(16) ^ self.ports).wrapping_mul(0x9e37_79b9) ^ destination
    }
}

#[derive(Clone, Copy, PartialEq, Eq, Debug, Default)]
pub struct Conversation {
    pub quadruple: Quadruple,
    pub age: u32,
}

impl Conversation {
    /// Whether it is what a place holds in a fresh record.
    #[inline]
    fn is_fresh(&self) -> bool {
        let Quadruple { addresses, ports } = self.quadruple;
        let Addresses::V4 { source, destination } = addresses else { return false };
        source | destination | ports | self.age == 0
    }
}

/// The bits of an IPv6 address drawn together in 32.
#[inline]
fn folded(address: [u8; 16]) -> u32 {
    let bits = u128::from_ne_bytes(address);
    let half = (bits >> 64) as u64 ^ (bits as u64).rotate_left(23);
    (half >> 32) as u32 ^ half as u32
}

#[derive(Clone, Copy, PartialEq, Eq, Debug, Default)]
pub struct Counts {
    pub passed: u32,
    pub blocked: u32,
}

impl Counts {
    /// Step 5; a count stops at the highest number it can hold.
    #[inline]
    pub fn raise(&mut self, passes: bool) {
        let count = if passes { &mut self.passed } else { &mut self.blocked };
        *count = count.saturating_add(1);
    }
}

/// Free places that are not as in a fresh record, and states and sockets that there are not, are looked for: no stream can say them, the lent
/// words of the proved program can. Left out by the feature `as-written`, so that the cost of a frame can be compared with both.
const WORDS: bool = !cfg!(feature = "as-written");

/// How the places are held, and by which socket, stands apart from the conversations, so that eight places show in one look.
#[derive(Clone, PartialEq, Eq, Debug)]
pub struct Records {
    pub last: u64,
    pub state: u32,
    pub default: Counts,
    /// A level for each socket.
    pub levels: [[u32; SOCKETS]; RULES],
    pub counts: [Counts; RULES],
    pub held: [[u8; PLACES]; RULES],
    pub sockets: [[u8; PLACES]; RULES],
    pub conversations: [[Conversation; PLACES]; RULES],
}

impl Records {
    pub fn empty(last: u64) -> Records {
        Records {
            last,
            state: 0,
            default: Counts::default(),
            levels: [[0; SOCKETS]; RULES],
            counts: [Counts::default(); RULES],
            held: [[FREE; PLACES]; RULES],
            sockets: [[0; PLACES]; RULES],
            conversations: [[Conversation::default(); PLACES]; RULES],
        }
    }

    /// Refuses 5. The table is good.
    #[inline]
    pub fn check(&self, table: &Table) -> Result<(), Refusal> {
        let rules = table.rules();
        let good = self.state < u32::from(table.state_count)
            && rules.iter().enumerate().all(|(place, rule)| self.good_under(place, rule))
            && self.empty_from(rules.len());
        if good {
            Ok(())
        } else {
            Err(Refusal::BadRecord)
        }
    }

    /// Where no rule stands there is no level and no conversation. All levels are looked at at once, and all states of places, which is
    /// faster than to stop early.
    #[inline]
    fn empty_from(&self, count: usize) -> bool {
        let levels = self.levels[count..].iter().fold(0, |any, [level0, level1]| any | level0 | level1);
        let held = any_bit(&self.held[count..]);
        levels == 0 && held == 0 && (!WORDS || self.fresh_from(count))
    }

    /// Whether these places, all of them free, are as in a fresh record.
    #[inline]
    fn fresh_from(&self, count: usize) -> bool {
        any_bit(&self.sockets[count..]) == 0 && self.conversations[count..].iter().all(all_fresh)
    }

    #[inline]
    fn good_under(&self, place: usize, rule: &Rule) -> bool {
        let [level0, level1] = self.levels[place];
        let level = level0.max(level1);
        if level > HIGHEST_LEVEL || (level != 0 && !rule.has(set::SIZE)) {
            return false;
        }
        if self.held[place] == [FREE; PLACES] {
            return !WORDS || (self.sockets[place] == [0; PLACES] && all_fresh(&self.conversations[place]));
        }
        self.good_conversations(place, rule)
    }

    /// Tracking, places, ages, no quadruple twice on one socket and no socket above its number, over the places that are held.
    #[inline]
    fn good_conversations(&self, place: usize, rule: &Rule) -> bool {
        if !rule.has(set::TRACKING) {
            return false;
        }
        let mut marks = [0; PLACES];
        let [held0, held1] = self.held_by(place);
        let mut bad = (held0 > rule.numbers[0]) | (held1 > rule.numbers[1]) | (WORDS && self.has_no_such(place));
        for slot in 0..PLACES {
            let conversation = &self.conversations[place][slot];
            if self.held[place][slot] != FREE {
                bad |= (slot >= usize::from(rule.places)) | (conversation.age >= rule.idle);
                marks[slot] = conversation.quadruple.mark();
            } else {
                bad |= WORDS && !conversation.is_fresh();
                marks[slot] = slot as u32;
            }
        }
        !bad && !(any_alike(&marks) && self.repeats(place))
    }

    /// A state that there is not, a socket that there is not, or a free place with a socket.
    #[inline]
    fn has_no_such(&self, place: usize) -> bool {
        let (held, sockets) = (u64::from_ne_bytes(self.held[place]), u64::from_ne_bytes(self.sockets[place]));
        (held & u64::from_ne_bytes([!CLOSING; PLACES])) | (sockets & !taken(held)) != 0
    }

    /// How many places of a rule each socket holds.
    #[inline]
    pub fn held_by(&self, place: usize) -> [u8; SOCKETS] {
        let (held, sockets) = (u64::from_ne_bytes(self.held[place]), u64::from_ne_bytes(self.sockets[place]));
        [taken(held) & !sockets, taken(held) & sockets].map(count_bytes)
    }

    /// The exact look, needed only where two marks are alike.
    fn repeats(&self, place: usize) -> bool {
        let again = |slot: usize| {
            let (socket, quadruple) = (self.sockets[place][slot], self.conversations[place][slot].quadruple);
            self.find_before(place, slot, socket, quadruple).is_some()
        };
        (1..PLACES).any(|slot| self.held[place][slot] != FREE && again(slot))
    }

    fn find_before(&self, place: usize, end: usize, socket: u8, quadruple: Quadruple) -> Option<usize> {
        let (held, sockets, conversations) = (&self.held[place], &self.sockets[place], &self.conversations[place]);
        (0..end)
            .find(|&slot| held[slot] != FREE && sockets[slot] == socket && conversations[slot].quadruple == quadruple)
    }

    /// The slot in which a rule holds this quadruple of a socket.
    #[inline]
    pub fn find(&self, place: usize, socket: u8, quadruple: Quadruple) -> Option<usize> {
        self.find_before(place, PLACES, socket, quadruple)
    }

    /// The first free slot among the places the rule has.
    #[inline]
    pub fn first_free(&self, place: usize, places: u8) -> Option<usize> {
        self.held[place][..usize::from(places)].iter().position(|held| *held == FREE)
    }

    /// Puts a socket's conversation in a place.
    #[inline]
    pub fn hold(&mut self, place: usize, slot: usize, state: u8, socket: u8, conversation: Conversation) {
        self.held[place][slot] = state;
        self.sockets[place][slot] = socket;
        self.conversations[place][slot] = conversation;
    }

    /// A freed place is as in a fresh record.
    #[inline]
    pub fn free(&mut self, place: usize, slot: usize) {
        self.hold(place, slot, FREE, 0, Conversation::default());
    }

    /// Step 1: the time since the last judged frame, 0 if the clock went back.
    #[inline]
    pub fn elapse(&mut self, reading: u64) -> u64 {
        let elapsed = reading.saturating_sub(self.last);
        self.last = reading;
        elapsed
    }

    /// Step 2, over all rules, active or not.
    #[inline]
    pub fn age(&mut self, table: &Table, elapsed: u64) {
        if elapsed == 0 {
            return;
        }
        for (place, rule) in table.rules().iter().enumerate() {
            if self.levels[place] != [0; SOCKETS] {
                // Beyond 32 bits every level has run out, so the product may stop there.
                let fall = u64::from(rule.refill).saturating_mul(elapsed).min(u64::from(u32::MAX));
                self.levels[place] = self.levels[place].map(|level| level.saturating_sub(fall as u32));
            }
            if self.held[place] != [FREE; PLACES] {
                self.age_conversations(place, rule.idle, elapsed);
            }
        }
    }

    fn age_conversations(&mut self, place: usize, idle: u32, elapsed: u64) {
        for slot in 0..PLACES {
            if self.held[place][slot] == FREE {
                continue;
            }
            let age = u64::from(self.conversations[place][slot].age).saturating_add(elapsed);
            if age >= u64::from(idle) {
                self.free(place, slot);
            } else {
                self.conversations[place][slot].age = age as u32;
            }
        }
    }
}

/// The bits that are set in any byte.
#[inline]
fn any_bit(rows: &[[u8; PLACES]]) -> u64 {
    rows.iter().fold(0, |any, row| any | u64::from_ne_bytes(*row))
}

/// The lowest bit of each of eight bytes.
const LOWEST: u64 = u64::from_ne_bytes([1; PLACES]);

/// The lowest bit of each byte whose place is not free; a state is one of the two lowest bits or both.
#[inline]
fn taken(held: u64) -> u64 {
    (held | held >> 1) & LOWEST
}

/// How many of the bytes have their lowest bit set, if no other bit is: the product adds them up in the highest.
#[inline]
fn count_bytes(bits: u64) -> u8 {
    (bits.wrapping_mul(LOWEST) >> 56) as u8
}

#[inline]
fn all_fresh(row: &[Conversation; PLACES]) -> bool {
    row.iter().all(Conversation::is_fresh)
}

/// Every two of the eight stand at most four apart, going round.
#[inline]
fn any_alike(marks: &[u32; PLACES]) -> bool {
    let mut alike = false;
    for apart in 1..=PLACES / 2 {
        for slot in 0..PLACES {
            alike |= marks[slot] == marks[(slot + apart) % PLACES];
        }
    }
    alike
}

/// Table and records; refuses 4, then 5.
pub fn check(table: &Table, records: &Records) -> Result<(), Refusal> {
    table.check()?;
    records.check(table)
}

/// Fresh records of a table; refuses 4.
pub fn fresh(table: &Table, start: u64) -> Result<Records, Refusal> {
    table.check()?;
    Ok(Records::empty(start))
}

/// The switch changes the active state alone; refuses 4, 5, 6.
pub fn switch(table: &Table, records: &mut Records, state: u8) -> Result<(), Refusal> {
    check(table, records)?;
    if state >= table.state_count {
        return Err(Refusal::NoSuchState);
    }
    records.state = u32::from(state);
    Ok(())
}
