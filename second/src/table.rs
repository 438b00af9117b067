//! Rules and vehicle states, and what makes a table bad.

use crate::answer::{Refusal, NO_RULE};
use crate::layers::Kind;
use crate::setting;

pub const RULES: usize = 64;
pub const STATES: usize = 8;
pub const PLACES: usize = 8;
pub const SOCKETS: usize = 2;
pub const LONGEST_IDLE: u32 = 600_000;

/// One bit per setting: whether it is set. What an unset setting holds means nothing.
pub mod set {
    pub const DEST_MAC: u32 = 1;
    pub const SOURCE_MAC: u32 = 1 << 1;
    pub const VLAN: u32 = 1 << 2;
    pub const PRIORITY: u32 = 1 << 3;
    pub const ETHER: u32 = 1 << 4;
    pub const SOURCE: u32 = 1 << 5;
    pub const DESTINATION: u32 = 1 << 6;
    pub const PROTOCOL: u32 = 1 << 7;
    pub const KIND: u32 = 1 << 8;
    pub const SOURCE_PORTS: u32 = 1 << 9;
    pub const DEST_PORTS: u32 = 1 << 10;
    pub const SERVICE: u32 = 1 << 11;
    pub const METHOD: u32 = 1 << 12;
    pub const VERSION: u32 = 1 << 13;
    pub const MESSAGE: u32 = 1 << 14;
    pub const CODE: u32 = 1 << 15;
    pub const SIZE: u32 = 1 << 16;
    pub const REFILL: u32 = 1 << 17;
    pub const PLACES: u32 = 1 << 18;
    pub const IDLE: u32 = 1 << 19;
    pub const SOURCE6: u32 = 1 << 20;
    pub const DESTINATION6: u32 = 1 << 21;
    pub const PROTOCOL6: u32 = 1 << 22;
    pub const SOCKET: u32 = 1 << 23;
    pub const NUMBER0: u32 = 1 << 24;
    pub const NUMBER1: u32 = 1 << 25;

    pub const TAG: u32 = VLAN | PRIORITY;
    pub const LINK: u32 = DEST_MAC | SOURCE_MAC | TAG | ETHER | SOCKET;
    pub const IPV4: u32 = SOURCE | DESTINATION | PROTOCOL;
    pub const IPV6: u32 = SOURCE6 | DESTINATION6 | PROTOCOL6;
    pub const IP: u32 = IPV4 | IPV6;
    pub const PORTS: u32 = SOURCE_PORTS | DEST_PORTS;
    pub const TRANSPORT: u32 = KIND | PORTS;
    pub const SOMEIP: u32 = SERVICE | METHOD | VERSION | MESSAGE | CODE;
    pub const RATE: u32 = SIZE | REFILL;
    pub const NUMBERS: u32 = NUMBER0 | NUMBER1;
    pub const TRACKING: u32 = PLACES | IDLE | NUMBERS;
}

#[derive(Clone, Copy, PartialEq, Eq, Debug)]
pub enum Action {
    Allow,
    Block,
}

#[derive(Clone, Copy, Debug)]
pub struct Prefix {
    pub address: u32,
    pub length: u8,
}

impl Prefix {
    /// Compares the leading bits only; a length of 0 compares none.
    #[inline]
    pub fn holds(self, address: u32) -> bool {
        let differing = u64::from(self.address ^ address);
        differing >> (32 - u32::from(self.length)) == 0
    }
}

#[derive(Clone, Copy, Debug)]
pub struct Prefix6 {
    pub address: u128,
    pub length: u8,
}

impl Prefix6 {
    #[inline]
    pub fn holds(self, address: u128) -> bool {
        (self.address ^ address).leading_zeros() >= u32::from(self.length)
    }
}

#[derive(Clone, Copy, Debug)]
pub struct Range {
    pub low: u16,
    pub high: u16,
}

impl Range {
    /// The low end is above the high.
    #[inline]
    fn turned(self) -> bool {
        self.low > self.high
    }

    #[inline]
    pub fn holds(self, port: u16) -> bool {
        self.low <= port && port <= self.high
    }
}

#[derive(Clone, Copy, Debug)]
pub struct Rule {
    /// Both MACs have 48 bits, by their reading.
    pub dst: u64,
    pub src: u64,
    pub set: u32,
    pub id: u16,
    pub action: Action,
    pub kind: Kind,
    pub ether: u16,
    pub vlan: u16,
    pub priority: u8,
    pub socket: u8,
    pub protocol: u8,
    pub source: Prefix,
    pub destination: Prefix,
    pub source6: Prefix6,
    pub destination6: Prefix6,
    pub protocol6: u8,
    pub sports: Range,
    pub dports: Range,
    pub service: u16,
    pub method: u16,
    pub version: u8,
    pub message: u8,
    pub code: u8,
    pub places: u8,
    /// How many of the places each socket may hold.
    pub numbers: [u8; SOCKETS],
    pub size: u16,
    pub refill: u16,
    pub idle: u32,
}

impl Rule {
    #[inline]
    pub fn has(&self, settings: u32) -> bool {
        self.set & settings != 0
    }

    /// Which of `CAN_BE_AT_FAULT` are, as 02 names a fault: half a pair by its set half, ports without a kind by their first
    /// range. But for the settings of IPv6 and of tracking, which many rules have none of, no test is skipped for another: that is
    /// faster than to branch.
    #[inline(always)]
    fn faults(&self) -> [bool; CAN_BE_AT_FAULT.len()] {
        let kind = self.has(set::KIND);
        let [source6, destination6, protocol6] = if self.has(set::IPV6) { self.faults_of_ipv6() } else { [false; 3] };
        let [places, idle, number0, number1] =
            if self.has(set::TRACKING) { self.faults_of_tracking() } else { [false; 4] };
        [
            self.has(set::VLAN) & (self.vlan > 4_094),
            self.has(set::PRIORITY) & (self.priority > 7),
            self.has(set::SOCKET) & (usize::from(self.socket) >= SOCKETS),
            self.has(set::SOURCE) & (self.source.length > 32),
            self.has(set::DESTINATION) & (self.destination.length > 32),
            source6,
            destination6,
            protocol6,
            self.has(set::SOURCE_PORTS) & (self.sports.turned() | !kind),
            self.has(set::DEST_PORTS) & (self.dports.turned() | !kind),
            self.has(set::SIZE) & !self.has(set::REFILL),
            self.has(set::REFILL) & !self.has(set::SIZE),
            places,
            idle,
            number0,
            number1,
        ]
    }

    /// Those of a rule with settings of IPv6; both kinds of IP are named by the first of them.
    #[inline]
    fn faults_of_ipv6(&self) -> [bool; 3] {
        let both = self.has(set::IPV4);
        let (source, destination) = (self.has(set::SOURCE6), self.has(set::DESTINATION6));
        [
            source & (both | (self.source6.length > 128)),
            destination & ((both & !source) | (self.destination6.length > 128)),
            both & !source & !destination,
        ]
    }

    /// Those of a rule with settings of tracking. Misplaced tracking, and tracking of which something is not set, is named by the first
    /// that is set, whose bit is the lowest.
    #[inline]
    fn faults_of_tracking(&self) -> [bool; 4] {
        let set = self.set & set::TRACKING;
        if set != set::TRACKING {
            let first = set & set.wrapping_neg();
            return [set::PLACES, set::IDLE, set::NUMBER0, set::NUMBER1].map(|setting| setting == first);
        }
        let misplaced = (self.action == Action::Block) | !self.has(set::KIND) | (self.kind != Kind::Tcp);
        [
            misplaced | (self.places < 1) | (self.places > PLACES as u8),
            (self.idle < 1) | (self.idle > LONGEST_IDLE),
            self.numbers[0] > self.places,
            self.numbers[1] > self.places,
        ]
    }

    /// Whether anything is wrong with the rule by itself.
    #[inline]
    fn at_fault(&self) -> bool {
        self.faults().into_iter().fold(self.id == NO_RULE, |any, fault| any | fault)
    }

    /// The settings at fault beside the id, in 01's order, as 02 names them: misplaced tracking, tracking of which something is not set,
    /// and both kinds of IP by one alone.
    pub fn settings_at_fault(&self) -> impl Iterator<Item = u8> {
        let faults = CAN_BE_AT_FAULT.into_iter().zip(self.faults());
        faults.filter(|(_, at_fault)| *at_fault).map(|(setting, _)| setting)
    }
}

/// The settings beside the id that can be at fault, in 01's order. Every other holds no more than it may.
pub const CAN_BE_AT_FAULT: [u8; 16] = [
    setting::VLAN,
    setting::PRIORITY,
    setting::SOCKET,
    setting::SOURCE,
    setting::DESTINATION,
    setting::SOURCE6,
    setting::DESTINATION6,
    setting::PROTOCOL6,
    setting::SOURCE_PORTS,
    setting::DEST_PORTS,
    setting::SIZE,
    setting::REFILL,
    setting::PLACES,
    setting::IDLE,
    setting::NUMBER0,
    setting::NUMBER1,
];

#[derive(Clone, Copy, Debug)]
pub struct State {
    pub default: Action,
    /// Place 0 is the lowest bit.
    pub marks: u64,
}

#[derive(Clone)]
pub struct Table {
    pub rule_count: u8,
    pub state_count: u8,
    pub states: [State; STATES],
    pub rules: [Rule; RULES],
}

/// A sieve for ids: two equal ids always meet in one bit, two different ones seldom.
type Sieve = [u64; 16];

impl Table {
    /// The rules there are. What stands beyond the count is no rule.
    #[inline]
    pub fn rules(&self) -> &[Rule] {
        &self.rules[..usize::from(self.rule_count).min(RULES)]
    }

    /// Refuses 4: the rule count, then the rules, then the states. The setting is looked for only where a rule is at fault.
    #[inline]
    pub fn check(&self) -> Result<(), Refusal> {
        if usize::from(self.rule_count) > RULES {
            return Err(Refusal::NO_RULE_AT_FAULT);
        }
        let mut sieve: Sieve = [0; 16];
        for (place, rule) in self.rules().iter().enumerate() {
            if rule.at_fault() || self.repeats(place, rule.id, &mut sieve) {
                return Err(self.refused_at(place));
            }
        }
        self.check_states()
    }

    /// An id repeats at the later rule. Earlier ids are looked through only where the sieve leaves a doubt.
    #[inline]
    fn repeats(&self, place: usize, id: u16, sieve: &mut Sieve) -> bool {
        let bit = 1 << (id & 63);
        let word = &mut sieve[usize::from(id >> 6 & 15)];
        let doubt = *word & bit != 0;
        *word |= bit;
        doubt && self.rules[..place].iter().any(|earlier| earlier.id == id)
    }

    /// The rule at this place is the first at fault. Its id comes first of its settings.
    #[cold]
    fn refused_at(&self, place: usize) -> Refusal {
        let rule = &self.rules[place];
        let id = rule.id == NO_RULE || self.rules[..place].iter().any(|earlier| earlier.id == rule.id);
        let first = if id { Some(setting::ID) } else { rule.settings_at_fault().next() };
        Refusal::BadTable { place: place as u8, setting: first.expect("a rule at fault has a setting at fault") }
    }

    #[inline]
    fn check_states(&self) -> Result<(), Refusal> {
        let count = usize::from(self.state_count);
        if count < 1 || count > STATES {
            return Err(Refusal::NO_RULE_AT_FAULT);
        }
        let real = (1u128 << self.rule_count) - 1;
        let beyond = |state: &State| u128::from(state.marks) & !real != 0;
        if self.states[..count].iter().any(beyond) {
            return Err(Refusal::NO_RULE_AT_FAULT);
        }
        Ok(())
    }
}
