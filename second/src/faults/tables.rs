//! Bad tables: a good one spoiled in one way, or in two of which one must be named.

use crate::answer::{Refusal, NO_RULE};
use crate::layers::Kind;
use crate::random::Random;
use crate::setting;
use crate::table::{set, Action, Range, Rule, Table, LONGEST_IDLE, RULES, STATES};

/// One way to bring a rule at fault.
#[derive(Clone, Copy)]
pub struct RuleFault {
    name: &'static str,
    /// What refusal 4 must name.
    setting: u8,
    /// The settings that must be set for it, and those that must not.
    set: u32,
    unset: u32,
}

const fn fault(name: &'static str, setting: u8, set: u32, unset: u32) -> RuleFault {
    RuleFault { name, setting, set, unset }
}

const WITHOUT_KIND: u32 = set::KIND | set::TRACKING;
const TRACKED: u32 = set::KIND | set::TRACKING;

/// Some of the four settings of tracking, and not the others; the first of them is named.
const fn only(name: &'static str, setting: u8, some: u32) -> RuleFault {
    fault(name, setting, set::KIND | some, set::TRACKING & !some)
}

const RULE_FAULTS: [RuleFault; 51] = [
    fault("id-65535", setting::ID, 0, 0),
    fault("id-repeated", setting::ID, 0, 0),
    fault("vlan-above-4094", setting::VLAN, set::VLAN, 0),
    fault("priority-above-7", setting::PRIORITY, set::PRIORITY, 0),
    fault("socket-above-1", setting::SOCKET, set::SOCKET, 0),
    fault("source-prefix-above-32", setting::SOURCE, set::SOURCE, 0),
    fault("dest-prefix-above-32", setting::DESTINATION, set::DESTINATION, 0),
    fault("source6-prefix-above-128", setting::SOURCE6, set::SOURCE6, set::IPV4),
    fault("dest6-prefix-above-128", setting::DESTINATION6, set::DESTINATION6, set::IPV4),
    fault("both-kinds-at-source6", setting::SOURCE6, set::SOURCE6, 0),
    fault("both-kinds-at-dest6", setting::DESTINATION6, set::DESTINATION6, set::SOURCE6),
    fault("both-kinds-at-protocol6", setting::PROTOCOL6, set::PROTOCOL6, set::SOURCE6 | set::DESTINATION6),
    fault("both-kinds-and-source6-prefix", setting::SOURCE6, set::SOURCE6, 0),
    fault("both-kinds-before-dest6-prefix", setting::SOURCE6, set::SOURCE6 | set::DESTINATION6, 0),
    fault("source-range-turned", setting::SOURCE_PORTS, set::KIND | set::SOURCE_PORTS, 0),
    fault("dest-range-turned", setting::DEST_PORTS, set::KIND | set::DEST_PORTS, 0),
    fault("source-ports-without-kind", setting::SOURCE_PORTS, set::SOURCE_PORTS, WITHOUT_KIND),
    fault("dest-ports-without-kind", setting::DEST_PORTS, set::DEST_PORTS, WITHOUT_KIND | set::SOURCE_PORTS),
    fault("both-ports-without-kind", setting::SOURCE_PORTS, set::PORTS, WITHOUT_KIND),
    fault("source-range-turned-without-kind", setting::SOURCE_PORTS, set::SOURCE_PORTS, WITHOUT_KIND),
    fault("dest-range-turned-without-kind", setting::SOURCE_PORTS, set::PORTS, WITHOUT_KIND),
    fault("ports-and-tracking-without-kind", setting::SOURCE_PORTS, set::SOURCE_PORTS | set::TRACKING, set::KIND),
    fault("size-only", setting::SIZE, set::SIZE, set::REFILL),
    fault("refill-only", setting::REFILL, set::REFILL, set::SIZE),
    only("places-only", setting::PLACES, set::PLACES),
    only("idle-only", setting::IDLE, set::IDLE),
    only("number0-only", setting::NUMBER0, set::NUMBER0),
    only("number1-only", setting::NUMBER1, set::NUMBER1),
    only("numbers-only", setting::NUMBER0, set::NUMBERS),
    only("all-but-numbers", setting::PLACES, set::PLACES | set::IDLE),
    only("all-but-places", setting::IDLE, set::IDLE | set::NUMBERS),
    only("all-but-idle", setting::PLACES, set::PLACES | set::NUMBERS),
    only("all-but-number0", setting::PLACES, set::PLACES | set::IDLE | set::NUMBER1),
    only("all-but-number1", setting::PLACES, set::PLACES | set::IDLE | set::NUMBER0),
    fault("places-0", setting::PLACES, TRACKED, 0),
    fault("places-above-8", setting::PLACES, TRACKED, 0),
    fault("idle-0", setting::IDLE, TRACKED, 0),
    fault("idle-above-600000", setting::IDLE, TRACKED, 0),
    fault("number0-above-places", setting::NUMBER0, TRACKED, 0),
    fault("number1-above-places", setting::NUMBER1, TRACKED, 0),
    fault("numbers-above-places", setting::NUMBER0, TRACKED, 0),
    only("places-0-only", setting::PLACES, set::PLACES),
    only("idle-0-only", setting::IDLE, set::IDLE),
    fault("tracking-on-block", setting::PLACES, TRACKED, 0),
    fault("tracking-on-udp", setting::PLACES, TRACKED, 0),
    fault("tracking-without-kind", setting::PLACES, set::TRACKING, set::TRANSPORT),
    only("places-only-on-block", setting::PLACES, set::PLACES),
    only("idle-only-on-block", setting::IDLE, set::IDLE),
    only("number0-only-on-block", setting::NUMBER0, set::NUMBER0),
    only("number1-only-on-udp", setting::NUMBER1, set::NUMBER1),
    fault("idle-0-on-udp", setting::PLACES, TRACKED, 0),
];

/// Looked at after the rules.
const STATE_FAULTS: [&str; 3] = ["states-0", "states-above-8", "mark-beyond-rules"];

impl RuleFault {
    /// Whether a rule can be at fault in both ways: what one needs set the other does not need unset. Of too many places no number is
    /// too many.
    fn goes_with(&self, other: &RuleFault) -> bool {
        let number = [setting::NUMBER0, setting::NUMBER1].contains(&other.setting);
        self.set & other.unset == 0 && self.unset & other.set == 0 && !(self.name == "places-above-8" && number)
    }

    /// Where in 01's order its setting stands.
    fn rank(&self) -> Option<usize> {
        setting::order().iter().position(|setting| *setting == self.setting)
    }

    fn named_at(&self, place: usize) -> Refusal {
        Refusal::BadTable { place: place as u8, setting: self.setting }
    }

    /// Brings the rule at this place at fault; only a later rule can repeat an id.
    fn spoil(&self, table: &mut Table, place: usize, random: &mut Random) {
        if self.name == "id-repeated" {
            table.rules[place].id = table.rules[random.below(place as u64) as usize].id;
        }
        let rule = &mut table.rules[place];
        rule.set = rule.set & !self.unset | self.set;
        if setting::TRACKING.contains(&self.setting) {
            self.spoil_tracking(rule, random);
        } else {
            self.spoil_value(rule, random);
        }
    }

    fn spoil_value(&self, rule: &mut Rule, random: &mut Random) {
        match self.name {
            "id-65535" => rule.id = NO_RULE,
            "vlan-above-4094" => rule.vlan = random.pick(&[4_095, 4_096, 65_535]),
            "priority-above-7" => rule.priority = random.pick(&[8, 255]),
            "socket-above-1" => rule.socket = random.pick(&[2, 2, 3, 128, 255]),
            "source-prefix-above-32" => rule.source.length = random.pick(&[33, 64, 255]),
            "dest-prefix-above-32" => rule.destination.length = random.pick(&[33, 64, 255]),
            "source6-prefix-above-128" => rule.source6.length = above_128(random),
            "dest6-prefix-above-128" => rule.destination6.length = above_128(random),
            "both-kinds-at-source6" | "both-kinds-at-dest6" | "both-kinds-at-protocol6" => set_ipv4(rule, random),
            "both-kinds-and-source6-prefix" => {
                set_ipv4(rule, random);
                rule.source6.length = above_128(random);
            }
            "both-kinds-before-dest6-prefix" => {
                set_ipv4(rule, random);
                rule.destination6.length = above_128(random);
            }
            "source-range-turned" | "source-range-turned-without-kind" => rule.sports = turned(random),
            "dest-range-turned" | "dest-range-turned-without-kind" => rule.dports = turned(random),
            // What is set and what is not is fault enough.
            _ => {}
        }
    }

    /// Tracking that would be good but for the fault. The values of a drawn rule are good, set or not.
    fn spoil_tracking(&self, rule: &mut Rule, random: &mut Random) {
        (rule.action, rule.kind) = (Action::Allow, Kind::Tcp);
        match self.name {
            "places-0" | "places-0-only" => rule.places = 0,
            "places-above-8" => rule.places = random.pick(&[9, 255]),
            "idle-0" | "idle-0-only" => rule.idle = 0,
            "idle-above-600000" => rule.idle = random.pick(&[LONGEST_IDLE + 1, u32::MAX]),
            "number0-above-places" => rule.numbers[0] = rule.places + 1,
            "number1-above-places" => rule.numbers[1] = rule.places + 1,
            "numbers-above-places" => rule.numbers = rule.numbers.map(|_| random.pick(&[rule.places + 1, 9, 255])),
            "tracking-on-block" | "places-only-on-block" | "idle-only-on-block" | "number0-only-on-block" => {
                rule.action = Action::Block;
            }
            "tracking-on-udp" | "number1-only-on-udp" => rule.kind = Kind::Udp,
            "idle-0-on-udp" => (rule.idle, rule.kind) = (0, Kind::Udp),
            _ => {}
        }
    }
}

fn above_128(random: &mut Random) -> u8 {
    random.pick(&[129, 129, 255])
}

/// One setting of IPv4, whose value is good.
fn set_ipv4(rule: &mut Rule, random: &mut Random) {
    rule.set |= random.pick(&[set::SOURCE, set::DESTINATION, set::PROTOCOL]);
}

fn turned(random: &mut Random) -> Range {
    let low = 1 + random.below(65_535) as u16;
    Range { low, high: random.below(low.into()) as u16 }
}

fn spoil_states(table: &mut Table, fault: &str, random: &mut Random) {
    match fault {
        "states-0" => table.state_count = 0,
        "states-above-8" => table.state_count = random.between(9, 255) as u8,
        "mark-beyond-rules" => {
            if table.rules().len() == RULES {
                table.rule_count -= 1;
            }
            let beyond = random.between(u64::from(table.rule_count), 63);
            let state = random.below(u64::from(table.state_count)) as usize;
            table.states[state.min(STATES - 1)].marks |= 1 << beyond;
        }
        _ => unreachable!("no fault of this name: {fault}"),
    }
}

/// A way to spoil a good table.
#[derive(Clone, Copy)]
pub enum BadTable {
    InRule(RuleFault),
    InStates(&'static str),
    TooManyRules,
    /// Two settings of one rule, in 01's order; where the second is none, the states are at fault beside the first.
    Settings(u8, u8),
    /// Two rules, the earlier by a setting that comes before the later's in 01's order, or after it.
    TwoRules {
        rising: bool,
    },
    /// Too many rules, and one of them at fault.
    CountAndRule,
}

impl BadTable {
    /// Every way, those with one fault first.
    pub fn all() -> Vec<BadTable> {
        let mut all: Vec<BadTable> = RULE_FAULTS.map(BadTable::InRule).to_vec();
        all.extend(STATE_FAULTS.map(BadTable::InStates));
        all.push(BadTable::TooManyRules);
        let order = setting::order();
        for (at, first) in order.iter().enumerate() {
            let later = order[at + 1..].iter().filter(|second| !pairs(*first, **second).is_empty());
            all.extend(later.map(|second| BadTable::Settings(*first, *second)));
            if RULE_FAULTS.iter().any(|fault| fault.setting == *first) {
                all.push(BadTable::Settings(*first, setting::NONE));
            }
        }
        all.extend([true, false].map(|rising| BadTable::TwoRules { rising }));
        all.push(BadTable::CountAndRule);
        all
    }

    pub fn has_one_fault(&self) -> bool {
        matches!(self, BadTable::InRule(_) | BadTable::InStates(_) | BadTable::TooManyRules)
    }

    /// What the reach report calls it.
    pub fn name(self) -> String {
        match self {
            BadTable::InRule(fault) => format!("table-fault-{}", fault.name),
            BadTable::InStates(fault) => format!("table-fault-{fault}"),
            BadTable::TooManyRules => "table-fault-rules-above-64".to_string(),
            BadTable::Settings(first, second) => format!("two-faults-{first}-{second}"),
            BadTable::TwoRules { rising: true } => "two-rules-rising".to_string(),
            BadTable::TwoRules { rising: false } => "two-rules-falling".to_string(),
            BadTable::CountAndRule => "two-faults-count-and-rule".to_string(),
        }
    }

    /// Spoils a good table in this way; gives the refusal that it must have.
    pub fn spoil(self, table: &mut Table, random: &mut Random) -> Refusal {
        match self {
            BadTable::InRule(fault) => one_rule(table, &fault, random),
            BadTable::InStates(fault) => {
                spoil_states(table, fault, random);
                Refusal::NO_RULE_AT_FAULT
            }
            BadTable::TooManyRules => too_many(table, random),
            BadTable::Settings(first, setting::NONE) => rule_and_states(table, first, random),
            BadTable::Settings(first, second) => two_settings(table, first, second, random),
            BadTable::TwoRules { rising } => two_rules(table, rising, random),
            BadTable::CountAndRule => {
                let fault = random.pick(&RULE_FAULTS);
                let named = one_rule(table, &fault, random);
                assert_eq!(table.check(), Err(named), "{}", fault.name);
                too_many(table, random)
            }
        }
    }
}

/// The ways in which one rule can be at fault by both settings.
fn pairs(first: u8, second: u8) -> Vec<(RuleFault, RuleFault)> {
    let of = |setting: u8| RULE_FAULTS.into_iter().filter(move |fault| fault.setting == setting);
    let both = of(first).flat_map(|one| of(second).map(move |other| (one, other)));
    both.filter(|(one, other)| one.goes_with(other)).collect()
}

fn too_many(table: &mut Table, random: &mut Random) -> Refusal {
    table.rule_count = random.between(65, 255) as u8;
    Refusal::NO_RULE_AT_FAULT
}

fn one_rule(table: &mut Table, fault: &RuleFault, random: &mut Random) -> Refusal {
    let first = u64::from(fault.name == "id-repeated");
    let place = random.between(first, table.rules().len() as u64 - 1) as usize;
    fault.spoil(table, place, random);
    fault.named_at(place)
}

/// The later setting is spoiled first, and named as long as it is the only one; the first may misplace its tracking.
fn two_settings(table: &mut Table, first: u8, second: u8, random: &mut Random) -> Refusal {
    let (one, other) = random.pick(&pairs(first, second));
    let place = random.between(1, table.rules().len() as u64 - 1) as usize;
    other.spoil(table, place, random);
    assert_eq!(table.check(), Err(other.named_at(place)), "{}", other.name);
    one.spoil(table, place, random);
    let mut at_fault = table.rules[place].settings_at_fault();
    assert!(at_fault.any(|setting| setting == second), "{} undoes {}", one.name, other.name);
    one.named_at(place)
}

/// The states come first here too, since a mark beyond the rules may need a rule less.
fn rule_and_states(table: &mut Table, setting: u8, random: &mut Random) -> Refusal {
    spoil_states(table, random.pick(&STATE_FAULTS), random);
    assert_eq!(table.check(), Err(Refusal::NO_RULE_AT_FAULT));
    let faults: Vec<RuleFault> = RULE_FAULTS.into_iter().filter(|fault| fault.setting == setting).collect();
    one_rule(table, &random.pick(&faults), random)
}

/// The earlier rule is named, whichever of the two settings comes first.
fn two_rules(table: &mut Table, rising: bool, random: &mut Random) -> Refusal {
    let one = random.pick(&RULE_FAULTS);
    let others: Vec<RuleFault> = RULE_FAULTS.into_iter().filter(|fault| fault.setting != one.setting).collect();
    let other = random.pick(&others);
    let (earlier, later) = if (one.rank() < other.rank()) == rising { (one, other) } else { (other, one) };
    let count = table.rules().len() as u64;
    let place = random.between(1, count - 2);
    let behind = random.between(place + 1, count - 1) as usize;
    later.spoil(table, behind, random);
    assert_eq!(table.check(), Err(later.named_at(behind)), "{}", later.name);
    let first = table.rules[place as usize];
    earlier.spoil(table, place as usize, random);
    // the later rule is at fault still, and would be named if the earlier were not
    let spoiled = std::mem::replace(&mut table.rules[place as usize], first);
    assert_eq!(table.check(), Err(later.named_at(behind)), "{}", later.name);
    table.rules[place as usize] = spoiled;
    earlier.named_at(place as usize)
}
