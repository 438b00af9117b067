//! Table and record images of the case stream, read and written.

use crate::layers::{be128, be16, be32, be64, mac, Addresses, Kind};
use crate::random::Random;
use crate::records::{Conversation, Counts, Quadruple, Records, CLOSING, FREE};
use crate::table::{set, Action, Prefix, Prefix6, Range, Rule, State, Table, PLACES, RULES, STATES};

pub const TABLE_IMAGE: usize = 12_370;
pub const RECORD_IMAGE: usize = 33_812;
const RULE_IMAGE: usize = 192;
const STATE_COUNT_AT: usize = 12_289;
const STATES_AT: usize = 12_290;
const STATE_IMAGE: usize = 10;
const RULE_RECORDS_AT: usize = 20;
const RULE_RECORD_IMAGE: usize = 528;
const PLACES_AT: usize = 16;
const PLACE_IMAGE: usize = 64;
/// Above the settings that are known, bits mean nothing yet.
const KNOWN_SETTINGS: u32 = (1 << 26) - 1;

fn action(byte: u8) -> Action {
    if byte == 0 {
        Action::Allow
    } else {
        Action::Block
    }
}

pub fn read_table(image: &[u8]) -> Table {
    Table {
        rule_count: image[0],
        state_count: image[STATE_COUNT_AT],
        states: std::array::from_fn::<_, STATES, _>(|number| {
            let at = STATES_AT + STATE_IMAGE * number;
            State { default: action(image[at]), marks: be64(image, at + 1) }
        }),
        rules: std::array::from_fn::<_, RULES, _>(|place| read_rule(&image[1 + RULE_IMAGE * place..])),
    }
}

fn read_rule(image: &[u8]) -> Rule {
    Rule {
        id: be16(image, 0),
        action: action(image[2]),
        set: be32(image, 3) & KNOWN_SETTINGS,
        dst: mac(image, 7),
        src: mac(image, 13),
        vlan: be16(image, 19),
        priority: image[21],
        ether: be16(image, 23),
        source: Prefix { address: be32(image, 25), length: image[29] },
        destination: Prefix { address: be32(image, 30), length: image[34] },
        protocol: image[35],
        kind: if image[36] == 1 { Kind::Tcp } else { Kind::Udp },
        sports: Range { low: be16(image, 37), high: be16(image, 39) },
        dports: Range { low: be16(image, 41), high: be16(image, 43) },
        service: be16(image, 45),
        method: be16(image, 47),
        version: image[49],
        message: image[50],
        code: image[51],
        size: be16(image, 52),
        refill: be16(image, 54),
        places: image[56],
        idle: be32(image, 57),
        source6: Prefix6 { address: be128(image, 61), length: image[77] },
        destination6: Prefix6 { address: be128(image, 78), length: image[94] },
        protocol6: image[95],
        socket: image[96],
        numbers: [image[97], image[98]],
    }
}

pub fn read_records(image: &[u8]) -> Records {
    let mut records = Records::empty(be64(image, 0));
    records.state = be32(image, 8);
    records.default = Counts { passed: be32(image, 12), blocked: be32(image, 16) };
    for place in 0..RULES {
        let rule = &image[RULE_RECORDS_AT + RULE_RECORD_IMAGE * place..];
        records.levels[place] = [be32(rule, 0), be32(rule, 12)];
        records.counts[place] = Counts { passed: be32(rule, 4), blocked: be32(rule, 8) };
        for slot in 0..PLACES {
            read_place(&rule[PLACES_AT + PLACE_IMAGE * slot..], &mut records, place, slot);
        }
    }
    records
}

/// The bytes of a free place are ignored, and a state beyond Closing says Closing.
fn read_place(image: &[u8], records: &mut Records, place: usize, slot: usize) {
    if image[0] == FREE {
        return;
    }
    let addresses = match image[17] {
        0 => Addresses::V4 { source: be32(image, 1), destination: be32(image, 5) },
        _ => Addresses::v6(be128(image, 18), be128(image, 34)),
    };
    let quadruple = Quadruple::new(addresses, be16(image, 9), be16(image, 11));
    let socket = u8::from(image[50] != 0);
    let conversation = Conversation { quadruple, age: be32(image, 13) };
    records.hold(place, slot, image[0].min(CLOSING), socket, conversation);
}

fn put(image: &mut [u8], at: usize, bytes: &[u8]) {
    image[at..at + bytes.len()].copy_from_slice(bytes);
}

/// What an image leaves unused is filled with noise, since no program may look there.
fn noise(random: &mut Random, length: usize) -> Vec<u8> {
    (0..length).map(|_| random.next() as u8).collect()
}

/// One of the bytes that say yes: any but the one that says no.
fn other_than(random: &mut Random, byte: u8) -> u8 {
    byte.wrapping_add(1 + random.below(255) as u8)
}

fn action_byte(action: Action, random: &mut Random) -> u8 {
    match action {
        Action::Allow => 0,
        Action::Block => other_than(random, 0),
    }
}

pub fn write_table(table: &Table, random: &mut Random) -> Vec<u8> {
    let mut image = noise(random, TABLE_IMAGE);
    image[0] = table.rule_count;
    image[STATE_COUNT_AT] = table.state_count;
    for (number, state) in table.states.iter().enumerate() {
        let at = STATES_AT + STATE_IMAGE * number;
        image[at] = action_byte(state.default, random);
        put(&mut image, at + 1, &state.marks.to_be_bytes());
    }
    for (place, rule) in table.rules.iter().enumerate() {
        write_rule(rule, &mut image[1 + RULE_IMAGE * place..], random);
    }
    image
}

fn write_rule(rule: &Rule, image: &mut [u8], random: &mut Random) {
    let above = random.next() as u32 & !KNOWN_SETTINGS;
    put(image, 0, &rule.id.to_be_bytes());
    image[2] = action_byte(rule.action, random);
    put(image, 3, &(rule.set & KNOWN_SETTINGS | above).to_be_bytes());
    put(image, 7, &rule.dst.to_be_bytes()[2..]);
    put(image, 13, &rule.src.to_be_bytes()[2..]);
    put(image, 19, &rule.vlan.to_be_bytes());
    image[21] = rule.priority;
    put(image, 23, &rule.ether.to_be_bytes());
    put(image, 25, &rule.source.address.to_be_bytes());
    image[29] = rule.source.length;
    put(image, 30, &rule.destination.address.to_be_bytes());
    image[34] = rule.destination.length;
    image[35] = rule.protocol;
    image[36] = if rule.kind == Kind::Tcp { 1 } else { other_than(random, 1) };
    for (at, range) in [(37, rule.sports), (41, rule.dports)] {
        put(image, at, &range.low.to_be_bytes());
        put(image, at + 2, &range.high.to_be_bytes());
    }
    put(image, 45, &rule.service.to_be_bytes());
    put(image, 47, &rule.method.to_be_bytes());
    put(image, 49, &[rule.version, rule.message, rule.code]);
    put(image, 52, &rule.size.to_be_bytes());
    put(image, 54, &rule.refill.to_be_bytes());
    image[56] = rule.places;
    put(image, 57, &rule.idle.to_be_bytes());
    // Where they are not set, the noise stays.
    for (at, setting, prefix) in [(61, set::SOURCE6, rule.source6), (78, set::DESTINATION6, rule.destination6)] {
        if rule.has(setting) {
            put(image, at, &prefix.address.to_be_bytes());
            image[at + 16] = prefix.length;
        }
    }
    let [number0, number1] = rule.numbers;
    for (at, setting, byte) in [
        (95, set::PROTOCOL6, rule.protocol6),
        (96, set::SOCKET, rule.socket),
        (97, set::NUMBER0, number0),
        (98, set::NUMBER1, number1),
    ] {
        if rule.has(setting) {
            image[at] = byte;
        }
    }
}

pub fn write_records(records: &Records, random: &mut Random) -> Vec<u8> {
    let mut image = noise(random, RECORD_IMAGE);
    put(&mut image, 0, &records.last.to_be_bytes());
    put(&mut image, 8, &records.state.to_be_bytes());
    put(&mut image, 12, &records.default.passed.to_be_bytes());
    put(&mut image, 16, &records.default.blocked.to_be_bytes());
    for place in 0..RULES {
        let rule = &mut image[RULE_RECORDS_AT + RULE_RECORD_IMAGE * place..];
        for (at, level) in [0, 12].into_iter().zip(records.levels[place]) {
            put(rule, at, &level.to_be_bytes());
        }
        put(rule, 4, &records.counts[place].passed.to_be_bytes());
        put(rule, 8, &records.counts[place].blocked.to_be_bytes());
        for slot in 0..PLACES {
            write_place(records, place, slot, &mut rule[PLACES_AT + PLACE_IMAGE * slot..], random);
        }
    }
    image
}

fn write_place(records: &Records, place: usize, slot: usize, image: &mut [u8], random: &mut Random) {
    let held = records.held[place][slot];
    image[0] = if held == CLOSING { CLOSING + random.below(253) as u8 } else { held };
    if held == FREE {
        return;
    }
    let conversation = &records.conversations[place][slot];
    write_addresses(conversation.quadruple.addresses, image, random);
    put(image, 9, &conversation.quadruple.sport().to_be_bytes());
    put(image, 11, &conversation.quadruple.dport().to_be_bytes());
    put(image, 13, &conversation.age.to_be_bytes());
    image[50] = if records.sockets[place][slot] == 0 { 0 } else { other_than(random, 0) };
}

/// The bytes of the other kind are ignored: noise, or for an IPv6 address its low bits.
fn write_addresses(addresses: Addresses, image: &mut [u8], random: &mut Random) {
    match addresses {
        Addresses::V4 { source, destination } => {
            image[17] = 0;
            put(image, 1, &source.to_be_bytes());
            put(image, 5, &destination.to_be_bytes());
        }
        Addresses::V6 { source, destination } => {
            image[17] = other_than(random, 0);
            put(image, 18, &source);
            put(image, 34, &destination);
            if random.chance(50) {
                put(image, 1, &source[12..]);
                put(image, 5, &destination[12..]);
            }
        }
    }
}
