//! What a stream is to show of datagrams with several messages, by name, and the frames that show it under the dispatch's table.

use super::*;
use crate::draft::{At, Broken, Damage, Draft, Message, Packet, BROKEN};
use crate::layers::LONGEST_CHAIN;
use crate::modem::chain;
use crate::world::{aim, aim_message, draw_message};

/// Which of several messages agree with the settings of the rule that decides, or else would.
#[derive(Clone, Copy, PartialEq, Eq, Debug)]
pub enum Agreement {
    All,
    None,
    FirstAlone,
    LastAlone,
    AllButFirst,
    AllButMiddle,
    AllButLast,
}

pub const AGREEMENTS: [Agreement; 7] = [
    Agreement::All,
    Agreement::None,
    Agreement::FirstAlone,
    Agreement::LastAlone,
    Agreement::AllButFirst,
    Agreement::AllButMiddle,
    Agreement::AllButLast,
];

impl Agreement {
    /// The fewest messages that tell each of these from the others.
    pub const LEAST: usize = 3;

    /// Whether the message at this place of so many agrees.
    pub fn has(self, at: usize, count: usize) -> bool {
        match self {
            Agreement::All => true,
            Agreement::None => false,
            Agreement::FirstAlone => at == 0,
            Agreement::LastAlone => at + 1 == count,
            Agreement::AllButFirst => at != 0,
            Agreement::AllButMiddle => at != count / 2,
            Agreement::AllButLast => at + 1 != count,
        }
    }
}

/// Something that a stream is to show of messages in datagrams.
#[derive(Clone, Copy, PartialEq, Eq, Debug)]
pub enum Bundle {
    /// So many messages and nothing left over.
    Count {
        least: usize,
        most: usize,
        over: Packet,
    },
    /// Several, not all of one length.
    UnlikeLengths,
    /// A payload that does not cut, so that the event of SOME/IP shows zeros.
    Broken(Broken, At, Packet),
    Agreement(Agreement, Packet),
    /// As many messages as a frame can carry, of which the last disagrees alone.
    LastOfMost(Packet),
    /// Under a rule that asks for this choice of settings, several messages agree that differ in all the others; or one that is not
    /// the first disagrees, in one setting.
    Agrees(usize),
    Disagrees(usize),
    /// Under a rule that asks for all five, one that is not the first disagrees in this one.
    DisagreesIn(u32),
    /// A rule without settings of SOME/IP decides, whether the payload cuts into several messages or does not cut.
    NotAsked {
        cuts: bool,
    },
    /// A rule of no kind of transport decides.
    WithoutKind,
    /// The event of SOME/IP shows the first of several messages; or zeros, on UDP, on TCP, or where there is no IP.
    FirstShown,
    ZerosOnUdp,
    ZerosOnTcp,
    ZerosOnNoIp,
    /// What follows the packet is no part of the payload, be it whole messages that the rule does not ask for.
    BeforePadding(Packet),
    MessageInPadding(Packet),
    BehindChain,
    /// A bucket counts a datagram, not its messages.
    WithinRate,
    OverRate,
    Blocked,
    /// Alone, one message would be allowed and another blocked; the default decides, which blocks or allows.
    AllowedAndBlocked {
        default: Action,
    },
}

const KINDS: [Packet; 2] = [Packet::V4, Packet::V6];

impl Bundle {
    /// As many messages as a frame can carry.
    pub fn most(over: Packet) -> usize {
        match over {
            Packet::V6 => 91,
            _ => 92,
        }
    }

    pub fn all() -> Vec<Bundle> {
        let mut all: Vec<Bundle> = (1..CHOICES).flat_map(|at| [Bundle::Agrees(at), Bundle::Disagrees(at)]).collect();
        all.extend(SOMEIPS.map(Bundle::DisagreesIn));
        for over in KINDS {
            let most = Bundle::most(over);
            let counts = [(0, 0), (1, 1), (2, 2), (3, 3), (4, most - 1), (most, most)];
            all.extend(counts.map(|(least, most)| Bundle::Count { least, most, over }));
            all.extend(
                BROKEN.iter().flat_map(|broken| [At::First, At::Later].map(|at| Bundle::Broken(*broken, at, over))),
            );
            all.extend(AGREEMENTS.map(|agreement| Bundle::Agreement(agreement, over)));
            all.extend([Bundle::LastOfMost(over), Bundle::BeforePadding(over), Bundle::MessageInPadding(over)]);
        }
        all.extend([true, false].map(|cuts| Bundle::NotAsked { cuts }));
        all.extend([Bundle::UnlikeLengths, Bundle::WithoutKind, Bundle::BehindChain]);
        all.extend([Bundle::FirstShown, Bundle::ZerosOnUdp, Bundle::ZerosOnTcp, Bundle::ZerosOnNoIp]);
        all.extend([Bundle::WithinRate, Bundle::OverRate, Bundle::Blocked]);
        all.extend([Action::Block, Action::Allow].map(|default| Bundle::AllowedAndBlocked { default }));
        all
    }

    /// What the reach report calls it.
    pub fn name(self) -> String {
        match self {
            Bundle::Count { least, most, over } if least == most => format!("messages-{most}{}", over_word(over)),
            Bundle::Count { least, most, over } => format!("messages-{least}-to-{most}{}", over_word(over)),
            Bundle::UnlikeLengths => "messages-of-unlike-lengths".to_string(),
            Bundle::Broken(broken, At::First, over) => format!("{}-first{}", broken_word(broken), over_word(over)),
            Bundle::Broken(broken, At::Later, over) => format!("{}-later{}", broken_word(broken), over_word(over)),
            Bundle::Agreement(agreement, over) => format!("{}{}", agreement_word(agreement), over_word(over)),
            Bundle::LastOfMost(over) => format!("last-of-{}-disagrees-alone{}", Bundle::most(over), over_word(over)),
            Bundle::Agrees(choice) => format!("asks-{}-agrees", letters(choice)),
            Bundle::Disagrees(choice) => format!("asks-{}-disagrees", letters(choice)),
            Bundle::DisagreesIn(setting) => format!("disagrees-in-{}-alone", setting_word(setting)),
            Bundle::NotAsked { cuts: true } => "asks-.....-cuts".to_string(),
            Bundle::NotAsked { cuts: false } => "asks-.....-does-not-cut".to_string(),
            Bundle::WithoutKind => "someip-without-kind".to_string(),
            Bundle::FirstShown => "event-56-first-of-several".to_string(),
            Bundle::ZerosOnUdp => "event-56-zeros-on-udp".to_string(),
            Bundle::ZerosOnTcp => "event-56-zeros-on-tcp".to_string(),
            Bundle::ZerosOnNoIp => "event-56-zeros-on-no-ip".to_string(),
            Bundle::BeforePadding(over) => format!("messages-before-padding{}", over_word(over)),
            Bundle::MessageInPadding(over) => format!("message-in-padding{}", over_word(over)),
            Bundle::BehindChain => "messages-behind-chain".to_string(),
            Bundle::WithinRate => "messages-within-rate".to_string(),
            Bundle::OverRate => "messages-over-rate".to_string(),
            Bundle::Blocked => "messages-blocked".to_string(),
            Bundle::AllowedAndBlocked { default: Action::Block } => "allowed-and-blocked-default-blocks".to_string(),
            Bundle::AllowedAndBlocked { default: Action::Allow } => "allowed-and-blocked-default-allows".to_string(),
        }
    }

    /// A frame under the dispatch's table that shows it.
    pub fn draft(self, table: &Table, random: &mut Random) -> Draft {
        let rule = &table.rules[self.place(random)];
        let mut draft = aim(rule, random);
        draft.tags.truncate(1);
        draft.shorten();
        draft.protocol = None;
        draft.carry(self.packet(random));
        draft.chain = chain(random.pick(&[0, 0, 1, 2]), random);
        draft.messages = messages(rule, random.between(3, 5) as usize, random);
        self.alter_messages(rule, table, &mut draft, random);
        self.alter_frame(&mut draft, random);
        draft
    }

    /// The rule that the frame is aimed at.
    fn place(self, random: &mut Random) -> usize {
        match self {
            Bundle::Agrees(choice) | Bundle::Disagrees(choice) => choice,
            Bundle::DisagreesIn(_) => CHOICES - 1,
            Bundle::NotAsked { .. } => 0,
            Bundle::WithoutKind | Bundle::ZerosOnTcp | Bundle::ZerosOnNoIp => STATIONED,
            Bundle::WithinRate | Bundle::OverRate => LIMITED,
            Bundle::Blocked => SHUT,
            Bundle::AllowedAndBlocked { .. } => WANTED,
            _ => random.between(1, CHOICES as u64 - 1) as usize,
        }
    }

    fn packet(self, random: &mut Random) -> Packet {
        match self {
            Bundle::Count { over, .. } | Bundle::Broken(_, _, over) | Bundle::Agreement(_, over) => over,
            Bundle::LastOfMost(over) | Bundle::BeforePadding(over) | Bundle::MessageInPadding(over) => over,
            Bundle::BehindChain => Packet::V6,
            _ => random.pick(&KINDS),
        }
    }

    fn alter_messages(self, rule: &Rule, table: &Table, draft: &mut Draft, random: &mut Random) {
        let asked = rule.set & set::SOMEIP;
        match self {
            Bundle::Count { least, most, .. } => {
                set_count(rule, random.between(least as u64, most as u64) as usize, draft, random);
            }
            Bundle::UnlikeLengths => draft.messages[1].payload = draft.messages[0].payload + 1,
            Bundle::Agreement(agreement, _) => {
                let count = draft.messages.len();
                for at in (0..count).filter(|at| !agreement.has(*at, count)) {
                    draft.messages[at].turn(one_of(asked, random), random);
                }
            }
            Bundle::LastOfMost(over) => {
                set_count(rule, Bundle::most(over), draft, random);
                draft.messages[Bundle::most(over) - 1].turn(one_of(asked, random), random);
            }
            Bundle::Agrees(_) => {
                draft.messages[1] = draft.messages[0];
                for setting in SOMEIPS.into_iter().filter(|setting| asked & setting == 0) {
                    draft.messages[1].turn(setting, random);
                }
            }
            Bundle::Disagrees(_) | Bundle::FirstShown => turn_later(one_of(asked, random), draft, random),
            Bundle::DisagreesIn(setting) => turn_later(setting, draft, random),
            Bundle::AllowedAndBlocked { .. } => {
                let later = random.between(1, draft.messages.len() as u64 - 1) as usize;
                aim_message(&table.rules[UNWANTED], &mut draft.messages[later]);
            }
            _ => {}
        }
    }

    fn alter_frame(self, draft: &mut Draft, random: &mut Random) {
        match self {
            Bundle::Broken(broken, at, _) => break_one(broken, at, draft, random),
            Bundle::NotAsked { cuts: false } | Bundle::ZerosOnUdp => {
                break_one(random.pick(&BROKEN), At::Later, draft, random);
            }
            Bundle::ZerosOnTcp => draft.kind = Kind::Tcp,
            Bundle::ZerosOnNoIp => (draft.packet, draft.ether) = (Packet::None, 0x0806),
            Bundle::BeforePadding(_) => draft.damage = Damage::Padding,
            Bundle::MessageInPadding(_) => draft.damage = Damage::MessageInPadding,
            Bundle::BehindChain => draft.chain = chain(random.between(1, LONGEST_CHAIN as u64) as usize, random),
            _ => {}
        }
    }
}

/// So many that agree with the rule, mostly with something behind their headers.
fn messages(rule: &Rule, count: usize, random: &mut Random) -> Vec<Message> {
    let mut messages: Vec<Message> = (0..count).map(|_| draw_message(random.below(10) as usize, random)).collect();
    messages.iter_mut().for_each(|message| aim_message(rule, message));
    messages
}

/// Where there are many, nothing is behind their headers, and nothing else in the frame.
fn set_count(rule: &Rule, count: usize, draft: &mut Draft, random: &mut Random) {
    draft.messages = messages(rule, count, random);
    draft.payload = 0;
    if count > 20 {
        draft.messages.iter_mut().for_each(|message| message.payload = 0);
        draft.tags.clear();
        draft.chain.clear();
        draft.ip_options = 0;
    }
}

fn break_one(broken: Broken, at: At, draft: &mut Draft, random: &mut Random) {
    let least = if at == At::First { 1 } else { 2 };
    draft.messages.truncate(random.between(least, 4) as usize);
    draft.damage = Damage::Message(broken, at);
}

/// One of the settings that the rule asks for.
fn one_of(asked: u32, random: &mut Random) -> u32 {
    let settings: Vec<u32> = SOMEIPS.into_iter().filter(|setting| asked & setting != 0).collect();
    random.pick(&settings)
}

/// Makes one message that is not the first disagree.
fn turn_later(setting: u32, draft: &mut Draft, random: &mut Random) {
    let later = random.between(1, draft.messages.len() as u64 - 1) as usize;
    draft.messages[later].turn(setting, random);
}

fn over_word(over: Packet) -> &'static str {
    match over {
        Packet::V4 => "-over-ipv4",
        Packet::V6 => "-over-ipv6",
        Packet::None => "",
    }
}

/// The letter of each setting of the choice, a point for each other.
fn letters(choice: usize) -> String {
    "SMVTR".chars().enumerate().map(|(at, letter)| if choice >> at & 1 != 0 { letter } else { '.' }).collect()
}

fn setting_word(setting: u32) -> &'static str {
    match setting {
        set::SERVICE => "service",
        set::METHOD => "method",
        set::VERSION => "version",
        set::MESSAGE => "type",
        set::CODE => "return",
        _ => unreachable!("no setting of SOME/IP: {setting}"),
    }
}

fn agreement_word(agreement: Agreement) -> &'static str {
    match agreement {
        Agreement::All => "all-agree",
        Agreement::None => "none-agrees",
        Agreement::FirstAlone => "first-agrees-alone",
        Agreement::LastAlone => "last-agrees-alone",
        Agreement::AllButFirst => "first-disagrees-alone",
        Agreement::AllButMiddle => "middle-disagrees-alone",
        Agreement::AllButLast => "last-disagrees-alone",
    }
}

fn broken_word(broken: Broken) -> &'static str {
    match broken {
        Broken::One => "left-over-1",
        Broken::Few => "left-over-2-to-14",
        Broken::Fifteen => "left-over-15",
        Broken::Low => "message-length-low",
        Broken::LowCuts => "message-length-low-cuts",
        Broken::OneMore => "message-length-one-more",
        Broken::High => "message-length-high",
        Broken::Wraps => "message-length-wraps",
        Broken::Wide => "message-length-wide",
        Broken::IntoPadding => "message-length-into-padding",
    }
}
