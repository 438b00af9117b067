//! What a stream is to show of two sockets, by name.

use std::cmp::Ordering;

use crate::answer::Refusal;
use crate::draft::Packet;

/// What an open segment of a new conversation finds, so that it gets no place.
#[derive(Clone, Copy, PartialEq, Eq, Debug)]
pub enum Room {
    /// Its socket is at its number, and a place is free, or none.
    AtNumberFree,
    AtNumberFull,
    /// Its socket is below its number, but no place is free.
    BelowNumber,
    /// Its socket's number is 0.
    NoNumber,
}

/// Something that a stream is to show of sockets. Each is of a call on this socket.
#[derive(Clone, Copy, PartialEq, Eq, Debug)]
pub enum Sharing {
    /// Refused 9, though it could be refused for this too, or for nothing else.
    Refused(Option<Refusal>),
    /// The socket that was said before this call is that of a judged one behind it, which another socket would tell otherwise.
    Stays(u8),
    /// A rule that asks for this socket decides; or it would, but for that.
    Agrees(u8),
    Disagrees(u8),
    /// The event of the link, for a rule that asks for this socket and whose link matches else.
    LinkEvent(u8),
    /// Over its rate, or within it, and the other socket is not.
    OverRate(u8),
    WithinRate(u8),
    /// The levels of both sockets have fallen, and not to 0.
    BothDrain,
    NoPlace(Room, u8),
    /// An open segment of an Opening conversation, whose socket is at its number.
    OpenAgain(u8),
    /// An open segment under a rule whose numbers are together below the places, as many, or above them.
    Sum(Ordering),
    /// One quadruple held on both sockets.
    Twins(Packet),
    /// Such a one, where the other socket would be told otherwise.
    UnlikeTwins(u8),
    /// No such conversation, though the other socket holds it.
    OtherHolds(u8),
    /// A conversation of the other socket has ended for its age.
    OtherEnds(u8),
}

const EITHER: [u8; 2] = [0, 1];
const ROOMS: [Room; 4] = [Room::AtNumberFree, Room::AtNumberFull, Room::BelowNumber, Room::NoNumber];
const REFUSED: [Option<Refusal>; 4] =
    [None, Some(Refusal::ShortFrame), Some(Refusal::LongFrame), Some(Refusal::SmallSpace)];

impl Sharing {
    /// Those that show others on the way come first.
    pub fn all() -> Vec<Sharing> {
        let mut all = REFUSED.map(Sharing::Refused).to_vec();
        all.extend(b"TRF".map(Sharing::Stays));
        for each in [Sharing::LinkEvent, Sharing::Agrees, Sharing::Disagrees, Sharing::OverRate, Sharing::WithinRate] {
            all.extend(EITHER.map(each));
        }
        all.push(Sharing::BothDrain);
        all.extend(ROOMS.iter().flat_map(|room| EITHER.map(|socket| Sharing::NoPlace(*room, socket))));
        for each in [Sharing::OpenAgain, Sharing::UnlikeTwins, Sharing::OtherHolds, Sharing::OtherEnds] {
            all.extend(EITHER.map(each));
        }
        all.extend([Packet::V4, Packet::V6].map(Sharing::Twins));
        all.extend([Ordering::Less, Ordering::Equal, Ordering::Greater].map(Sharing::Sum));
        all
    }

    /// What the reach report calls it.
    pub fn name(self) -> String {
        match self {
            Sharing::Refused(None) => "refusal-9-alone".to_string(),
            Sharing::Refused(Some(other)) => format!("refusal-9-before-{}", other.number()),
            Sharing::Stays(letter) => format!("socket-stays-across-{}", char::from(letter)),
            Sharing::Agrees(socket) => format!("socket-{socket}-agrees"),
            Sharing::Disagrees(socket) => format!("socket-{socket}-disagrees"),
            Sharing::LinkEvent(socket) => format!("event-77-by-socket-{socket}"),
            Sharing::OverRate(socket) => format!("over-rate-on-{socket}-alone"),
            Sharing::WithinRate(socket) => format!("within-rate-on-{socket}-alone"),
            Sharing::BothDrain => "both-levels-drain".to_string(),
            Sharing::NoPlace(Room::AtNumberFree, socket) => format!("at-number-place-free-on-{socket}"),
            Sharing::NoPlace(Room::AtNumberFull, socket) => format!("at-number-none-free-on-{socket}"),
            Sharing::NoPlace(Room::BelowNumber, socket) => format!("below-number-none-free-on-{socket}"),
            Sharing::NoPlace(Room::NoNumber, socket) => format!("number-0-on-{socket}"),
            Sharing::OpenAgain(socket) => format!("at-number-open-again-on-{socket}"),
            Sharing::Sum(Ordering::Less) => "numbers-below-places".to_string(),
            Sharing::Sum(Ordering::Equal) => "numbers-at-places".to_string(),
            Sharing::Sum(Ordering::Greater) => "numbers-above-places".to_string(),
            Sharing::Twins(Packet::V6) => "held-on-both-sockets-ipv6".to_string(),
            Sharing::Twins(_) => "held-on-both-sockets-ipv4".to_string(),
            Sharing::UnlikeTwins(socket) => format!("held-on-both-told-otherwise-on-{socket}"),
            Sharing::OtherHolds(socket) => format!("held-on-other-alone-on-{socket}"),
            Sharing::OtherEnds(socket) => format!("idle-end-of-other-on-{socket}"),
        }
    }
}
