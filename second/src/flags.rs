//! The page of the flags (5/12): what each setting of FIN, SYN, RST and ACK counts as, and what tracking does with it. What it does, and
//! the numbers below the table, are asked of judged calls under table T, whose rule 20 tracks.

use crate::answer::Verdict;
use crate::judge::{judge, segment, Segment};
use crate::layers::{Addresses, ACK, FIN, RST, SYN};
use crate::records::{Conversation, Quadruple, Records, CLOSING, FREE, OPENING, RUNNING};
use crate::table::Table;
use crate::table_t::{table_t, tcp};
use std::io::{self, Write};

const FLAGS: [(u8, &str); 4] = [(FIN, "FIN"), (SYN, "SYN"), (RST, "RST"), (ACK, "ACK")];
const STATES: [(u8, &str); 4] = [(FREE, "none"), (OPENING, "Opening"), (RUNNING, "Running"), (CLOSING, "Closing")];
const PLACE: usize = 1;
const SOCKET: u8 = 0;
const PORT: u16 = 50_001;

const TITLE: &str = "\
What the flags of a TCP segment count as, and what tracking does with it.

                            where its conversation is
FIN SYN RST ACK  counts as  not held    Opening          Running          Closing
";

pub fn page(output: &mut impl Write) -> io::Result<()> {
    output.write_all(TITLE.as_bytes())?;
    for setting in 0..16 {
        writeln!(output, "{}", line(setting))?;
    }
    output.write_all(legend().as_bytes())
}

/// The setting of which FIN is the highest bit, and ACK the lowest.
fn line(setting: u8) -> String {
    let mut flags = 0;
    let mut shown = String::new();
    for (place, (flag, name)) in FLAGS.into_iter().enumerate() {
        let is_set = setting >> (3 - place) & 1 == 1;
        flags |= if is_set { flag } else { 0 };
        shown += if is_set { name } else { " - " };
        shown += " ";
    }
    let [nothing, opening, running, closing] = STATES.map(|(state, _)| cell(flags, state));
    format!("{shown} {:11}{nothing:12}{opening:17}{running:17}{closing}", counts_as(flags))
}

fn counts_as(flags: u8) -> &'static str {
    match segment(flags) {
        None => "wrong",
        Some(Segment::Open) => "open",
        Some(Segment::Carry) => "carry",
        Some(Segment::End) => "end",
        Some(Segment::Reset) => "reset",
    }
}

/// What rule 20 does with a segment whose conversation, and no other, is held in a state.
fn cell(flags: u8, before: u8) -> String {
    let (verdict, _, after) = judged(flags, before);
    let (_, name) = STATES[usize::from(after)];
    match verdict {
        Verdict::Passed if after == FREE => "is removed".to_string(),
        Verdict::Passed if before == FREE => "is opened".to_string(),
        Verdict::Passed if before == after => format!("stays {name}"),
        Verdict::Passed => format!("becomes {name}"),
        blocked => format!("blocked {}", blocked.number()),
    }
}

/// The verdict, the event's number, and how the conversation is held after it.
fn judged(flags: u8, before: u8) -> (Verdict, u16, u8) {
    let mut records = Records::empty(0);
    if before != FREE {
        hold(&mut records, 0, PORT, before);
    }
    let (verdict, event) = judged_with(&table_t(), &mut records, flags);
    (verdict, event, records.held[PLACE][0])
}

fn hold(records: &mut Records, slot: usize, port: u16, state: u8) {
    let addresses = Addresses::V4 { source: 0x0a00_0009, destination: 0x0a01_0001 };
    let conversation = Conversation { quadruple: Quadruple::new(addresses, 443, port), age: 0 };
    records.hold(PLACE, slot, state, SOCKET, conversation);
}

fn judged_with(table: &Table, records: &mut Records, flags: u8) -> (Verdict, u16) {
    let mut space = [0; 256];
    let answer =
        judge(table, records, SOCKET, &tcp(PORT, flags), 0, &mut space).expect("the table and these records are good");
    (answer.verdict, u16::from_be_bytes([space[0], space[1]]))
}

/// An open segment while rule 20's two places are held by others; or one of them, and that is all that its socket may hold.
fn without_place(held: usize) -> (u8, u16) {
    let (mut table, mut records) = (table_t(), Records::empty(0));
    table.rules[PLACE].numbers[usize::from(SOCKET)] = held as u8;
    for slot in 0..held {
        hold(&mut records, slot, PORT + 1 + slot as u16, OPENING);
    }
    let (verdict, event) = judged_with(&table, &mut records, SYN);
    (verdict.number(), event)
}

/// The numbers below the table are those of judged segments: open ones that get no place, and one of each wrong step.
fn legend() -> String {
    let (no_place, too_many) = without_place(2);
    assert_eq!(
        without_place(1),
        (no_place, too_many),
        "one answer, whether no place is free or the socket is at its number"
    );
    let steps = [(0, RUNNING), (ACK, FREE), (SYN, RUNNING)].map(|(flags, before)| judged(flags, before));
    let [flags, conversation, state] = steps.map(|(verdict, _, _)| verdict.number());
    let events = steps.map(|(_, event, _)| event);
    assert!(events.iter().all(|event| *event == events[0]), "one event for the wrong steps");
    let wrong_step = events[0];
    format!(
        "
Meant is the rule that decides the segment, if it tracks; its action and its rate come first.
A segment that is not blocked passes; its conversation, if it is held then, has age 0.
is opened   held as Opening in the rule's first free place;
            if none is free or its socket is at its number: blocked {no_place}, event {too_many}
is removed  held no longer, and its place is free
blocked     {flags} wrong flags, {conversation} no such conversation, {state} not in this state: event {wrong_step},
            and the segment changes no conversation
The other flags of a segment make no difference.
"
    )
}

#[cfg(test)]
mod tests {
    use super::{line, page};

    #[test]
    fn a_line_for_each_setting() {
        let mut bytes = vec![];
        page(&mut bytes).expect("written");
        let text = String::from_utf8(bytes).expect("text");
        assert!(text.lines().all(|line| line.len() <= 100 && line == line.trim_end()));
        let shown: Vec<&str> = text.lines().skip(4).take(16).map(|line| &line[..15]).collect();
        let set = |line: &str| ["FIN", "SYN", "RST", "ACK"].map(|name| line.contains(name));
        for (setting, line) in shown.into_iter().enumerate() {
            assert_eq!(set(line), [8, 4, 2, 1].map(|bit| setting & bit != 0), "{setting}");
        }
    }

    /// 01's table with 02's verdicts, by what the flags count as.
    #[test]
    fn cells_by_the_papers_table() {
        for setting in 0..16 {
            let line = line(setting);
            let cells: Vec<&str> = [28..40, 40..57, 57..74, 74..line.len()].map(|at| line[at].trim_end()).to_vec();
            let expected = match line[17..28].trim_end() {
                "open" => ["is opened", "stays Opening", "blocked 42", "blocked 42"],
                "carry" => ["blocked 41", "becomes Running", "stays Running", "stays Closing"],
                "end" => ["blocked 41", "becomes Closing", "becomes Closing", "stays Closing"],
                "reset" => ["blocked 41", "is removed", "is removed", "is removed"],
                _ => ["blocked 40"; 4],
            };
            assert_eq!(cells, expected, "{setting}");
        }
    }

    /// "Open: SYN without FIN or RST. Reset: RST without SYN or FIN. End: FIN and ACK without SYN or RST. Carry: ACK alone of the four."
    #[test]
    fn kinds_by_the_papers_words() {
        for setting in 0..16u8 {
            let [fin, syn, rst, ack] = [8, 4, 2, 1].map(|bit| setting & bit != 0);
            let kind = if syn && !fin && !rst {
                "open"
            } else if rst && !syn && !fin {
                "reset"
            } else if fin && ack && !syn && !rst {
                "end"
            } else if ack && !fin && !syn && !rst {
                "carry"
            } else {
                "wrong"
            };
            assert_eq!(line(setting).split_whitespace().nth(4), Some(kind), "{setting}");
        }
    }
}
