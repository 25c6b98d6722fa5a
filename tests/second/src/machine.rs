//! The machine: Table 9-10, the association record, refusals, receiving and local events.

use crate::items::four_bytes;
use crate::user::Given;
use crate::valid::{judge, Pdu, LIMIT};
use crate::write;

/// Table 9-10 as printed: 19 events in row order, the 13 states between bars, blank cells empty.
pub const TABLE_9_10: [&str; 19] = [
    "AE-1 Sta4||||||||||||",
    "|||AE-2 Sta5|||||||||",
    "|AA-1 Sta13|AA-8 Sta13||AE-3 Sta6|AA-8 Sta13|AA-8 Sta13|AA-8 Sta13|AA-8 Sta13|AA-8 Sta13|AA-8 Sta13|AA-8 Sta13|AA-6 Sta13",
    "|AA-1 Sta13|AA-8 Sta13||AE-4 Sta1|AA-8 Sta13|AA-8 Sta13|AA-8 Sta13|AA-8 Sta13|AA-8 Sta13|AA-8 Sta13|AA-8 Sta13|AA-6 Sta13",
    "AE-5 Sta2||||||||||||",
    "|AE-6 Sta3 or 13|AA-8 Sta13||AA-8 Sta13|AA-8 Sta13|AA-8 Sta13|AA-8 Sta13|AA-8 Sta13|AA-8 Sta13|AA-8 Sta13|AA-8 Sta13|AA-7 Sta13",
    "||AE-7 Sta6||||||||||",
    "||AE-8 Sta13||||||||||",
    "|||||DT-1 Sta6||AR-7 Sta8|||||",
    "|AA-1 Sta13|AA-8 Sta13||AA-8 Sta13|DT-2 Sta6|AR-6 Sta7|AA-8 Sta13|AA-8 Sta13|AA-8 Sta13|AA-8 Sta13|AA-8 Sta13|AA-6 Sta13",
    "|||||AR-1 Sta7|||||||",
    "|AA-1 Sta13|AA-8 Sta13||AA-8 Sta13|AR-2 Sta8|AR-8 Sta9 or 10|AA-8 Sta13|AA-8 Sta13|AA-8 Sta13|AA-8 Sta13|AA-8 Sta13|AA-6 Sta13",
    "|AA-1 Sta13|AA-8 Sta13||AA-8 Sta13|AA-8 Sta13|AR-3 Sta1|AA-8 Sta13|AA-8 Sta13|AR-10 Sta12|AR-3 Sta1|AA-8 Sta13|AA-6 Sta13",
    "|||||||AR-4 Sta13|AR-9 Sta11|||AR-4 Sta13|",
    "||AA-1 Sta13|AA-2 Sta1|AA-1 Sta13|AA-1 Sta13|AA-1 Sta13|AA-1 Sta13|AA-1 Sta13|AA-1 Sta13|AA-1 Sta13|AA-1 Sta13|",
    "|AA-2 Sta1|AA-3 Sta1||AA-3 Sta1|AA-3 Sta1|AA-3 Sta1|AA-3 Sta1|AA-3 Sta1|AA-3 Sta1|AA-3 Sta1|AA-3 Sta1|AA-2 Sta1",
    "|AA-5 Sta1|AA-4 Sta1|AA-4 Sta1|AA-4 Sta1|AA-4 Sta1|AA-4 Sta1|AA-4 Sta1|AA-4 Sta1|AA-4 Sta1|AA-4 Sta1|AA-4 Sta1|AR-5 Sta1",
    "|AA-2 Sta1|||||||||||AA-2 Sta1",
    "|AA-1 Sta13|AA-8 Sta13||AA-8 Sta13|AA-8 Sta13|AA-8 Sta13|AA-8 Sta13|AA-8 Sta13|AA-8 Sta13|AA-8 Sta13|AA-8 Sta13|AA-7 Sta13",
];

/// The last row: unrecognized or invalid PDU.
pub const INVALID: u8 = 19;

/// The rows of received PDUs, by the type of the PDU.
pub const RECEIVED: [u8; 7] = [6, 3, 4, 10, 12, 13, 16];

/// The local events, by row.
pub const LOCAL: [u8; 11] = [1, 2, 5, 7, 8, 9, 11, 14, 15, 17, 18];

/// A filled cell: the action's name, its next state, and the other one where the table prints two.
#[derive(Clone, Copy, Debug, PartialEq)]
pub struct Cell {
    pub action: &'static str,
    pub next: u8,
    pub other: Option<u8>,
}

/// The cell of an event (1 to 19) in a state (1 to 13); None when blank.
pub fn cell(event: u8, state: u8) -> Option<Cell> {
    let row = TABLE_9_10.get((event as usize).wrapping_sub(1))?;
    let text = row.split('|').nth((state as usize).wrapping_sub(1))?;
    let words: Vec<&'static str> = text.split_whitespace().collect();
    if words.len() < 2 {
        return None;
    }
    let next = words[1].trim_start_matches("Sta").parse().ok()?;
    let other = words.get(3).and_then(|word| word.parse().ok());
    Some(Cell { action: words[0], next, other })
}

/// The number of an action, in the order of Tables 9-6 to 9-9.
pub fn action_number(name: &str) -> u8 {
    let before = match &name[..2] {
        "AE" => 0,
        "DT" => 8,
        "AR" => 10,
        _ => 20,
    };
    before + name[3..].parse::<u8>().unwrap_or(0)
}

/// The association record.
#[derive(Clone, Copy, Debug, Default, PartialEq)]
pub struct Record {
    pub state: u8,
    pub gathered: u64,
    pub deaf: bool,
    pub artim: bool,
    pub requestor: bool,
    pub peer_maximum: u32,
}

/// The memory lent to a call: the record, the gather buffer and the output.
#[derive(Clone, Debug, PartialEq)]
pub struct Lent {
    pub record: Record,
    pub gather: Vec<u8>,
    pub output: Vec<u8>,
}

/// The answer of a machine call; `event` is for counting only.
#[derive(Clone, Copy, Debug, Default, PartialEq)]
pub struct Answer {
    pub refusal: u8,
    pub action: u8,
    pub used: usize,
    pub sent: usize,
    pub shown: usize,
    pub event: u8,
}

/// A local event with what comes with it.
#[derive(Clone, Debug)]
pub enum Request<'a> {
    Number(u8),
    Confirmation { called: &'a [u8], calling: &'a [u8], application: &'a [u8], user: &'a Given, sheet: &'a [u8] },
    Accept { echoed: &'a [u8], application: &'a [u8], user: &'a Given, sheet: &'a [u8] },
    Reject { result: u8, source: u8, reason: u8 },
    Data { items: &'a [u8] },
}

impl<'a> Request<'a> {
    /// The row of the event; 0 for a number that is no local event.
    fn event(&self) -> u8 {
        match self {
            Request::Number(number) if LOCAL.contains(number) => *number,
            Request::Number(_) => 0,
            Request::Confirmation { .. } => 2,
            Request::Accept { .. } => 7,
            Request::Reject { .. } => 8,
            Request::Data { .. } => 9,
        }
    }
}

fn waits_for_artim(state: u8) -> bool {
    state == 2 || state == 13
}

/// Refusal 6, all but its test of L.
pub fn record_is_broken(record: &Record) -> bool {
    let drops = record.state == 1 || record.state == 4 || record.deaf;
    !(1..=13).contains(&record.state)
        || record.gathered > 16_389
        || (drops && record.gathered > 0)
        || (record.deaf && record.state != 13)
        || record.artim != waits_for_artim(record.state)
        || (record.state == 1 && (record.requestor || record.peer_maximum != 0))
}

/// Refusal 6, its test of L; the buffer is known to hold the gathered bytes.
pub fn length_is_broken(record: &Record, gather: &[u8]) -> bool {
    if record.gathered < 6 {
        return false;
    }
    let length = four_bytes(&gather[2..]);
    length > LIMIT || record.gathered >= 6 + length
}

fn refuse(lent: &Lent, refusal: u8) -> (Answer, Lent) {
    (Answer { refusal, ..Answer::default() }, lent.clone())
}

/// Receiving: 6, 3, 6 (L), 2, then the piece byte by byte up to the first event.
pub fn receive(lent: &Lent, piece: &[u8]) -> (Answer, Lent) {
    match receive_refusal(lent) {
        0 => take(lent, piece),
        refusal => refuse(lent, refusal),
    }
}

fn receive_refusal(lent: &Lent) -> u8 {
    if record_is_broken(&lent.record) {
        6
    } else if lent.gather.len() < 16_390 {
        3
    } else if length_is_broken(&lent.record, &lent.gather) {
        6
    } else if lent.output.len() < 10 {
        2
    } else {
        0
    }
}

fn take(lent: &Lent, piece: &[u8]) -> (Answer, Lent) {
    let mut after = lent.clone();
    let record = lent.record;
    let mut answer = Answer { used: piece.len(), ..Answer::default() };
    if record.state == 1 || record.state == 4 || record.deaf {
        return (answer, after);
    }
    for (place, byte) in piece.iter().enumerate() {
        after.gather[after.record.gathered as usize] = *byte;
        after.record.gathered += 1;
        if let Some(seen) = event_of(&after.gather[..after.record.gathered as usize]) {
            answer.used = place + 1;
            return act_on_received(answer, after, seen);
        }
    }
    (answer, after)
}

/// What the last byte brought.
struct Seen {
    event: u8,
    over_length: bool,
    length: usize,
    acceptable: bool,
    maximum: u32,
    kind: u8,
}

/// The event of the gathered bytes, if they bring one.
fn event_of(gathered: &[u8]) -> Option<Seen> {
    if gathered.len() < 6 {
        return None;
    }
    let length = four_bytes(&gathered[2..]);
    let over_length = length > LIMIT;
    if !over_length && (gathered.len() as u64) < 6 + length {
        return None;
    }
    let mut seen =
        Seen { event: INVALID, over_length, length: gathered.len(), acceptable: false, maximum: 0, kind: gathered[0] };
    if let Ok(pdu) = judge(gathered) {
        seen.event = RECEIVED[pdu.kind() as usize - 1];
        if let Pdu::Rq(read) | Pdu::Ac(read) = &pdu {
            seen.acceptable = read.has_version_bit();
            seen.maximum = read.user.maximum;
        }
    }
    Some(seen)
}

fn act_on_received(mut answer: Answer, mut after: Lent, seen: Seen) -> (Answer, Lent) {
    after.record.gathered = 0;
    after.record.deaf = seen.over_length;
    let cell = match cell(seen.event, after.record.state) {
        Some(cell) => cell,
        None => return (answer, after),
    };
    answer.event = seen.event;
    answer.action = action_number(cell.action);
    answer.shown = shown(cell.action, &seen);
    if cell.action == "AE-3" || (cell.action == "AE-6" && seen.acceptable) {
        after.record.peer_maximum = seen.maximum;
    }
    let next = next_state(&cell, &after.record, seen.acceptable);
    enter(&mut after.record, next);
    let sent = sent_on_received(cell.action, &seen);
    answer.sent = sent.len();
    after.output[..sent.len()].copy_from_slice(&sent);
    (answer, after)
}

/// AE-6 and AR-8 have two next states, all others one.
fn next_state(cell: &Cell, record: &Record, acceptable: bool) -> u8 {
    let first = match cell.action {
        "AE-6" => acceptable,
        "AR-8" => record.requestor,
        _ => true,
    };
    match cell.other {
        Some(other) if !first => other,
        _ => cell.next,
    }
}

/// The length of the PDU now in the gather buffer, at the six actions that show it.
fn shown(action: &str, seen: &Seen) -> usize {
    let shows = match action {
        "AE-3" | "AE-4" | "DT-2" | "AR-6" | "AA-3" => true,
        "AE-6" => seen.acceptable,
        _ => false,
    };
    if shows {
        seen.length
    } else {
        0
    }
}

/// Entering a state sets the ARTIM mark; entering Sta1 clears the rest.
fn enter(record: &mut Record, next: u8) {
    record.state = next;
    record.artim = waits_for_artim(next);
    if next == 1 {
        *record = Record { state: 1, ..Record::default() };
    }
}

/// What an action by a received PDU sends.
fn sent_on_received(action: &str, seen: &Seen) -> Vec<u8> {
    match action {
        "AE-6" if !seen.acceptable => write::pdu(3, &[0, 1, 2, 2]),
        "AA-1" => write::pdu(7, &[0, 0, 0, 0]),
        "AA-7" | "AA-8" => write::pdu(7, &[0, 0, 2, abort_reason(seen)]),
        _ => Vec::new(),
    }
}

/// 2 for an unexpected valid PDU, 6 for over-length, 1 for a type outside 1..7, else 6.
fn abort_reason(seen: &Seen) -> u8 {
    if seen.event != INVALID {
        2
    } else if seen.over_length || (1..=7).contains(&seen.kind) {
        6
    } else {
        1
    }
}

/// A local event: 6, 3, 6 (L), 1, 4, 5, 2, then its action.
pub fn local_event(lent: &Lent, request: &Request) -> (Answer, Lent) {
    let refusal = local_refusal(lent);
    if refusal != 0 {
        return refuse(lent, refusal);
    }
    let cell = match cell(request.event(), lent.record.state) {
        Some(cell) => cell,
        None => return refuse(lent, 1),
    };
    match sent_on_local(cell.action, request, lent) {
        Err(refusal) => refuse(lent, refusal),
        Ok((sent, output)) => act_on_local(lent, request.event(), &cell, sent, output),
    }
}

fn local_refusal(lent: &Lent) -> u8 {
    if record_is_broken(&lent.record) {
        6
    } else if (lent.gather.len() as u64) < lent.record.gathered {
        3
    } else if length_is_broken(&lent.record, &lent.gather) {
        6
    } else {
        0
    }
}

/// How many bytes go out and the output with them, or the refusal 4, 5 or 2.
fn sent_on_local(action: &str, request: &Request, lent: &Lent) -> Result<(usize, Vec<u8>), u8> {
    let sent = contents(action, request, lent.record.peer_maximum)?;
    let output = write::into_output(&sent, &lent.output)?;
    Ok((sent.len(), output))
}

fn contents(action: &str, request: &Request, peer_maximum: u32) -> Result<Vec<u8>, u8> {
    match *request {
        Request::Confirmation { called, calling, application, user, sheet } => {
            write::rq(called, calling, application, user, sheet)
        }
        Request::Accept { echoed, application, user, sheet } => write::ac(echoed, application, user, sheet),
        Request::Reject { result, source, reason } => write::rj(result, source, reason),
        Request::Data { items } => write::data(items, peer_maximum),
        Request::Number(2) | Request::Number(7) | Request::Number(8) | Request::Number(9) => Err(4),
        Request::Number(_) => Ok(bare_event(action)),
    }
}

/// What a local event without contents sends.
fn bare_event(action: &str) -> Vec<u8> {
    match action {
        "AR-1" => write::release_rq(),
        "AR-4" | "AR-9" => write::release_rp(),
        "AA-1" => write::pdu(7, &[0, 0, 0, 0]),
        _ => Vec::new(),
    }
}

fn act_on_local(lent: &Lent, event: u8, cell: &Cell, sent: usize, output: Vec<u8>) -> (Answer, Lent) {
    let mut after = Lent { record: lent.record, gather: lent.gather.clone(), output };
    enter(&mut after.record, cell.next);
    if cell.action == "AE-1" {
        after.record.requestor = true;
    }
    (Answer { action: action_number(cell.action), sent, event, ..Answer::default() }, after)
}
