//! Calls with user information for the generator: each edge of a 50H read, judged or received, and each of one sent.

use crate::contents::{good_ac_contents, good_rq_contents, RqContents};
use crate::fields::rooms;
use crate::generate::{hex, pairs, rq_words, Generator};
use crate::given::{good_said, GIVEN};
use crate::make::{good_plan, Node};
use crate::pdus::is_framed;
use crate::subitems::{change_user, names_apart, role, ELSEWHERE, SUB_ITEMS};
use crate::twists::Twist;

/// Each edge of the user information, in an RQ and in an AC.
pub fn user_turns() -> Vec<(u8, u8)> {
    pairs(&numbers(SUB_ITEMS.len() + ELSEWHERE.len()), &[1, 2])
}

/// Each edge of contents to be sent, with an RQ and with an AC.
pub fn given_turns() -> Vec<(u8, u8)> {
    pairs(&numbers(GIVEN.len()), &[1, 2])
}

/// Each room of the context sheet with each of the role sheet.
pub fn room_turns() -> Vec<(u8, u8)> {
    pairs(&numbers(ROOMS.len()), &numbers(ROOMS.len()))
}

fn numbers(count: usize) -> Vec<u8> {
    (0..count as u8).collect()
}

/// What a lent sheet has more or less than it needs.
const ROOMS: [&str; 6] = ["exact", "a byte more", "more", "a byte short", "a record short", "none"];

fn room_of(number: u8, needed: usize, record: usize) -> usize {
    match number {
        0 => needed,
        1 => needed + 1,
        2 => needed + record + 7,
        3 => needed - 1,
        4 => needed - record,
        _ => 0,
    }
}

impl Generator {
    /// An RQ or AC with a rule of the user information kept or broken; more often than not read, else received or judged.
    pub fn user_information(&mut self) {
        let (edge, kind) = self.users.take();
        let mut plan = good_plan(kind, &mut self.random);
        let name = change_user(&mut plan, edge as usize, &mut self.random);
        self.mark(&format!("user: {}", name));
        let bytes = plan.bytes();
        let valid = rooms(&bytes).is_some();
        let manner = self.random.below(10);
        // What a valid one says shows in its fields alone.
        if valid || manner < 5 {
            self.read_roomy(kind, &bytes);
        }
        match manner {
            0..=4 => {}
            5..=6 if is_framed(&bytes) => self.receive_or_judge(kind, &bytes),
            7..=8 if is_framed(&bytes) && !valid => self.receive_or_judge(kind, &bytes),
            9 if valid => {}
            _ => {
                self.say(format!("K {}", hex(&bytes)));
            }
        }
    }

    /// An RQ or AC read with room enough in both sheets.
    pub fn read_roomy(&mut self, kind: u8, bytes: &[u8]) {
        let call = if kind == 1 { "Q" } else { "A" };
        let (mut room, mut roles) = self.needed_rooms(bytes);
        match self.random.below(6) {
            0 => room += self.random.pick(&[1, 68, 200]),
            1 => roles += self.random.pick(&[1, 67, 68, 132]),
            _ => {}
        }
        self.say(format!("{} {} {} {}", call, hex(bytes), room, roles));
    }

    /// An RQ or AC received, mostly in the state that waits for it; in others a valid one and an invalid one are told
    /// apart by the ABORT. Where the output is too short for that, it is judged.
    pub fn receive_or_judge(&mut self, kind: u8, bytes: &[u8]) {
        let waits = if kind == 1 { 2 } else { 5 };
        let state = self.random.pick(&[waits, waits, waits, waits, 3, 6, 13]);
        self.received_in(state, false, bytes);
        if self.replay.last.refusal != 0 {
            self.say(format!("K {}", hex(bytes)));
        }
    }

    /// Some contexts and some roles, each sheet with its own room: exact, more, or short of a byte, a record or all.
    pub fn two_sheets(&mut self) {
        let (one, other) = self.two_rooms.take();
        // RQs and ACs by turns, each the other time round.
        let round = (self.two_rooms.next - 1) / self.two_rooms.list.len();
        let kind = 1 + (one + other + round as u8 % 2) % 2;
        let mut plan = good_plan(kind, &mut self.random);
        let count = self.random.pick(&[1, 1, 2, 3, 5]);
        let roles: Vec<Node> =
            names_apart(count, &mut self.random).iter().map(|uid| role(uid, &mut self.random)).collect();
        plan.with_item(0x50, |user| {
            user.inner.retain(|node| node.kind != 0x54);
            user.inner.extend(roles);
        });
        let bytes = plan.bytes();
        let (needed, needed_roles) = self.needed_rooms(&bytes);
        let rooms = (room_of(one, needed, 132), room_of(other, needed_roles, 68));
        self.mark(&format!("rooms: {}, {}", ROOMS[one as usize], ROOMS[other as usize]));
        let call = if kind == 1 { "Q" } else { "A" };
        self.say(format!("{} {} {} {}", call, hex(&bytes), rooms.0, rooms.1));
    }

    /// Contents with a rule of the user information kept or broken, written or sent by the machine; where the output is
    /// too short, once more.
    pub fn user_to_be_sent(&mut self) {
        let (edge, kind) = self.givens.take();
        let twist: &Twist<_> = &GIVEN[edge as usize];
        let mut said = good_said(&mut self.random);
        (twist.edit)(&mut said, &mut self.random);
        self.mark(&format!("given: {}", twist.name));
        let by_machine = self.random.chance(40);
        if kind == 1 {
            let mut contents = good_rq_contents(&mut self.random, &mut self.marks);
            contents.user = said.given();
            self.send_proposal(if by_machine { "c" } else { "1" }, &contents);
            while self.replay.last.refusal == 2 {
                self.send_proposal("1", &contents);
            }
        } else {
            let mut contents = good_ac_contents(&mut self.random, &mut self.marks);
            contents.user = said.given();
            self.send_answer(if by_machine { "a" } else { "2" }, &contents);
            while self.replay.last.refusal == 2 {
                self.send_answer("2", &contents);
            }
        }
    }

    /// A proposal by the call 1, or by c in Sta4, mostly with room enough.
    pub fn send_proposal(&mut self, call: &str, contents: &RqContents) {
        let needed = contents.written().map_or(168, |bytes| bytes.len());
        let room = if self.random.chance(60) { needed } else { self.room(needed) };
        if call == "1" {
            self.say(format!("1 {} {}", rq_words(contents), room));
        } else {
            let mut nine = self.good_nine(4);
            nine.output_length = room;
            self.say(format!("c {} {}", nine.text(), rq_words(contents)));
        }
    }
}

/// The marks of all edges of the user information, for coverage.
pub fn user_marks() -> Vec<String> {
    let read = SUB_ITEMS.iter().map(|twist| twist.name).chain(ELSEWHERE.iter().map(|twist| twist.name));
    let mut marks: Vec<String> = read.map(|name| format!("user: {}", name)).collect();
    marks.extend(GIVEN.iter().map(|twist| format!("given: {}", twist.name)));
    marks.extend(ROOMS.iter().flat_map(|one| ROOMS.iter().map(move |other| format!("rooms: {}, {}", one, other))));
    marks
}
