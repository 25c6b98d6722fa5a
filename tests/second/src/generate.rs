//! The seeded generator: call lines of every kind, each with the answer of this program.

use std::collections::VecDeque;

use crate::calls_bad::form_turns;
use crate::calls_ids::id_turns;
use crate::calls_roles::role_turns;
use crate::calls_titles::title_turns;
use crate::calls_user::{given_turns, room_turns, user_turns};
use crate::contents::{AcContents, RqContents};
use crate::machine::cell;
use crate::make::{some_maximum, some_reject};
use crate::marks::Marks;
use crate::pdus::{is_framed, some_pdu};
use crate::random::Random;
use crate::replay::{Last, Replay};
use crate::user::Given;

/// A generated call with its answer and what is counted of it.
pub struct Call {
    pub line: String,
    pub answer: String,
    pub last: Last,
}

/// The nine words of a record with its buffers.
#[derive(Clone, Debug)]
pub struct Nine {
    pub state: u64,
    pub gathered: u64,
    pub deaf: bool,
    pub artim: bool,
    pub requestor: bool,
    pub peer_maximum: u32,
    pub gather_length: usize,
    pub gather: Vec<u8>,
    pub output_length: usize,
}

impl Nine {
    pub fn text(&self) -> String {
        let first = &self.gather[..self.gather.len().min(self.gather_length)];
        format!(
            "{} {} {} {} {} {} {} {} {}",
            self.state,
            self.gathered,
            self.deaf as u8,
            self.artim as u8,
            self.requestor as u8,
            self.peer_maximum,
            self.gather_length,
            hex(first),
            self.output_length
        )
    }
}

/// A byte string as it stands in a call.
pub fn hex(bytes: &[u8]) -> String {
    if bytes.is_empty() {
        return "-".to_string();
    }
    let digits = b"0123456789abcdef";
    bytes.iter().flat_map(|b| [digits[(b >> 4) as usize] as char, digits[(b & 15) as usize] as char]).collect()
}

/// A branch of the generator: its name, about how often it comes in 5,000 calls, and what it does.
pub struct Branch {
    pub name: &'static str,
    weight: usize,
    run: fn(&mut Generator),
}

/// The weights with which the calls stored for replay were drawn, where they are others.
static STORED_WEIGHTS: &[(&str, usize)] =
    &[("T", 100), ("write RQ", 70), ("answer with refused records", 140), ("IDs of contexts", 0)];

pub static BRANCHES: &[Branch] = &[
    Branch { name: "script", weight: 128, run: Generator::script },
    Branch { name: "local event by number", weight: 320, run: Generator::event_sweep },
    Branch { name: "PDU received in a state", weight: 190, run: Generator::received_sweep },
    Branch { name: "local event with contents", weight: 230, run: Generator::contents_call },
    Branch { name: "broken record", weight: 170, run: Generator::broken_record },
    Branch { name: "record just inside", weight: 70, run: Generator::inside_record },
    Branch { name: "several cuts of one stream", weight: 25, run: Generator::cut_stream },
    Branch { name: "local event inside a PDU", weight: 40, run: Generator::event_inside_pdu },
    Branch { name: "K", weight: 260, run: Generator::call_k },
    Branch { name: "Q", weight: 130, run: Generator::call_q },
    Branch { name: "A", weight: 120, run: Generator::call_a },
    Branch { name: "J", weight: 45, run: Generator::call_j },
    Branch { name: "B", weight: 45, run: Generator::call_b },
    Branch { name: "D", weight: 105, run: Generator::call_d },
    Branch { name: "P", weight: 105, run: Generator::call_p },
    Branch { name: "C", weight: 220, run: Generator::call_c },
    Branch { name: "T", weight: 118, run: Generator::call_t },
    Branch { name: "N", weight: 45, run: Generator::call_n },
    Branch { name: "V", weight: 30, run: Generator::call_v },
    Branch { name: "E", weight: 40, run: Generator::call_e },
    Branch { name: "write RQ", weight: 78, run: Generator::write_rq },
    Branch { name: "write AC", weight: 60, run: Generator::write_ac },
    Branch { name: "write RJ", weight: 40, run: Generator::write_rj },
    Branch { name: "write P-DATA-TF", weight: 65, run: Generator::write_data },
    Branch { name: "write RELEASE", weight: 15, run: Generator::write_release },
    Branch { name: "write ABORT", weight: 40, run: Generator::write_abort },
    Branch { name: "C with long sheets", weight: 5, run: Generator::call_c_long },
    Branch { name: "many records", weight: 4, run: Generator::many_records },
    Branch { name: "AC with refused contexts", weight: 265, run: Generator::refused_contexts },
    Branch { name: "answer with refused records", weight: 150, run: Generator::refused_records },
    Branch { name: "user information", weight: 310, run: Generator::user_information },
    Branch { name: "two sheets", weight: 42, run: Generator::two_sheets },
    Branch { name: "user information to be sent", weight: 175, run: Generator::user_to_be_sent },
    Branch { name: "many roles", weight: 28, run: Generator::many_roles },
    Branch { name: "IDs of contexts", weight: 275, run: Generator::ids_of_contexts },
    Branch { name: "limit of 16,384 in few words", weight: 36, run: Generator::limit_in_few_words },
    Branch { name: "limit of 16,384 in full", weight: 25, run: Generator::limit_in_full },
    Branch { name: "bad form", weight: 46, run: Generator::bad_form },
];

/// Lists that are walked through in turn, so that nothing is left out.
pub struct Turns {
    pub list: Vec<(u8, u8)>,
    pub next: usize,
}

impl Turns {
    fn new(mut list: Vec<(u8, u8)>, random: &mut Random) -> Turns {
        random.shuffle(&mut list);
        Turns { list, next: 0 }
    }

    pub fn take(&mut self) -> (u8, u8) {
        let pair = self.list[self.next % self.list.len()];
        self.next += 1;
        pair
    }
}

pub fn pairs(first: &[u8], second: &[u8]) -> Vec<(u8, u8)> {
    first.iter().flat_map(|a| second.iter().map(move |b| (*a, *b))).collect()
}

/// The filled cells of Table 9-10 as (event, state).
pub fn filled_cells() -> Vec<(u8, u8)> {
    let events: Vec<u8> = (1..=19).collect();
    let states: Vec<u8> = (1..=13).collect();
    pairs(&events, &states).into_iter().filter(|(event, state)| cell(*event, *state).is_some()).collect()
}

pub struct Generator {
    pub random: Random,
    pub marks: Marks,
    pub replay: Replay,
    pub stream: Vec<u8>,
    pub cells: Turns,
    pub events: Turns,
    pub received: Turns,
    pub full: Turns,
    pub rejects: Turns,
    pub aborts: Turns,
    pub items: Turns,
    pub long_choices: Turns,
    pub titles: Turns,
    pub users: Turns,
    pub givens: Turns,
    pub two_rooms: Turns,
    pub role_counts: Turns,
    pub forms: Turns,
    pub ids: Turns,
    pub calls: VecDeque<Call>,
    /// Whether it draws as for the calls stored for replay.
    stored: bool,
}

impl Generator {
    pub fn new(seed: u64) -> Generator {
        Generator::drawing(seed, false)
    }

    /// Gives the calls stored for replay, with their seed.
    pub fn of_stored(seed: u64) -> Generator {
        Generator::drawing(seed, true)
    }

    fn drawing(seed: u64, stored: bool) -> Generator {
        let mut random = Random::new(seed);
        let states: Vec<u8> = (1..=13).collect();
        let numbers: Vec<u8> = (0..=20).chain(255..=255).collect();
        let states_and_deaf: Vec<u8> = (1..=14).collect();
        let kinds: Vec<u8> = (1..=12).collect();
        let cells = Turns::new(filled_cells(), &mut random);
        let events = Turns::new(pairs(&states, &numbers), &mut random);
        let received = Turns::new(pairs(&states_and_deaf, &kinds), &mut random);
        let full = Turns::new(pairs(&[0, 1, 2, 3, 4, 5, 6, 7, 8, 9, 10, 11], &[0, 1]), &mut random);
        let rejects = Turns::new(pairs(&[0, 1, 2, 3, 4], &[0, 1, 2, 3, 4, 5, 6, 7, 8, 255]), &mut random);
        let aborts = Turns::new(pairs(&[0, 1, 2, 2, 3], &[0, 1, 2, 3, 4, 5, 6, 7, 255]), &mut random);
        let edges: Vec<u8> = (0..=15).collect();
        let items = Turns::new(pairs(&edges, &[0, 1]), &mut random);
        let long_choices = Turns::new(pairs(&[0, 1, 2], &[0, 1]), &mut random);
        // In an order of their own, which takes no number from the other branches.
        let own_order = |list: Vec<(u8, u8)>| Turns::new(list, &mut Random::new(seed));
        let mut generator = Generator {
            random,
            marks: Marks::default(),
            replay: Replay::new(),
            stream: Vec::new(),
            cells,
            events,
            received,
            full,
            rejects,
            aborts,
            items,
            long_choices,
            titles: own_order(title_turns()),
            users: own_order(user_turns()),
            givens: own_order(given_turns()),
            two_rooms: own_order(room_turns()),
            role_counts: own_order(role_turns()),
            forms: own_order(form_turns()),
            ids: own_order(id_turns()),
            calls: VecDeque::new(),
            stored,
        };
        generator.first_calls();
        generator
    }

    /// At the start `=` is a fresh association.
    fn first_calls(&mut self) {
        let number = self.random.pick(&[1, 5, 17]);
        self.say(format!("e = {}", number));
        self.say("r = -".to_string());
    }

    /// The next call.
    pub fn next(&mut self) -> Call {
        loop {
            if let Some(call) = self.calls.pop_front() {
                return call;
            }
            self.run_branch();
        }
    }

    /// Runs one of two branches drawn by weight, the one that lags behind its weight more.
    fn run_branch(&mut self) {
        let (one, other) = (self.drawn_branch(), self.drawn_branch());
        let branch = if self.share(one) <= self.share(other) { one } else { other };
        self.mark(&format!("branch: {}", branch.name));
        (branch.run)(self);
        self.marks.settle();
    }

    fn drawn_branch(&mut self) -> &'static Branch {
        let total: usize = BRANCHES.iter().map(|branch| self.weight(branch)).sum();
        let mut chosen = self.random.below(total);
        for branch in BRANCHES {
            let weight = self.weight(branch);
            if chosen < weight {
                return branch;
            }
            chosen -= weight;
        }
        &BRANCHES[0]
    }

    fn weight(&self, branch: &Branch) -> usize {
        let other = STORED_WEIGHTS.iter().find(|(name, _)| self.stored && *name == branch.name);
        other.map_or(branch.weight, |(_, weight)| *weight)
    }

    /// How often a branch has run, for its weight.
    fn share(&self, branch: &Branch) -> u64 {
        self.marks.count(&format!("branch: {}", branch.name)) * 1_000 / self.weight(branch) as u64
    }

    pub fn mark(&mut self, name: &str) {
        self.marks.add(name);
    }

    /// Adds a line; its answer is found at once, so that a script knows what is left.
    pub fn say(&mut self, line: String) -> Last {
        let answer = self.replay.answer(&line);
        let last = self.replay.last;
        self.calls.push_back(Call { line, answer, last });
        last
    }

    /// A record that is not broken, in a state; gathered bytes begin a framed PDU.
    pub fn good_nine(&mut self, state: u8) -> Nine {
        let random = &mut self.random;
        let deaf = state == 13 && random.chance(20);
        let mut nine = Nine {
            state: state as u64,
            gathered: 0,
            deaf,
            artim: state == 2 || state == 13,
            requestor: state != 1 && random.chance(50),
            peer_maximum: if state == 1 { 0 } else { some_maximum(random) },
            gather_length: random.pick(&[16_390, 16_390, 16_390, 16_391, 17_000]),
            gather: Vec::new(),
            output_length: random.pick(&[16_390, 16_390, 10, 11, 200, 17_000]),
        };
        if state != 1 && state != 4 && !deaf && random.chance(50) {
            self.gather_some(&mut nine);
        }
        nine
    }

    pub fn gather_some(&mut self, nine: &mut Nine) {
        let bytes = self.framed_pdu();
        let most = (bytes.len() - 1).min(60);
        let count = self.random.pick(&[1, 2, 5, 6, 7, 9, most]).min(most);
        nine.gathered = count as u64;
        nine.gather = bytes[..count].to_vec();
        let stale = self.random.below(4);
        let behind = self.random.bytes(stale);
        nine.gather.extend(behind);
    }

    /// A framed PDU of any kind, valid or not.
    pub fn framed_pdu(&mut self) -> Vec<u8> {
        loop {
            let kind = self.any_kind();
            let place = self.marks.place();
            let bytes = some_pdu(kind, &mut self.random, &mut self.marks);
            if is_framed(&bytes) {
                return bytes;
            }
            self.marks.take_back(place);
        }
    }

    pub fn any_kind(&mut self) -> u8 {
        self.random.pick(&[1, 1, 1, 1, 2, 2, 2, 2, 3, 4, 4, 4, 5, 6, 7, 7, 8])
    }

    /// Values of an RJ: sources and reasons in turn, the result mostly good.
    pub fn next_reject(&mut self) -> (u8, u8, u8) {
        if self.random.chance(30) {
            return some_reject(&mut self.random);
        }
        let (source, reason) = self.rejects.take();
        (self.random.pick(&[1, 1, 1, 2, 2, 0, 3]), source, reason)
    }

    pub fn any_state(&mut self) -> u8 {
        self.random.between(1, 13) as u8
    }
}

pub fn rq_words(c: &RqContents) -> String {
    let titles = format!("{} {}", hex(&c.called), hex(&c.calling));
    format!("{} {} {} {}", titles, hex(&c.application), user_words(&c.user), hex(&c.sheet))
}

pub fn ac_words(c: &AcContents) -> String {
    format!("{} {} {} {}", hex(&c.echoed), hex(&c.application), user_words(&c.user), hex(&c.sheet))
}

/// CLASS VERSION_NAME INVOKED PERFORMED ROLES.
pub fn user_words(user: &Given) -> String {
    let names = format!("{} {}", hex(&user.class), hex(&user.version_name));
    format!("{} {} {} {}", names, user.invoked, user.performed, hex(&user.roles))
}
