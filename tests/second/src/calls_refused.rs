//! Calls with refused contexts for the generator: ACs with anything behind the four fixed bytes, and answers to send.

use crate::contents::{bad_ac_contents, good_ac_contents, good_sheet, AcContents, Twists};
use crate::generate::{ac_words, hex, Generator};
use crate::pdus::{faulty, is_framed};
use crate::refused::{plan_with_refused, BEHIND};

/// What stands behind refused contexts is counted by the call of a valid AC, and for invalid ones together.
const WORDS: [&str; 4] = ["A takes", "r takes", "K takes", "not taken"];

impl Generator {
    /// An AC with refused contexts, read, judged or received; two in five have a fault that is still found.
    pub fn refused_contexts(&mut self) {
        let call = self.random.pick(&[0, 0, 0, 0, 1, 1, 1, 1, 1, 1, 2, 2, 2]);
        let taken = self.random.chance(60);
        let word = if taken { WORDS[call] } else { WORDS[3] };
        let mut plan = plan_with_refused(word, &mut self.random, &mut self.marks);
        if !taken {
            faulty(&mut plan, &mut self.random, &mut self.marks);
        }
        let bytes = plan.bytes();
        match call {
            0 => self.read_refused(&bytes),
            1 if is_framed(&bytes) => self.receive_refused(&bytes),
            _ => {
                self.say(format!("K {}", hex(&bytes)));
            }
        }
    }

    /// Mostly with room enough.
    fn read_refused(&mut self, bytes: &[u8]) {
        let (needed, roles) = self.needed_rooms(bytes);
        let room = match self.random.below(6) {
            0 => self.sheet_room(needed),
            1 => needed + self.random.pick(&[1, 131, 132, 200]),
            _ => needed,
        };
        self.say(format!("A {} {} {}", hex(bytes), room, roles));
    }

    /// Mostly in Sta5; in other states a valid AC and an invalid one are told apart by the ABORT that is sent.
    fn receive_refused(&mut self, bytes: &[u8]) {
        let state = self.random.pick(&[5, 5, 5, 5, 5, 5, 5, 5, 5, 2, 3, 6, 13]);
        if self.random.chance(20) {
            let nine = self.roomy_nine(state);
            self.say(format!("r {} -", nine.text()));
            self.stream = bytes.to_vec();
            self.pump_all();
        } else {
            self.received_in(state, false, bytes);
        }
        if self.random.chance(10) {
            self.follow_up();
        }
    }

    /// An answer with a refused record, written or sent by the machine; half of them wrong in one record.
    pub fn refused_records(&mut self) {
        let call = self.random.pick(&["2", "a"]);
        let good = self.random.chance(45);
        let mut sheet = good_sheet(false, &mut self.random);
        sheet.refuse_one(&mut self.random);
        Twists::of_refused(call).bring_near(&mut sheet, good, &mut self.random, &mut self.marks);
        let mut contents = if self.random.chance(93) {
            good_ac_contents(&mut self.random, &mut self.marks)
        } else {
            bad_ac_contents(&mut self.random, &mut self.marks)
        };
        contents.sheet = sheet.bytes();
        self.send_answer(call, &contents);
    }

    /// An answer by the call 2, or by a in Sta3, mostly with room enough.
    pub fn send_answer(&mut self, call: &str, contents: &AcContents) {
        let needed = contents.written().map_or(147, |bytes| bytes.len());
        let room = if self.random.chance(60) { needed } else { self.room(needed) };
        if call == "2" {
            self.say(format!("2 {} {}", ac_words(contents), room));
        } else {
            let mut nine = self.good_nine(3);
            nine.output_length = room;
            self.say(format!("a {} {}", nine.text(), ac_words(contents)));
        }
    }
}

/// The marks of what stands behind refused contexts, for coverage.
pub fn behind_marks() -> Vec<String> {
    let of_word = |word: &&str| BEHIND.iter().map(|twist| format!("{}: {}", word, twist.name)).collect::<Vec<String>>();
    WORDS.iter().flat_map(of_word).collect()
}
