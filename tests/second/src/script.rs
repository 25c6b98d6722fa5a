//! Scripts: a fresh association led to a chosen cell of Table 9-10, then further at random.

use crate::contents::{bad_ac_contents, bad_rq_contents, good_ac_contents, good_rq_contents};
use crate::generate::{ac_words, hex, rq_words, Generator};
use crate::machine::RECEIVED;
use crate::make::{bad_name, good_data, good_reject, some_reject};
use crate::pdus::{invalid_pdu, over_length_header, rq_with_version, valid_pdu};

impl Generator {
    /// One script: fresh, to the state of the next filled cell, its event, then some steps more.
    pub fn script(&mut self) {
        let (event, state) = self.cells.take();
        let requestor = self.random.chance(50);
        self.begin(true);
        self.lead_to(event, state, requestor);
        if self.replay.last.refusal != 0 {
            self.begin(false);
            self.lead_to(event, state, requestor);
        }
        for _ in 0..self.random.pick(&[0, 1, 2, 3, 6]) {
            self.wander();
        }
        if self.random.chance(50) {
            self.pump_all();
        }
    }

    /// To a state, not deaf, and the event there; begins again where the way was lost.
    fn lead_to(&mut self, event: u8, state: u8, requestor: bool) {
        self.reach(state, requestor);
        while self.state() != state || self.replay.lent.record.deaf {
            self.begin(false);
            self.reach(state, requestor);
        }
        self.give(event);
    }

    /// A nine-word record of a fresh association; its output may be short.
    fn begin(&mut self, may_be_short: bool) {
        self.stream.clear();
        let gather = self.random.pick(&[16_390, 16_390, 16_390, 17_000]);
        let short = may_be_short && self.random.chance(15);
        let output = if short { self.random.pick(&[9, 100, 200]) } else { self.random.pick(&[16_390, 16_390, 17_000]) };
        let event = self.random.pick(&[17, 15, 0]);
        self.say(format!("e 1 0 0 0 0 0 {} - {} {}", gather, output, event));
    }

    fn state(&self) -> u8 {
        self.replay.lent.record.state
    }

    fn event(&mut self, number: u8) {
        self.say(format!("e = {}", number));
    }

    /// Leads from Sta1 to a state by the ways of the standard.
    fn reach(&mut self, state: u8, requestor: bool) {
        match state {
            2 => self.event(5),
            3 => self.reach_and_feed(2, requestor, 1),
            4 => self.event(1),
            5 => {
                self.reach(4, true);
                self.give(2);
            }
            6 if requestor => self.reach_and_feed(5, true, 2),
            6 => {
                self.reach(3, false);
                self.give(7);
            }
            7 => {
                self.reach(6, requestor);
                self.event(11);
            }
            8 => self.reach_and_feed(6, requestor, 5),
            9 => self.reach_and_feed(7, true, 5),
            10 => self.reach_and_feed(7, false, 5),
            11 => {
                self.reach(9, true);
                self.event(14);
            }
            12 => self.reach_and_feed(10, false, 6),
            13 => self.reach_13(requestor),
            _ => {}
        }
        self.noise();
    }

    fn reach_and_feed(&mut self, state: u8, requestor: bool, kind: u8) {
        self.reach(state, requestor);
        let bytes = self.wanted(kind);
        self.stream.extend(bytes);
        self.pump_all();
    }

    /// A valid PDU of a kind; an RQ has version bit 0.
    fn wanted(&mut self, kind: u8) -> Vec<u8> {
        if kind == 1 {
            rq_with_version(1, &mut self.random, &mut self.marks)
        } else {
            valid_pdu(kind, &mut self.random, &mut self.marks)
        }
    }

    /// The many ways into Sta13.
    fn reach_13(&mut self, requestor: bool) {
        match self.random.below(6) {
            0 => {
                self.reach(3, false);
                self.give(8);
            }
            1 => {
                self.reach(8, requestor);
                self.event(14);
            }
            2 => {
                self.reach(6, requestor);
                self.event(15);
            }
            3 => {
                self.reach(2, false);
                let bytes = rq_with_version(2, &mut self.random, &mut self.marks);
                self.stream.extend(bytes);
                self.pump_all();
            }
            4 => {
                self.reach(6, requestor);
                self.give(19);
            }
            _ => {
                self.reach(12, false);
                self.event(14);
            }
        }
    }

    /// Now and then a call that changes nothing.
    fn noise(&mut self) {
        match self.random.below(14) {
            0 => {
                self.say("r = -".to_string());
            }
            1 => {
                let number = self.random.pick(&[0, 3, 6, 10, 12, 19, 20]);
                self.event(number);
            }
            2 => self.bad_contents(),
            _ => {}
        }
    }

    /// The contents of the state's local request, with a fault.
    fn bad_contents(&mut self) {
        let line = match self.state() {
            4 => format!("c = {}", rq_words(&bad_rq_contents(&mut self.random, &mut self.marks))),
            3 => format!("a = {}", ac_words(&bad_ac_contents(&mut self.random, &mut self.marks))),
            6 | 8 => {
                let bytes = bad_name(&mut self.random);
                format!("d = {}", hex(&bytes))
            }
            _ => {
                let (result, source, reason) = some_reject(&mut self.random);
                format!("j = {} {} {}", result, source, reason)
            }
        };
        self.say(line);
    }

    /// Gives an event, local or received, with good contents.
    fn give(&mut self, event: u8) {
        match event {
            2 => {
                let contents = good_rq_contents(&mut self.random, &mut self.marks);
                self.say(format!("c = {}", rq_words(&contents)));
            }
            7 => {
                let contents = good_ac_contents(&mut self.random, &mut self.marks);
                self.say(format!("a = {}", ac_words(&contents)));
            }
            8 => {
                let (result, source, reason) = good_reject(&mut self.random);
                self.say(format!("j = {} {} {}", result, source, reason));
            }
            9 => self.give_data(),
            _ => match RECEIVED.iter().position(|row| *row == event) {
                Some(place) => self.feed(place as u8 + 1),
                None if event == 19 => self.feed_invalid(),
                None => self.event(event),
            },
        }
    }

    fn feed(&mut self, kind: u8) {
        let bytes = valid_pdu(kind, &mut self.random, &mut self.marks);
        self.stream.extend(bytes);
        self.pump_all();
    }

    fn feed_invalid(&mut self) {
        let bytes = if self.random.chance(30) {
            over_length_header(&mut self.random, &mut self.marks)
        } else {
            invalid_pdu(&mut self.random, &mut self.marks)
        };
        self.stream.extend(bytes);
        self.pump_all();
    }

    /// A P-DATA request; where the peer maximum is small, of about that length.
    fn give_data(&mut self) {
        let maximum = self.replay.lent.record.peer_maximum as usize;
        let mut items = good_data(&mut self.random).items();
        if (6..=300).contains(&maximum) {
            let length = self.random.pick(&[maximum, maximum, maximum + 1, maximum.max(7) - 1]).max(6);
            items = (length as u32 - 4).to_be_bytes().to_vec();
            items.extend_from_slice(&[1, 2]);
            items.resize(length, 0x44);
        }
        self.say(format!("d = {}", hex(&items)));
    }

    /// One step of any kind.
    fn wander(&mut self) {
        match self.random.below(10) {
            0..=2 => {
                let bytes = self.next_pdu();
                self.stream.extend(bytes);
                self.pump();
            }
            3..=5 => self.likely_event(),
            6 => {
                let number = self.random.below(21) as u8;
                self.event(number);
            }
            7 => self.bad_contents(),
            _ => self.pump(),
        }
    }

    /// A PDU that the state waits for, or another.
    fn next_pdu(&mut self) -> Vec<u8> {
        let waited: &[u8] = match self.state() {
            2 => &[1],
            5 => &[2, 2, 3],
            6 => &[4, 4, 5],
            7 => &[4, 5, 6],
            10 | 11 => &[6],
            _ => &[1, 2, 3, 4, 5, 6, 7],
        };
        match self.random.below(10) {
            0..=5 => {
                let kind = self.random.pick(waited);
                self.wanted(kind)
            }
            6 => over_length_header(&mut self.random, &mut self.marks),
            7 => {
                let kind = self.random.between(1, 7) as u8;
                valid_pdu(kind, &mut self.random, &mut self.marks)
            }
            _ => self.framed_pdu(),
        }
    }

    /// A local event with a filled cell in this state.
    fn likely_event(&mut self) {
        let events: &[u8] = match self.state() {
            1 => &[1, 5],
            2 => &[17, 18],
            3 => &[7, 7, 8, 15, 17],
            4 => &[2, 2, 2, 15, 17],
            6 => &[9, 9, 11, 11, 15, 17],
            8 => &[9, 14, 14, 15, 17],
            9 | 12 => &[14, 14, 15, 17],
            13 => &[17, 18],
            _ => &[15, 17],
        };
        let event = self.random.pick(events);
        self.give(event);
    }

    /// Offers one piece of the stream; what it doesn't use stays in the stream.
    fn pump(&mut self) {
        let whole = self.stream.len();
        let length = match self.random.below(8) {
            0 => 1,
            1 => 5,
            2 => 6,
            3 => 7,
            4 => self.random.below(whole + 1),
            _ => whole,
        };
        self.offer(length.min(whole));
    }

    fn offer(&mut self, length: usize) {
        let piece = self.stream[..length].to_vec();
        let last = self.say(format!("r = {}", hex(&piece)));
        self.stream.drain(..last.answer.used);
        if last.refusal != 0 {
            self.stream.clear();
        }
    }

    /// Offers pieces until the stream is used up.
    pub fn pump_all(&mut self) {
        for _ in 0..3 {
            if !self.stream.is_empty() {
                self.pump();
            }
        }
        while !self.stream.is_empty() {
            self.offer(self.stream.len());
        }
    }
}
