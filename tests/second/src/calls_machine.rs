//! Machine calls for the generator: events in every state, contents, broken records, cut streams.

use crate::contents::{bad_ac_contents, bad_rq_contents, good_ac_contents, good_rq_contents, AcContents, RqContents};
use crate::generate::{ac_words, hex, rq_words, Generator, Nine};
use crate::items::four_bytes;
use crate::make::{good_data, some_maximum, DataPlan};
use crate::pdus::{invalid_pdu, invalid_rq_without_bit, over_length_header, rq_with_version, unknown_pdu, valid_pdu};
use crate::twists::{seldom_used, Twist, CONTROL_BITS, DATA};
use crate::write;

impl Generator {
    pub fn event_sweep(&mut self) {
        let (state, number) = self.events.take();
        let mut nine = self.good_nine(state);
        nine.output_length = self.random.pick(&[0, 9, 10, 10, 11, 16_390]);
        let gathered = nine.gathered as usize;
        nine.gather_length = self.random.pick(&[gathered, gathered + 1, 16_390, 17_000]);
        if gathered > 0 && self.random.chance(10) {
            nine.gather_length = gathered - 1;
        }
        self.say(format!("e {} {}", nine.text(), number));
    }

    /// The PDU of a turn: 1 to 7 valid, then invalid, unknown, over-length, and RQs without version bit 0,
    /// else valid or else invalid.
    pub fn pdu_of_turn(&mut self, kind: u8) -> Vec<u8> {
        let (random, marks) = (&mut self.random, &mut self.marks);
        match kind {
            1 => rq_with_version(1, random, marks),
            2..=7 => valid_pdu(kind, random, marks),
            8 => invalid_pdu(random, marks),
            9 => unknown_pdu(random, marks),
            10 => over_length_header(random, marks),
            11 => rq_with_version(2, random, marks),
            _ => invalid_rq_without_bit(random, marks),
        }
    }

    pub fn received_sweep(&mut self) {
        let (turn, kind) = self.received.take();
        let (state, deaf) = if turn == 14 { (13, true) } else { (turn, false) };
        let bytes = self.pdu_of_turn(kind);
        self.received_in(state, deaf, &bytes);
        if self.random.chance(20) {
            self.follow_up();
        }
    }

    /// A framed PDU received in a state, some of its bytes before, perhaps with others behind it.
    pub fn received_in(&mut self, state: u8, deaf: bool, bytes: &[u8]) {
        let mut nine = self.good_nine(state);
        nine.deaf = deaf;
        nine.gathered = 0;
        nine.gather.clear();
        let cut = self.cut_of(state, deaf, bytes);
        nine.gathered = cut as u64;
        nine.gather = bytes[..cut].to_vec();
        nine.output_length = self.random.pick(&[10, 10, 11, 16_390, 16_390, 9]);
        let mut piece = bytes[cut..].to_vec();
        let more = self.random.pick(&[0, 0, 1, 6, 10]);
        piece.extend(self.random.bytes(more));
        self.say(format!("r {} {}", nine.text(), hex(&piece)));
    }

    /// How many bytes of a PDU are gathered already.
    pub fn cut_of(&mut self, state: u8, deaf: bool, bytes: &[u8]) -> usize {
        let over = four_bytes(&bytes[2..]) > 16_384;
        let most = if over { 5 } else { bytes.len() - 1 };
        if state == 1 || state == 4 || deaf || self.random.chance(40) {
            0
        } else {
            self.random.pick(&[1, 2, 3, 4, 5, 6, 7, most]).min(most)
        }
    }

    /// A call on what the last one left.
    pub fn follow_up(&mut self) {
        let line = match self.random.below(5) {
            0 => "e = 17".to_string(),
            1 => "e = 15".to_string(),
            2 => "r = -".to_string(),
            3 => format!("r = {}", hex(&write::release_rq())),
            _ => format!("e = {}", self.random.below(21)),
        };
        self.say(line);
    }

    /// Room near what is needed.
    pub fn room(&mut self, needed: usize) -> usize {
        let below = needed.saturating_sub(1);
        self.random.pick(&[0, 9, 10, below, needed, needed, needed, needed + 1, 16_390, 16_390]).min(17_000)
    }

    /// Transport confirmation, accept, reject and P-DATA request, good and bad, in their states and others.
    pub fn contents_call(&mut self) {
        let event = self.random.pick(&[2, 7, 8, 9, 9]);
        let own_states: &[u8] = match event {
            2 => &[4],
            9 => &[6, 8],
            _ => &[3],
        };
        let state = if self.random.chance(80) { self.random.pick(own_states) } else { self.any_state() };
        let mut nine = self.good_nine(state);
        let (call, words, written) = self.request_of(event, &mut nine);
        let needed = written.map_or(40, |bytes| bytes.len());
        nine.output_length = self.room(needed);
        if self.random.chance(10) {
            nine.gather_length = nine.gathered as usize;
        }
        self.say(format!("{} {} {}", call, nine.text(), words));
        if self.random.chance(10) {
            self.follow_up();
        }
    }

    /// A local request with its contents: the call, its words, and what it would send.
    pub fn request_of(&mut self, event: u8, nine: &mut Nine) -> (&'static str, String, Result<Vec<u8>, u8>) {
        match event {
            2 => {
                let c = self.some_rq_contents();
                ("c", rq_words(&c), c.written())
            }
            7 => {
                let c = self.some_ac_contents();
                ("a", ac_words(&c), c.written())
            }
            8 => {
                let (result, source, reason) = self.next_reject();
                ("j", format!("{} {} {}", result, source, reason), write::rj(result, source, reason))
            }
            _ => {
                let items = self.some_items();
                nine.peer_maximum = if nine.state == 1 { 0 } else { self.maximum_near(items.len()) };
                let written = write::data(&items, nine.peer_maximum);
                ("d", hex(&items), written)
            }
        }
    }

    pub fn maximum_near(&mut self, length: usize) -> u32 {
        let length = length as u32;
        let near = [0, 0, length, length, length.saturating_sub(1), length + 1, length + 6, length.saturating_sub(6)];
        if self.random.chance(20) {
            some_maximum(&mut self.random)
        } else {
            self.random.pick(&near)
        }
    }

    pub fn some_rq_contents(&mut self) -> RqContents {
        if self.random.chance(60) {
            good_rq_contents(&mut self.random, &mut self.marks)
        } else {
            bad_rq_contents(&mut self.random, &mut self.marks)
        }
    }

    pub fn some_ac_contents(&mut self) -> AcContents {
        if self.random.chance(60) {
            good_ac_contents(&mut self.random, &mut self.marks)
        } else {
            bad_ac_contents(&mut self.random, &mut self.marks)
        }
    }

    /// PDV items of a local request, good or twisted.
    pub fn some_items(&mut self) -> Vec<u8> {
        let mut plan = good_data(&mut self.random);
        match self.random.below(10) {
            0..=4 => {}
            5 => self.twist_items(&mut plan, CONTROL_BITS),
            _ => self.twist_items(&mut plan, DATA),
        }
        plan.items()
    }

    pub fn twist_items(&mut self, plan: &mut DataPlan, list: &[Twist<DataPlan>]) {
        let all: Vec<&Twist<DataPlan>> = list.iter().collect();
        if let Some(chosen) = seldom_used(&all, "items", &mut self.random, &mut self.marks) {
            (chosen.edit)(plan, &mut self.random);
        }
    }

    /// One of the calls on a record, whatever its event.
    pub fn any_machine_call(&mut self, mut nine: Nine) {
        let line = match self.random.below(8) {
            0..=2 => {
                let length = self.random.pick(&[0, 1, 6, 10]);
                let piece = self.random.bytes(length);
                format!("r {} {}", nine.text(), hex(&piece))
            }
            3 | 4 => {
                let number = self.random.pick(&[1, 5, 11, 14, 15, 17, 18, 2, 0, 19, 255]);
                format!("e {} {}", nine.text(), number)
            }
            _ => {
                let event = self.random.pick(&[2, 7, 8, 9]);
                let peer_maximum = nine.peer_maximum;
                let (call, words, _) = self.request_of(event, &mut nine);
                nine.peer_maximum = peer_maximum;
                format!("{} {} {}", call, nine.text(), words)
            }
        };
        self.say(line);
        if self.random.chance(15) {
            self.follow_up();
        }
    }

    /// Each clause of refusal 6, alone or with another, with gather buffers and outputs of every size.
    pub fn broken_record(&mut self) {
        let state = self.any_state();
        let mut nine = self.good_nine(state);
        self.break_clause(&mut nine);
        if self.random.chance(15) {
            self.break_clause(&mut nine);
        }
        let gathered = nine.gathered.min(17_000) as usize;
        nine.gather_length =
            self.random.pick(&[16_390, 16_390, 17_000, 16_389, 0, 5, 6, gathered, gathered.saturating_sub(1)]);
        nine.output_length = self.random.pick(&[0, 9, 10, 16_390]);
        self.any_machine_call(nine);
    }

    pub fn break_clause(&mut self, nine: &mut Nine) {
        let name = match self.random.below(13) {
            0 => {
                nine.state = self.random.pick(&[0, 14, 15, 77, 128, 255]);
                nine.artim = self.random.chance(30);
                "clause: state outside 1..13"
            }
            1 => {
                nine.gathered = self.random.pick(&[16_390, 16_391, 17_000, 65_536, 4_294_967_295]);
                nine.gather = vec![4, 0, 0, 0, 0x40, 0];
                "clause: gathered above 16,389"
            }
            2 => self.gathered_in(nine, 1),
            3 => self.gathered_in(nine, 4),
            4 => {
                self.gathered_in(nine, 13);
                nine.deaf = true;
                "clause: gathered when deaf"
            }
            5 => {
                nine.deaf = true;
                if nine.state == 13 {
                    nine.state = 6;
                    nine.artim = false;
                }
                nine.gathered = self.random.pick(&[0, 0, 3]);
                "clause: deaf outside Sta13"
            }
            6 | 7 => {
                nine.artim = !nine.artim;
                "clause: ARTIM mark"
            }
            8 | 9 => self.length_too_large(nine),
            10 => self.gathered_too_many(nine),
            11 => {
                self.set_sta1(nine);
                nine.requestor = true;
                "clause: requestor mark in Sta1"
            }
            _ => {
                self.set_sta1(nine);
                nine.peer_maximum = self.random.pick(&[1, 16_384, 0xffff_ffff]);
                "clause: peer maximum in Sta1"
            }
        };
        self.mark(name);
    }

    pub fn set_sta1(&mut self, nine: &mut Nine) {
        nine.state = 1;
        nine.gathered = 0;
        nine.deaf = false;
        nine.artim = false;
        nine.requestor = false;
        nine.peer_maximum = 0;
    }

    pub fn gathered_in(&mut self, nine: &mut Nine, state: u64) -> &'static str {
        self.set_sta1(nine);
        nine.state = state;
        nine.artim = state == 13;
        nine.gathered = self.random.pick(&[1, 2, 5, 6, 9]);
        nine.gather = vec![5, 0, 0, 0, 0, 4, 0, 0, 0, 0];
        if state == 1 {
            "clause: gathered in Sta1"
        } else {
            "clause: gathered in Sta4"
        }
    }

    /// A state in which bytes may be gathered.
    pub fn gathering_state(&mut self, nine: &mut Nine) {
        let state = self.random.pick(&[2, 3, 5, 6, 7, 8, 9, 10, 11, 12, 13]);
        nine.state = state;
        nine.artim = state == 2 || state == 13;
        nine.deaf = false;
    }

    pub fn length_too_large(&mut self, nine: &mut Nine) -> &'static str {
        self.gathering_state(nine);
        let length: u32 = self.random.pick(&[16_385, 16_386, 65_536 + 4, 0x0100_0000, 0x8000_0004, 0xffff_ffff]);
        nine.gather = vec![self.random.pick(&[1, 4, 8]), 0];
        nine.gather.extend_from_slice(&length.to_be_bytes());
        nine.gathered = self.random.pick(&[6, 6, 7, 100, 16_389]);
        "clause: L above 16,384"
    }

    pub fn gathered_too_many(&mut self, nine: &mut Nine) -> &'static str {
        self.gathering_state(nine);
        let length: u32 = self.random.pick(&[0, 1, 4, 68, 255, 256, 16_383]);
        nine.gather = vec![self.random.pick(&[1, 4, 5, 8]), 0];
        nine.gather.extend_from_slice(&length.to_be_bytes());
        nine.gathered = length as u64 + self.random.pick(&[6, 6, 7, 10]);
        nine.gathered = nine.gathered.min(16_389);
        "clause: gathered not below 6 + L"
    }

    /// Records that look odd and are not refused: the other side of each clause.
    pub fn inside_record(&mut self) {
        let state = self.any_state();
        let mut nine = self.good_nine(state);
        nine.output_length = self.random.pick(&[0, 9, 10, 16_390, 16_390]);
        let name = match self.random.below(5) {
            0 => {
                self.gathering_state(&mut nine);
                nine.gathered = self.random.between(1, 5) as u64;
                nine.gather = vec![0xff; 6];
                "inside: gathered 1 to 5 with any bytes"
            }
            1 => {
                self.gathering_state(&mut nine);
                nine.gathered = self.random.pick(&[6, 7, 100, 16_388, 16_389]);
                nine.gather = vec![self.random.pick(&[1, 2, 4, 8]), 0, 0, 0, 0x40, 0];
                "inside: L of 16,384"
            }
            2 => {
                self.gathering_state(&mut nine);
                let length: u32 = self.random.pick(&[1, 4, 68, 255, 256]);
                nine.gather = vec![self.random.pick(&[1, 4, 5, 8]), 0];
                nine.gather.extend_from_slice(&length.to_be_bytes());
                nine.gathered = 5 + length as u64;
                "inside: gathered one below 6 + L"
            }
            3 => {
                self.gathering_state(&mut nine);
                nine.gathered = 6;
                nine.gather.clear();
                "clause: L of filler bytes"
            }
            _ => "inside: any mark and peer maximum",
        };
        self.mark(name);
        if self.random.chance(25) {
            nine.gather_length = self.random.pick(&[nine.gathered as usize, 16_389]);
        }
        self.any_machine_call(nine);
    }

    /// A record in a state, not deaf, with nothing gathered and room for all.
    pub fn roomy_nine(&mut self, state: u8) -> Nine {
        let mut nine = self.good_nine(state);
        nine.gathered = 0;
        nine.gather.clear();
        nine.deaf = false;
        nine.gather_length = 16_390;
        nine.output_length = 16_390;
        nine
    }

    /// A stream of PDUs from a given record on, cut at random, the rest offered again.
    pub fn cut_stream(&mut self) {
        let state = self.random.pick(&[2, 3, 5, 6, 7, 8, 9, 10, 11, 12, 13]);
        let nine = self.roomy_nine(state);
        self.say(format!("r {} -", nine.text()));
        self.stream.clear();
        for _ in 0..self.random.between(1, 3) {
            let bytes = self.framed_pdu();
            self.stream.extend(bytes);
        }
        self.pump_all();
    }

    /// A PDU begun in one state and ended in another: a local event comes between its halves.
    pub fn event_inside_pdu(&mut self) {
        let (event, state) = self.random.pick(&[
            (11, 6),
            (11, 6),
            (14, 8),
            (14, 9),
            (14, 12),
            (15, 3),
            (15, 6),
            (15, 13),
            (17, 2),
            (17, 6),
            (18, 2),
            (18, 13),
        ]);
        let nine = self.roomy_nine(state);
        let kind = self.random.between(1, 9) as u8;
        let bytes = self.pdu_of_turn(kind);
        let cut = self.random.between(1, bytes.len() - 1);
        self.say(format!("r {} {}", nine.text(), hex(&bytes[..cut])));
        self.say(format!("e = {}", event));
        self.say(format!("r = {}", hex(&bytes[cut..])));
    }
}
