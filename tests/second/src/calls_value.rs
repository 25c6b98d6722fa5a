//! Reading and writing calls for the generator, with lent sheets and outputs of every size.

use crate::contents::title_of_other_length;
use crate::fields::{pdv_at, rooms};
use crate::generate::{ac_words, hex, rq_words, Generator};
use crate::make::{bad_name, bad_title, good_data, good_name, good_pdv, good_title, name_of_length, DataPlan, PdvPlan};
use crate::pdus::some_pdu;
use crate::write;

impl Generator {
    pub fn call_k(&mut self) {
        let bytes = if self.random.chance(25) {
            let turn = self.random.pick(&[1, 2, 3, 4, 5, 6, 7, 8, 9, 11, 11]);
            self.pdu_of_turn(turn)
        } else {
            let kind = self.any_kind();
            some_pdu(kind, &mut self.random, &mut self.marks)
        };
        self.say(format!("K {}", hex(&bytes)));
    }

    pub fn call_q(&mut self) {
        let bytes = self.pdu_mostly(1);
        self.say_reading("Q", &bytes);
    }

    pub fn call_a(&mut self) {
        let bytes = self.pdu_mostly(2);
        self.say_reading("A", &bytes);
    }

    /// A context sheet of any size, a role sheet mostly long enough.
    fn say_reading(&mut self, call: &str, bytes: &[u8]) {
        let (needed, roles) = self.needed_rooms(bytes);
        let room = self.sheet_room(needed);
        let short = [roles.saturating_sub(1), roles.saturating_sub(68), 0];
        let roles = if self.random.chance(15) { self.random.pick(&short) } else { roles };
        self.say(format!("{} {} {} {}", call, hex(bytes), room, roles));
    }

    /// The bytes of an RQ's or AC's sheets, or of a record in each.
    pub fn needed_rooms(&self, bytes: &[u8]) -> (usize, usize) {
        rooms(bytes).unwrap_or((132, 68))
    }

    /// A PDU of the kind asked for, seldom of another.
    pub fn pdu_mostly(&mut self, kind: u8) -> Vec<u8> {
        let kind = if self.random.chance(8) { self.any_kind() } else { kind };
        if self.random.chance(40) {
            let without_bit = kind == 1 && self.random.chance(25);
            return self.pdu_of_turn(if without_bit { 11 } else { kind.min(9) });
        }
        some_pdu(kind, &mut self.random, &mut self.marks)
    }

    pub fn sheet_room(&mut self, needed: usize) -> usize {
        let below = needed.saturating_sub(1);
        let one_less = needed.saturating_sub(132);
        self.random.pick(&[needed, needed, needed, below, one_less, 0, 131, needed + 1, needed + 200]).min(66_000)
    }

    pub fn call_j(&mut self) {
        let bytes = if self.random.chance(70) {
            let (result, source, reason) = self.next_reject();
            write::pdu(3, &[self.random.byte(), result, source, reason])
        } else {
            self.pdu_mostly(3)
        };
        self.say(format!("J {}", hex(&bytes)));
    }

    pub fn call_b(&mut self) {
        let bytes = if self.random.chance(70) {
            let (source, reason) = self.aborts.take();
            write::pdu(7, &[self.random.byte(), self.random.byte(), source, reason])
        } else {
            self.pdu_mostly(7)
        };
        self.say(format!("B {}", hex(&bytes)));
    }

    pub fn call_d(&mut self) {
        if self.random.chance(30) {
            self.call_d_with_control_bits();
            return;
        }
        let bytes = self.pdu_mostly(4);
        let number = self.random.pick(&[0, 0, 0, 1, 1, 2, 3, 4, 12, 255, 65_536, 4_294_967_296, u64::MAX]);
        self.say(format!("D {} {}", hex(&bytes), number));
    }

    /// A PDV that is there, its control byte of any value.
    pub fn call_d_with_control_bits(&mut self) {
        let mut plan = good_data(&mut self.random);
        for pdv in plan.pdvs.iter_mut() {
            pdv.control = self.random.byte();
        }
        let number = self.random.below(plan.pdvs.len());
        self.say(format!("D {} {}", hex(&plan.bytes()), number));
    }

    pub fn call_p(&mut self) {
        match self.random.below(5) {
            0 => self.all_places(),
            1..=3 => self.one_item(),
            _ => {
                let bytes = self.pdu_mostly(4);
                let place = self.some_place(bytes.len() as u64);
                self.say(format!("P {} {}", hex(&bytes), place));
            }
        }
    }

    /// All PDVs of a P-DATA-TF by their places, and the refusal behind the last; its header is seldom another's.
    pub fn all_places(&mut self) {
        let mut bytes = good_data(&mut self.random).bytes();
        if self.random.chance(20) {
            let header = self.random.bytes(6);
            bytes[..6].copy_from_slice(&header);
        }
        let mut place = 6;
        loop {
            self.say(format!("P {} {}", hex(&bytes), place));
            match pdv_at(&bytes, place) {
                Ok(part) => place = (part.start + part.length) as u64,
                Err(_) => break,
            }
        }
    }

    /// One PDV item on an edge, the edges in turn, with and without bytes behind it; seldom asked for far away.
    pub fn one_item(&mut self) {
        let (edge, more) = self.items.take();
        let place = match (edge, more) {
            (0, 0) => 5,
            (0, _) => self.random.below(5),
            _ => self.random.pick(&[6, 6, 6, 7, 12]),
        };
        let mut pdv = good_pdv(&mut self.random);
        self.item_edge(edge, &mut pdv);
        let plan = DataPlan { reserved: 0, pdvs: vec![pdv], tail: Vec::new(), slip: 0 };
        let mut bytes = self.random.bytes(place);
        bytes.extend(plan.items());
        match (edge, more) {
            (1, 0) => bytes.truncate(place + self.random.below(4)),
            (1, _) => bytes.truncate(self.random.pick(&[place + 4, place + 5, bytes.len() - 1, bytes.len() - 1])),
            (8, _) | (_, 0) => {}
            _ => bytes.extend(good_data(&mut self.random).items()),
        }
        let asked = match edge {
            2 => place as u64 + self.random.pick(&[1 << 16, 1 << 32, 1 << 32, 1 << 33, 1 << 63, 1 << 63]),
            3 => u64::MAX - self.random.pick(&[0, 1, 3, 5, 6, 9]),
            _ => place as u64,
        };
        self.say(format!("P {} {}", hex(&bytes), asked));
    }

    /// The edges 4 to 15 of a PDV item; 0 is a place below 6, 1 a cut, 2 and 3 are far places.
    pub fn item_edge(&mut self, edge: u8, pdv: &mut PdvPlan) {
        let length = pdv.true_length();
        match edge {
            4 => pdv.id = self.random.pick(&[0, 2, 128, 254]),
            5 => pdv.length = Some(0),
            6 => pdv.length = Some(1),
            7 => pdv.length = Some(2),
            8 => pdv.length = Some(length + 1),
            9 => pdv.length = Some(length - 1),
            10 => pdv.length = Some(length + self.random.pick(&[0x100, 0x1_0000, 0x100_0000, 0x8000_0000])),
            11 => pdv.length = Some(length.swap_bytes()),
            12 => pdv.length = Some(u32::MAX - self.random.pick(&[0, 1, 3, 5, 9])),
            13 => pdv.fragment.clear(),
            14 => pdv.control = self.random.pick(&[4, 0x80, 0xfc, 0xff]),
            15 => pdv.id = 255,
            _ => {}
        }
    }

    /// A place within the PDU, at its ends, or far away.
    pub fn some_place(&mut self, length: u64) -> u64 {
        let within = self.random.below(length as usize + 1) as u64;
        let far = self.random.pick(&[255, 65_536, 4_294_967_296, u64::MAX, u64::MAX - 3, u64::MAX - 5]);
        let end = length.saturating_sub(self.random.pick(&[0, 0, 1, 3, 5, 6, 7]));
        self.random.pick(&[6, 6, 6, within, within, end, length + 1, far])
    }

    pub fn call_n(&mut self) {
        let name = match self.random.below(4) {
            0 => good_name(&mut self.random),
            1 => {
                let length = self.random.pick(&[1, 2, 3, 63, 64, 65, 66]);
                name_of_length(length, &mut self.random)
            }
            2 => {
                let length = self.random.between(1, 6);
                (0..length).map(|_| self.random.pick(b"0012.")).collect()
            }
            _ => bad_name(&mut self.random),
        };
        self.say(format!("N {}", hex(&name)));
    }

    pub fn call_v(&mut self) {
        let title = match self.random.below(5) {
            0 => good_title(&mut self.random),
            4 => {
                let mut title = b"ABCDEFGHIJKLMNOP".to_vec();
                title[self.random.below(16)] = self.random.pick(&[0x1f, 0x20, 0x5b, 0x5c, 0x5d, 0x7e, 0x7f, 0x80]);
                title
            }
            1 => title_of_other_length(&mut self.random),
            2 => {
                let mut title = vec![0x20; 16];
                title[self.random.below(16)] = self.random.byte();
                title
            }
            _ => bad_title(&mut self.random),
        };
        self.say(format!("V {}", hex(&title)));
    }

    pub fn call_e(&mut self) {
        let one = self.loose_title();
        let other = match self.random.below(6) {
            0 => self.loose_title(),
            4 => one.to_ascii_lowercase(),
            5 => [&one[..], &[0]].concat(),
            1 => {
                let mut title = one.clone();
                title.insert(self.random.below(title.len() + 1), 0x20);
                title
            }
            2 => {
                let mut title = one.clone();
                let place = self.random.below(title.len() + 1);
                title.insert(place, self.random.pick(&[0, 0x09, b'A', 0x20]));
                title
            }
            _ => {
                let before = self.random.below(4);
                let mut title = vec![0x20; before];
                title.extend_from_slice(&one);
                title
            }
        };
        self.say(format!("E {} {}", hex(&one), hex(&other)));
    }

    /// A short title of any length over few bytes.
    pub fn loose_title(&mut self) -> Vec<u8> {
        if self.random.chance(30) {
            return good_title(&mut self.random);
        }
        let length = self.random.below(7);
        (0..length).map(|_| self.random.pick(b"  AAab\0")).collect()
    }

    pub fn write_rq(&mut self) {
        let c = self.some_rq_contents();
        let needed = c.written().map_or(168, |bytes| bytes.len());
        let room = self.room(needed);
        self.say(format!("1 {} {}", rq_words(&c), room));
    }

    pub fn write_ac(&mut self) {
        let c = self.some_ac_contents();
        let needed = c.written().map_or(147, |bytes| bytes.len());
        let room = self.room(needed);
        self.say(format!("2 {} {}", ac_words(&c), room));
    }

    pub fn write_rj(&mut self) {
        let (result, source, reason) = self.next_reject();
        let room = self.room(10);
        self.say(format!("3 {} {} {} {}", result, source, reason, room));
    }

    pub fn write_data(&mut self) {
        let items = self.some_items();
        let room = self.room(items.len() + 6);
        self.say(format!("4 {} {}", hex(&items), room));
    }

    pub fn write_release(&mut self) {
        let kind = self.random.pick(&[5, 6]);
        let room = self.room(10);
        self.say(format!("{} {}", kind, room));
    }

    pub fn write_abort(&mut self) {
        let (source, reason) = self.aborts.take();
        let room = self.room(10);
        self.say(format!("7 {} {} {}", source, reason, room));
    }
}
