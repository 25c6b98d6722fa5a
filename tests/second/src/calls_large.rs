//! Large calls for the generator: PDUs at the limit of 16,384, long sheets, all 128 IDs.

use crate::contents::{AcContents, RqContents};
use crate::fields::sheet_record;
use crate::generate::{ac_words, hex, rq_words, Generator};
use crate::given::some_given;
use crate::make::name_of_length;
use crate::pdus::set_length;
use crate::random::Random;
use crate::subitems::version_name_of;
use crate::user::Given;
use crate::write;

impl Generator {
    /// An RQ whose sheet is as long as a lent one may be, and one record more.
    pub fn many_records(&mut self) {
        if self.random.chance(50) {
            self.all_contexts();
            return;
        }
        let records = self.random.pick(&[499, 500, 501]);
        let bytes = rq_of_records(records);
        let room = self.random.pick(&[132 * records, 132 * records - 1, 66_000]).min(66_000);
        self.mark("large: sheet of about 500 records");
        self.say(format!("Q {} {} 0", hex(&bytes), room));
    }

    /// An AC with a context for each of the 128 IDs, and one with a context more.
    pub fn all_contexts(&mut self) {
        self.mark("large: 128 contexts");
        let over = self.random.below(2);
        let bytes = ac_of_contexts(&all_ids(over));
        let room = self.random.pick(&[128 * 132, 128 * 132 - 1, 20_000]);
        self.say(format!("A {} {} 0", hex(&bytes), room));
    }

    /// PDUs of 16,384 whose gathered bytes are mostly the buffer's own filler.
    pub fn limit_in_few_words(&mut self) {
        if self.random.chance(15) {
            self.filled_by_refused_in_few_words();
            return;
        }
        let state = self.random.pick(&[2, 3, 5, 6, 7, 8, 13]);
        let mut nine = self.good_nine(state);
        nine.deaf = false;
        nine.gather_length = self.random.pick(&[16_390, 16_390, 17_000]);
        let (name, start, gathered) = self.limit_start();
        self.mark(name);
        nine.gather = start;
        nine.gathered = gathered;
        nine.output_length = self.random.pick(&[10, 16_390]);
        let left = 16_390 - gathered as usize;
        let length = self.random.pick(&[left, left, left + 3, left - 1]);
        let piece = self.random.bytes(length);
        self.say(format!("r {} {}", nine.text(), hex(&piece)));
        if length < left {
            let rest = self.random.bytes(3);
            self.say(format!("r = {}", hex(&rest)));
        }
    }

    /// The first bytes of a PDU of PDU-length 16,384 and how many of it are gathered.
    pub fn limit_start(&mut self) -> (&'static str, Vec<u8>, u64) {
        let gathered = self.random.pick(&[16_389, 16_389, 16_388, 16_380]);
        match self.random.below(5) {
            0 => ("large: unknown type of 16,384", vec![8, 0, 0, 0, 0x40, 0], gathered),
            1 => ("large: one PDV of 16,380", vec![4, 0, 0, 0, 0x40, 0, 0, 0, 0x3f, 0xfc, 1, 2], gathered),
            2 => ("large: one PDV one too long", vec![4, 0, 0, 0, 0x40, 0, 0, 0, 0x3f, 0xfd, 1, 2], gathered),
            3 => ("large: RQ filled by a skipped item", self.filled_associate(1), gathered),
            _ => ("large: AC filled by a skipped item", self.filled_associate(2), gathered),
        }
    }

    /// An RQ or AC up to the header of a last skipped item that fills it to 16,384.
    pub fn filled_associate(&mut self, kind: u8) -> Vec<u8> {
        let mut bytes = self.pdu_of_turn(kind);
        let length = 16_390 - bytes.len() as u16 - 4;
        bytes.extend_from_slice(&[0xf0, 0]);
        bytes.extend_from_slice(&length.to_be_bytes());
        bytes[2..6].copy_from_slice(&16_384u32.to_be_bytes());
        bytes
    }

    /// An AC of 16,384 received in Sta5, nearly all of it filler behind a refused context's fixed bytes; seldom result 0.
    pub fn filled_by_refused_in_few_words(&mut self) {
        self.mark("large: AC filled by a refused context");
        let mut nine = self.good_nine(5);
        nine.gather_length = 16_390;
        nine.gather = ac_before_rubbish(16_384, self.random.pick(&[0, 1, 2, 3, 4, 4]));
        nine.gathered = 16_390 - USER.len() as u64;
        nine.output_length = 10;
        self.say(format!("r {} {}", nine.text(), hex(&USER)));
    }

    /// The same AC in full, and one of 16,385, whose rubbish is of any bytes.
    pub fn full_refused(&mut self, over: usize) {
        self.mark("large: A with a long refused context");
        let mut bytes = ac_before_rubbish(16_384 + over, self.random.pick(&[1, 2, 3, 4]));
        let rubbish = self.random.bytes(16_390 + over - bytes.len() - USER.len());
        bytes.extend(rubbish);
        bytes.extend_from_slice(&USER);
        self.say(format!("A {} 132 0", hex(&bytes)));
    }

    /// Calls that carry 16,384 and more bytes themselves.
    pub fn limit_in_full(&mut self) {
        let (variant, over) = self.full.take();
        let over = over as usize;
        match variant {
            0 => self.full_reading("K", "large: K", over),
            1 => self.full_reading("Q", "large: Q", over),
            2 => self.full_reading("D", "large: D", over),
            3 => self.full_data_writing(over),
            4 => self.full_rq_writing("1", over, false),
            5 => self.full_rq_writing("c", over, false),
            6 => self.full_data_request(over),
            7 => self.full_piece(),
            8 => self.full_ac_writing(over),
            9 => self.full_reading("P", "large: P", over),
            10 => self.full_refused(over),
            _ => self.full_rq_writing(if over == 0 { "1" } else { "c" }, 1, true),
        }
    }

    /// A reading call on a PDU of 16,384 or 16,385.
    pub fn full_reading(&mut self, call: &str, name: &str, over: usize) {
        self.mark(name);
        let (mut bytes, words) = match call {
            "Q" => (self.filled_associate(1), " 1320 1360"),
            "D" => (vec![4, 0, 0, 0, 0x40, 0, 0, 0, 0x3f, 0xfc, 1, 2], " 0"),
            "P" => (vec![4, 0, 0, 0, 0x40, 0, 0, 0, 0x3f, 0xfc, 1, 2], " 6"),
            _ => (self.filled_associate(2), ""),
        };
        bytes.resize(16_390, 0x77);
        if over == 1 {
            one_longer(&mut bytes, call);
        }
        self.say(format!("{} {}{}", call, hex(&bytes), words));
    }

    pub fn full_data_writing(&mut self, over: usize) {
        self.mark("large: 4");
        let items = long_items(16_384 + over);
        let room = self.random.pick(&[16_389, 16_390, 17_000]);
        self.say(format!("4 {} {}", hex(&items), room));
    }

    pub fn full_data_request(&mut self, over: usize) {
        self.mark("large: d");
        let state = self.random.pick(&[6, 8]);
        let mut nine = self.good_nine(state);
        nine.peer_maximum = self.random.pick(&[0, 16_383, 16_384, 16_385, 65_536]);
        nine.output_length = self.random.pick(&[16_389, 16_390, 17_000]);
        let items = long_items(16_384 + over);
        self.say(format!("d {} {}", nine.text(), hex(&items)));
    }

    /// RQ contents whose PDU-length is 16,384 or 16,385; a bad last record makes them 4.
    pub fn full_rq_writing(&mut self, call: &str, over: usize, bad: bool) {
        self.mark(if bad { "large: 1 or c with a bad last record" } else { "large: 1 or c" });
        let mut contents = long_rq_contents(over, &mut self.random);
        if bad {
            let last = contents.sheet.len() - 1;
            contents.sheet[last] = 1;
        }
        let room = self.random.pick(&[16_389, 16_390, 16_390, 17_000]);
        if call == "1" {
            self.say(format!("1 {} {}", rq_words(&contents), room));
        } else {
            let mut nine = self.good_nine(4);
            nine.output_length = room;
            self.say(format!("c {} {}", nine.text(), rq_words(&contents)));
        }
    }

    /// AC contents with a record for each of the 128 IDs, and one more whose ID has come before; seldom ID 1, which is
    /// refused, carries a name.
    pub fn full_ac_writing(&mut self, over: usize) {
        self.mark("large: 2 or a");
        let named = self.random.chance(20);
        let transfer = |id: u8| if id % 5 == 0 || (id == 1 && named) { &b"1.2"[..] } else { b"" };
        let ids = all_ids(over);
        let records: Vec<Vec<u8>> = ids.iter().map(|id| sheet_record(*id, id % 5, b"", transfer(*id))).collect();
        let user = some_given(true, &mut self.random, &mut self.marks);
        let contents = AcContents { echoed: vec![9; 64], application: b"1.2".to_vec(), user, sheet: records.concat() };
        let needed = contents.written().map_or(20, |b| b.len());
        let room = self.random.pick(&[needed, needed - 1]);
        if self.random.chance(50) {
            self.say(format!("2 {} {}", ac_words(&contents), room));
        } else {
            let mut nine = self.good_nine(3);
            nine.output_length = room;
            self.say(format!("a {} {}", nine.text(), ac_words(&contents)));
        }
    }

    /// One piece with a whole PDU of 16,384 and more behind it.
    pub fn full_piece(&mut self) {
        self.mark("large: r");
        let mut nine = self.good_nine(6);
        nine.gathered = 0;
        nine.gather.clear();
        nine.gather_length = 16_390;
        nine.output_length = 16_390;
        let mut bytes = vec![4, 0, 0, 0, 0x40, 0, 0, 0, 0x3f, 0xfc, 1, 2];
        bytes.resize(16_390, 0x11);
        bytes.extend(write::release_rq());
        self.say(format!("r {} {}", nine.text(), hex(&bytes)));
        self.say(format!("r = {}", hex(&write::release_rq())));
    }
}

/// A valid RQ with one context of so many transfer names.
fn rq_of_records(records: usize) -> Vec<u8> {
    let mut sheet = Vec::new();
    for _ in 0..records {
        sheet.extend(sheet_record(1, 0, b"1", b"2"));
    }
    let user = Given::class_alone(b"1.2");
    write::rq(b"STORE-EQUINE    ", b"STORE-EXOTIC    ", b"1.2", &user, &sheet).unwrap_or_default()
}

/// All odd IDs, the highest first, and with `over` the highest once more.
pub fn all_ids(over: usize) -> Vec<u8> {
    let ids = (0..128u8).rev().map(|number| 2 * number + 1);
    ids.chain((0..over).map(|_| 255)).collect()
}

/// A 50H with no limit.
const USER: [u8; 12] = [0x50, 0, 0, 8, 0x51, 0, 0, 4, 0, 0, 0, 0];

/// The fixed part of an AC's body and its 10H.
fn ac_start() -> Vec<u8> {
    let mut body = vec![0, 1, 0, 0];
    body.extend(vec![b' '; 64]);
    body.extend_from_slice(&[0x10, 0, 0, 1, b'1']);
    body
}

/// An AC with a context of each ID given, those refused with a name, an empty one or nothing.
fn ac_of_contexts(ids: &[u8]) -> Vec<u8> {
    let mut body = ac_start();
    for id in ids {
        let behind: &[u8] = match id % 5 {
            0 | 1 => &[0x40, 0, 0, 1, b'2'],
            2 | 3 => &[0x40, 0, 0, 0],
            _ => &[],
        };
        body.extend_from_slice(&[0x21, 0, 0, 4 + behind.len() as u8, *id, 0, id % 5, 0]);
        body.extend_from_slice(behind);
    }
    body.extend_from_slice(&USER);
    write::pdu(2, &body)
}

/// The first bytes of an AC of a PDU-length: up to the fixed bytes of its one context, which takes all before the 50H.
fn ac_before_rubbish(length: usize, result: u8) -> Vec<u8> {
    let mut body = ac_start();
    let inside = (length - body.len() - 4 - USER.len()) as u16;
    body.extend_from_slice(&[0x21, 0]);
    body.extend_from_slice(&inside.to_be_bytes());
    body.extend_from_slice(&[1, 0, result, 0]);
    let mut bytes = write::pdu(2, &body);
    bytes[2..6].copy_from_slice(&(length as u32).to_be_bytes());
    bytes
}

/// PDV items of a wanted length in all, in one item.
fn long_items(length: usize) -> Vec<u8> {
    let mut items = (length as u32 - 4).to_be_bytes().to_vec();
    items.extend_from_slice(&[1, 2]);
    items.resize(length, 0x33);
    items
}

/// Makes a PDU of 16,384 one of 16,385 that is right in all else.
fn one_longer(bytes: &mut Vec<u8>, call: &str) {
    bytes.push(0x77);
    if call == "D" || call == "P" {
        bytes[9] += 1;
    } else if let Some(place) = bytes.windows(2).rposition(|pair| pair == [0xf0, 0]) {
        let length = (bytes.len() - place - 4) as u16;
        bytes[place + 2..place + 4].copy_from_slice(&length.to_be_bytes());
    }
    set_length(bytes);
}

/// 113 runs that make the PDU-length 16,384 with a class UID and a version name, and one more with `over`.
fn long_rq_contents(over: usize, random: &mut Random) -> RqContents {
    let mut sheet = Vec::new();
    for number in 0..112u8 {
        let (one, other) = (name_of_length(64, random), name_of_length(64, random));
        sheet.extend(sheet_record(2 * number + 1, 0, &one, &other));
    }
    let (one, other) = (name_of_length(34, random), name_of_length(34 + over, random));
    sheet.extend(sheet_record(225, 0, &one, &other));
    let mut user = Given::class_alone(&name_of_length(10, random));
    user.version_name = version_name_of(6, random);
    RqContents {
        called: b"STORE-EQUINE    ".to_vec(),
        calling: b"STORE-EXOTIC    ".to_vec(),
        application: name_of_length(64, random),
        user,
        sheet,
    }
}
