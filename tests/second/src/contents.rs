//! Contents of local requests for the generator: sheets, titles and names, good and twisted.

use crate::fields::sheet_record;
use crate::given::some_given;
use crate::make::{bad_name, bad_title, good_name, good_title, name_of_length};
use crate::marks::Marks;
use crate::random::Random;
use crate::twists::Expect::{Inside, Outside};
use crate::twists::{inside, outside, seldom_used, Expect, Twist};
use crate::user::Given;
use crate::write;

/// A sheet in records, with bytes behind them.
#[derive(Clone, Debug, Default)]
pub struct Sheet {
    pub records: Vec<Vec<u8>>,
    pub tail: Vec<u8>,
}

impl Sheet {
    pub fn bytes(&self) -> Vec<u8> {
        let mut bytes = self.records.concat();
        bytes.extend_from_slice(&self.tail);
        bytes
    }

    /// Edits one record, often the last.
    fn with_record(&mut self, random: &mut Random, edit: impl FnOnce(&mut Vec<u8>, &mut Random)) {
        let all: Vec<usize> = (0..self.records.len()).collect();
        self.with_one_of(&all, random, edit);
    }

    fn with_one_of(&mut self, places: &[usize], random: &mut Random, edit: impl FnOnce(&mut Vec<u8>, &mut Random)) {
        if let Some(last) = places.last() {
            let place = if random.chance(50) { *last } else { random.pick(places) };
            edit(&mut self.records[place], random);
        }
    }

    /// Edits one of the records with a result of 0, or of the others; where there is none, one is made so.
    fn with_result(&mut self, zero: bool, random: &mut Random, edit: impl FnOnce(&mut Vec<u8>, &mut Random)) {
        if !self.records.iter().any(|record| (record[1] == 0) == zero) {
            self.with_record(random, |record, random| {
                let result = if zero { 0 } else { random.between(1, 4) as u8 };
                set_result(record, result, random);
            });
        }
        let fitting: Vec<usize> =
            (0..self.records.len()).filter(|place| (self.records[*place][1] == 0) == zero).collect();
        self.with_one_of(&fitting, random, edit);
    }

    /// Edits one record that carries a transfer name.
    fn with_named(&mut self, random: &mut Random, edit: impl FnOnce(&mut Vec<u8>, &mut Random)) {
        self.with_result(true, random, edit);
    }

    /// Edits one refused record of an answer.
    fn with_refused(&mut self, random: &mut Random, edit: impl FnOnce(&mut Vec<u8>, &mut Random)) {
        self.with_result(false, random, edit);
    }

    /// Refuses one of the contexts of an answer, unless one is refused.
    pub fn refuse_one(&mut self, random: &mut Random) {
        self.with_refused(random, |_, _| {});
    }

    /// Sets the abstract name of one record, and of all that share its ID and abstract name.
    fn set_abstract(&mut self, random: &mut Random, name: &[u8]) {
        let chosen = random.pick(&self.records);
        for record in self.records.iter_mut().filter(|r| r[0] == chosen[0] && r[4..68] == chosen[4..68]) {
            set_name(record, false, name);
        }
    }

    fn add_context(&mut self, proposal: bool, random: &mut Random) {
        let id = self.free_id(random);
        self.records.push(good_record(proposal, id, random));
    }

    fn set_even_id(&mut self, random: &mut Random) {
        self.with_record(random, |record, random| record[0] = random.pick(&[0, 2, 128, 254]));
    }

    fn last(&self) -> Vec<u8> {
        self.records.last().cloned().unwrap_or_else(|| sheet_record(1, 0, b"1.2", b"1.2"))
    }

    fn free_id(&self, random: &mut Random) -> u8 {
        let used: Vec<u8> = self.records.iter().map(|record| record[0]).collect();
        let free: Vec<u8> = (0..128).map(|i| 2 * i + 1).filter(|id| !used.contains(id)).collect();
        random.pick(&free)
    }
}

/// Puts a name of any length up to 64 in a record's abstract or transfer field.
fn set_name(record: &mut [u8], transfer: bool, name: &[u8]) {
    let (length_at, at) = if transfer { (3, 68) } else { (2, 4) };
    record[length_at] = name.len() as u8;
    for place in 0..64 {
        record[at + place] = name.get(place).copied().unwrap_or(0);
    }
}

/// Gives a record of an answer a result, and the transfer name or none that goes with it.
fn set_result(record: &mut [u8], result: u8, random: &mut Random) {
    let transfer = if result == 0 { good_name(random) } else { Vec::new() };
    record[1] = result;
    set_name(record, true, &transfer);
}

/// A bad name that fits a field of 64 bytes, not empty.
fn short_bad_name(random: &mut Random) -> Vec<u8> {
    loop {
        let name = bad_name(random);
        if (1..=64).contains(&name.len()) {
            return name;
        }
    }
}

/// A record of a good sheet.
fn good_record(proposal: bool, id: u8, random: &mut Random) -> Vec<u8> {
    let mut record = sheet_record(id, 0, b"", &good_name(random));
    if proposal {
        set_name(&mut record, false, &good_name(random));
    } else {
        let result = random.pick(&[0, 0, 1, 2, 3, 4]);
        set_result(&mut record, result, random);
    }
    record
}

/// A good sheet of few records.
pub fn good_sheet(proposal: bool, random: &mut Random) -> Sheet {
    let mut sheet = Sheet::default();
    for _ in 0..random.pick(&[1, 1, 1, 1, 2, 3]) {
        sheet.add_context(proposal, random);
    }
    sheet
}

/// Twists of all sheets alike.
pub static SHEET: &[Twist<Sheet>] = &[
    inside("sheet: transfer name of 64 bytes", |s, r| {
        s.with_named(r, |record, r| set_name(record, true, &name_of_length(64, r)));
    }),
    inside("sheet: transfer name of 1 byte", |s, r| {
        s.with_named(r, |record, _| set_name(record, true, b"0"));
    }),
    outside("sheet: no record", |s, _| s.records.clear()),
    outside("sheet: last record cut", |s, r| {
        let mut last = s.last();
        s.records.pop();
        last.truncate(r.pick(&[1, 4, 68, 130, 131]));
        s.tail = last;
    }),
    outside("sheet: bytes behind", |s, r| {
        let length = r.pick(&[1, 2, 66, 131]);
        s.tail = vec![0; length];
    }),
    outside("sheet: transfer length 0", |s, r| {
        s.with_named(r, |record, _| set_name(record, true, b""));
    }),
    outside("sheet: transfer length above 64", |s, r| {
        s.with_named(r, |record, r| {
            set_name(record, true, &name_of_length(64, r));
            record[3] = r.pick(&[65, 66, 128, 255]);
        });
    }),
    outside("sheet: transfer length one less", |s, r| {
        s.with_named(r, |record, _| record[3] -= 1);
    }),
    outside("sheet: transfer length one more", |s, r| {
        s.with_named(r, |record, _| {
            set_name(record, true, b"1.2");
            record[3] += 1;
        });
    }),
    outside("sheet: unused transfer byte not zero", |s, r| {
        s.with_named(r, |record, r| {
            set_name(record, true, b"1.2");
            let place = r.pick(&[3, 4, 40, 62, 63]);
            record[68 + place] = r.pick(&[1, 0x20, 0x31, 0xff]);
        });
    }),
    outside("sheet: bad transfer name", |s, r| {
        s.with_named(r, |record, r| set_name(record, true, &short_bad_name(r)));
    }),
];

/// Twists of proposals and site sheets alike.
pub static ABSTRACT: &[Twist<Sheet>] = &[
    inside("sheet: abstract name of 64 bytes", |s, r| {
        let name = name_of_length(64, r);
        s.set_abstract(r, &name);
    }),
    inside("sheet: last record twice", |s, _| {
        let record = s.last();
        s.records.push(record);
    }),
    outside("sheet: result not 0", |s, r| {
        s.with_record(r, |record, r| record[1] = r.pick(&[1, 3, 4, 5, 255]));
    }),
    outside("sheet: result not 0, no transfer name", |s, r| {
        s.with_record(r, |record, r| {
            let result = r.between(1, 4) as u8;
            set_result(record, result, r);
        });
    }),
    outside("sheet: abstract length 0", |s, r| {
        s.with_record(r, |record, _| set_name(record, false, b""));
    }),
    outside("sheet: abstract length above 64", |s, r| {
        s.with_record(r, |record, r| {
            set_name(record, false, &name_of_length(64, r));
            record[2] = r.pick(&[65, 66, 128, 255]);
        });
    }),
    outside("sheet: abstract length one less", |s, r| {
        s.with_record(r, |record, _| record[2] -= 1);
    }),
    outside("sheet: unused abstract byte not zero", |s, r| {
        s.with_record(r, |record, r| {
            set_name(record, false, b"1.2");
            let place = r.pick(&[3, 4, 40, 62, 63]);
            record[4 + place] = r.pick(&[1, 0x20, 0x31, 0xff]);
        });
    }),
    outside("sheet: bad abstract name", |s, r| {
        s.with_record(r, |record, r| set_name(record, false, &short_bad_name(r)));
    }),
];

/// Twists of a proposal.
pub static PROPOSAL: &[Twist<Sheet>] = &[
    inside("proposal: one more context", |s, r| s.add_context(true, r)),
    inside("proposal: a run of several transfers", |s, r| {
        for _ in 0..r.between(1, 3) {
            let mut record = s.last();
            set_name(&mut record, true, &good_name(r));
            s.records.push(record);
        }
    }),
    inside("proposal: equal abstract names, other ID", |s, r| {
        let mut record = s.last();
        record[0] = s.free_id(r);
        s.records.push(record);
    }),
    outside("proposal: even ID", |s, r| s.set_even_id(r)),
    outside("proposal: equal ID, other abstract name", |s, _| {
        let mut record = s.last();
        set_name(&mut record, false, b"7.7.7.7");
        s.records.push(record);
    }),
    outside("proposal: equal ID, abstract name one longer", |s, _| {
        let mut record = s.last();
        set_name(&mut record, false, b"1.2");
        s.records.pop();
        s.records.push(record.clone());
        set_name(&mut record, false, b"1.23");
        s.records.push(record);
    }),
    outside("proposal: an ID starts a second run", |s, r| {
        let first = s.records[0].clone();
        let mut between = s.last();
        between[0] = s.free_id(r);
        s.records.push(between);
        s.records.push(first);
    }),
];

/// Twists of a site sheet.
pub static SITE: &[Twist<Sheet>] = &[
    inside("site: first record again last", |s, _| {
        let record = s.records[0].clone();
        s.records.push(record);
    }),
    outside("site: ID of a context", |s, r| {
        s.with_record(r, |record, r| record[0] = r.pick(&[1, 1, 3, 129, 255]));
    }),
    outside("site: even ID, not 0", |s, r| {
        s.with_record(r, |record, r| record[0] = r.pick(&[2, 128, 254]));
    }),
    outside("site: IDs as in a proposal", |s, _| {
        for (place, record) in s.records.iter_mut().enumerate() {
            record[0] = 2 * (place % 128) as u8 + 1;
        }
    }),
];

/// Twists of an answer.
pub static ANSWER: &[Twist<Sheet>] = &[
    inside("answer: one more context", |s, r| s.add_context(false, r)),
    inside("answer: result 0 to 4", |s, r| {
        s.with_record(r, |record, r| {
            let result = r.below(5) as u8;
            set_result(record, result, r);
        });
    }),
    inside("answer: all refused", |s, r| {
        for record in s.records.iter_mut() {
            let result = r.between(1, 4) as u8;
            set_result(record, result, r);
        }
    }),
    outside("answer: even ID", |s, r| s.set_even_id(r)),
    outside("answer: result above 4", |s, r| {
        s.with_record(r, |record, r| record[1] = r.pick(&[5, 6, 255]));
    }),
    outside("answer: an abstract name", |s, r| {
        s.with_record(r, |record, r| set_name(record, false, &good_name(r)));
    }),
    outside("answer: abstract length not 0, field zero", |s, r| {
        s.with_record(r, |record, r| record[2] = r.pick(&[1, 64, 65, 255]));
    }),
    outside("answer: abstract length 0, field not zero", |s, r| {
        s.with_record(r, |record, r| record[4 + r.pick(&[0, 1, 63])] = r.pick(&[1, 0x31, 0xff]));
    }),
    outside("answer: equal IDs side by side", |s, _| {
        let record = s.last();
        s.records.push(record);
    }),
    outside("answer: equal IDs apart", |s, r| {
        let first = s.records[0].clone();
        let mut between = s.last();
        between[0] = s.free_id(r);
        s.records.push(between);
        s.records.push(first);
    }),
];

/// Twists of an answer's refused records, which carry no transfer name: its length and its field are zero.
pub static REFUSED: &[Twist<Sheet>] = &[
    inside("refused record: one more", |s, r| {
        let id = s.free_id(r);
        s.records.push(sheet_record(id, r.between(1, 4) as u8, b"", b""));
    }),
    outside("refused record: a good transfer name", |s, r| {
        s.with_refused(r, |record, r| set_name(record, true, &good_name(r)));
    }),
    outside("refused record: a transfer name of 64 bytes", |s, r| {
        s.with_refused(r, |record, r| set_name(record, true, &name_of_length(64, r)));
    }),
    outside("refused record: a bad transfer name", |s, r| {
        s.with_refused(r, |record, r| set_name(record, true, &short_bad_name(r)));
    }),
    outside("refused record: a name accepted first", |s, r| {
        s.with_named(r, |record, r| record[1] = r.between(1, 4) as u8);
    }),
    outside("refused record: a name in the field, length 0", |s, r| {
        s.with_refused(r, |record, r| {
            set_name(record, true, &good_name(r));
            record[3] = 0;
        });
    }),
    outside("refused record: first byte of the field", |s, r| {
        s.with_refused(r, |record, r| record[68] = r.pick(&[1, 0x20, 0x31, 0x80, 0xff]));
    }),
    outside("refused record: last byte of the field", |s, r| {
        s.with_refused(r, |record, r| record[131] = r.pick(&[1, 0x20, 0x31, 0x80, 0xff]));
    }),
    outside("refused record: a byte within the field", |s, r| {
        s.with_refused(r, |record, r| record[68 + r.between(1, 62)] = r.pick(&[1, 0x20, 0x31, 0x80, 0xff]));
    }),
    outside("refused record: transfer length 1, field zero", |s, r| s.with_refused(r, |record, _| record[3] = 1)),
    outside("refused record: transfer length 2 to 64, field zero", |s, r| {
        s.with_refused(r, |record, r| record[3] = r.pick(&[2, 3, 17, 63, 64]));
    }),
    outside("refused record: transfer length above 64, field zero", |s, r| {
        s.with_refused(r, |record, r| record[3] = r.pick(&[65, 66, 128, 255]));
    }),
    outside("refused record: an abstract name", |s, r| {
        s.with_refused(r, |record, r| set_name(record, false, &good_name(r)));
    }),
    outside("refused record: even ID", |s, r| s.with_refused(r, |record, r| record[0] = r.pick(&[0, 2, 128, 254]))),
    outside("refused record: result 5", |s, r| s.with_refused(r, |record, _| record[1] = 5)),
    outside("refused record: its ID refused again", |s, r| {
        let mut again = Vec::new();
        s.with_refused(r, |record, _| again = record.clone());
        s.records.push(again);
    }),
    outside("refused record: its ID accepted too", |s, r| {
        let mut again = Vec::new();
        s.with_refused(r, |record, r| {
            again = record.clone();
            set_result(&mut again, 0, r);
        });
        s.records.insert(r.below(s.records.len() + 1), again);
    }),
    outside("accepted record: no transfer name", |s, r| s.with_named(r, |record, _| set_name(record, true, b""))),
];

/// The twists of a kind of sheet, and the word that they are counted under.
pub struct Twists {
    word: &'static str,
    list: Vec<&'static Twist<Sheet>>,
}

impl Twists {
    fn of_proposal() -> Twists {
        Twists { word: "twist", list: SHEET.iter().chain(ABSTRACT).chain(PROPOSAL).collect() }
    }

    fn of_answer() -> Twists {
        Twists { word: "twist", list: SHEET.iter().chain(ANSWER).collect() }
    }

    /// Of an answer's refused records, sent by a call.
    pub fn of_refused(call: &str) -> Twists {
        Twists { word: if call == "2" { "answer of 2" } else { "answer of a" }, list: REFUSED.iter().collect() }
    }

    /// Of a proposal that C answers.
    pub fn of_asked() -> Twists {
        Twists { word: "proposal of C", ..Twists::of_proposal() }
    }

    /// Of the site's sheet that C chooses by.
    pub fn of_site() -> Twists {
        Twists { word: "site of C", list: SHEET.iter().chain(ABSTRACT).chain(SITE).collect() }
    }

    fn change(&self, sheet: &mut Sheet, want: Expect, random: &mut Random, marks: &mut Marks) {
        let fitting: Vec<&Twist<Sheet>> = self.list.iter().copied().filter(|t| t.expect == want).collect();
        if let Some(chosen) = seldom_used(&fitting, self.word, random, marks) {
            (chosen.edit)(sheet, random);
        }
    }

    /// Changes a good sheet, within the rules or, unless `good`, beyond them.
    pub fn bring_near(&self, sheet: &mut Sheet, good: bool, random: &mut Random, marks: &mut Marks) {
        if random.chance(if good { 30 } else { 50 }) {
            self.change(sheet, Inside, random, marks);
        }
        if !good {
            self.change(sheet, Outside, random, marks);
        }
    }

    fn names(&self) -> Vec<String> {
        self.list.iter().map(|twist| format!("{}: {}", self.word, twist.name)).collect()
    }
}

/// A sheet near the rules; good ones when `good`.
pub fn some_sheet(proposal: bool, good: bool, random: &mut Random, marks: &mut Marks) -> Vec<u8> {
    let mut sheet = good_sheet(proposal, random);
    let twists = if proposal { Twists::of_proposal() } else { Twists::of_answer() };
    twists.bring_near(&mut sheet, good, random, marks);
    sheet.bytes()
}

/// What comes with a transport confirmation.
#[derive(Clone, Debug)]
pub struct RqContents {
    pub called: Vec<u8>,
    pub calling: Vec<u8>,
    pub application: Vec<u8>,
    pub user: Given,
    pub sheet: Vec<u8>,
}

impl RqContents {
    pub fn written(&self) -> Result<Vec<u8>, u8> {
        write::rq(&self.called, &self.calling, &self.application, &self.user, &self.sheet)
    }
}

/// What comes with an accept response.
#[derive(Clone, Debug)]
pub struct AcContents {
    pub echoed: Vec<u8>,
    pub application: Vec<u8>,
    pub user: Given,
    pub sheet: Vec<u8>,
}

impl AcContents {
    pub fn written(&self) -> Result<Vec<u8>, u8> {
        write::ac(&self.echoed, &self.application, &self.user, &self.sheet)
    }
}

/// A title of another length than 16.
pub fn title_of_other_length(random: &mut Random) -> Vec<u8> {
    let length = random.pick(&[0, 1, 12, 15, 17, 32]);
    vec![b'A'; length]
}

pub fn good_rq_contents(random: &mut Random, marks: &mut Marks) -> RqContents {
    RqContents {
        called: good_title(random),
        calling: good_title(random),
        application: good_name(random),
        user: some_given(true, random, marks),
        sheet: some_sheet(true, true, random, marks),
    }
}

/// RQ fields with one bad part.
pub fn bad_rq_contents(random: &mut Random, marks: &mut Marks) -> RqContents {
    let mut contents = good_rq_contents(random, marks);
    let name = match random.below(15) {
        0 => {
            contents.called = bad_title(random);
            "contents: bad called title"
        }
        1 => {
            contents.calling = bad_title(random);
            "contents: bad calling title"
        }
        2 => {
            contents.called = title_of_other_length(random);
            "contents: called title of another length"
        }
        3 => {
            contents.calling = title_of_other_length(random);
            "contents: calling title of another length"
        }
        4 => {
            contents.application = bad_name(random);
            "contents: bad application name"
        }
        5..=7 => {
            contents.user = some_given(false, random, marks);
            "contents: bad user information"
        }
        _ => {
            contents.sheet = some_sheet(true, false, random, marks);
            "contents: bad proposal"
        }
    };
    marks.add(name);
    contents
}

pub fn good_ac_contents(random: &mut Random, marks: &mut Marks) -> AcContents {
    AcContents {
        echoed: random.bytes(64),
        application: good_name(random),
        user: some_given(true, random, marks),
        sheet: some_sheet(false, true, random, marks),
    }
}

/// AC fields with one bad part.
pub fn bad_ac_contents(random: &mut Random, marks: &mut Marks) -> AcContents {
    let mut contents = good_ac_contents(random, marks);
    let name = match random.below(8) {
        0 | 1 => {
            let length = random.pick(&[0, 1, 63, 63, 65, 65, 128]);
            contents.echoed = random.bytes(length);
            "contents: echoed bytes not 64"
        }
        2 => {
            contents.application = bad_name(random);
            "contents: bad application name of an AC"
        }
        3 | 4 => {
            contents.user = some_given(false, random, marks);
            "contents: bad user information of an AC"
        }
        _ => {
            contents.sheet = some_sheet(false, false, random, marks);
            "contents: bad answer"
        }
    };
    marks.add(name);
    contents
}

/// The marks of all sheet twists, for coverage.
pub fn twist_marks() -> Vec<String> {
    let sheets = [Twists::of_proposal(), Twists::of_answer(), Twists::of_asked(), Twists::of_site()];
    let refused = [Twists::of_refused("2"), Twists::of_refused("a")];
    sheets.iter().chain(&refused).flat_map(Twists::names).collect()
}
