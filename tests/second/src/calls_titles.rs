//! Title checks for the generator: own titles that are much alike, and each edge of a list or a sought title in turn.

use crate::contents::title_of_other_length;
use crate::generate::{hex, pairs, Generator};
use crate::make::{bad_title, good_title};
use crate::names::without_outer_spaces;
use crate::random::Random;

/// The turns are (length of the list, place) for a title that is known, else one of these manners with a number.
const NONE: u8 = 10;
const BAD_BEFORE: u8 = 11;
const BAD_BEHIND: u8 = 12;
const BAD_ALONE: u8 = 13;
const LIST_LENGTH: u8 = 14;
const SOUGHT_LENGTH: u8 = 15;
const BAD_SOUGHT: u8 = 16;
const ANY: u8 = 17;

/// Each place of each length, the ends of eight titles twice, and each number of the other manners.
pub fn title_turns() -> Vec<(u8, u8)> {
    let places = (1..=8).flat_map(|length| (0..length).map(move |place| (length, place)));
    let numbers = |manner: u8, count: usize| pairs(&[manner], &(0..count as u8).collect::<Vec<u8>>());
    let mut turns: Vec<(u8, u8)> = places.chain([(8, 0), (8, 7)]).collect();
    turns.extend(numbers(NONE, 11));
    turns.extend(numbers(BAD_BEFORE, FAULTS.len() + 1));
    turns.extend(numbers(BAD_BEHIND, FAULTS.len() + 1));
    turns.extend(numbers(BAD_ALONE, 3));
    turns.extend(numbers(LIST_LENGTH, LIST_LENGTHS.len()));
    turns.extend(numbers(SOUGHT_LENGTH, SOUGHT_LENGTHS.len()));
    turns.extend(numbers(BAD_SOUGHT, BAD_SOUGHTS.len()));
    turns.extend(numbers(ANY, 4));
    turns
}

/// The text of a title, without its outer spaces.
fn some_text(random: &mut Random) -> Vec<u8> {
    let listed: [&[u8]; 11] = [
        b"STORE-EQUINE",
        b"STORE-EXOTIC",
        b"Store Equine",
        b"AN  OTHER ONE",
        b"A",
        b"a~",
        b"A B",
        b"! [ ] ~",
        b"ABCDEFGHIJKLMNO",
        b"ABCDEFGHIJKLMNOP",
        b"a b c d e f  g h",
    ];
    if random.chance(15) {
        return full_text(random);
    }
    random.pick(&listed).to_vec()
}

/// A text of 16 characters.
fn full_text(random: &mut Random) -> Vec<u8> {
    let mut text: Vec<u8> = (0..16).map(|_| random.pick(b"ABCXYZabcxyz019-_.~! ")).collect();
    text[0] = random.pick(b"AZaz09!~");
    text[15] = random.pick(b"AZaz09!~");
    text
}

/// A text of fewer than 16 characters.
fn short_text(random: &mut Random) -> Vec<u8> {
    loop {
        let text = some_text(random);
        if text.len() < 16 {
            return text;
        }
    }
}

/// A text as a title, its spaces before it, behind it or on both sides.
fn laid_out(text: &[u8], random: &mut Random) -> Vec<u8> {
    let spare = 16 - text.len();
    let any = random.below(spare + 1);
    let mut title = vec![0x20; random.pick(&[0, 0, spare, any])];
    title.extend_from_slice(text);
    title.resize(16, 0x20);
    title
}

/// A title with its spaces elsewhere, where its text leaves any.
fn moved(text: &[u8], title: &[u8], random: &mut Random) -> Vec<u8> {
    loop {
        let other = laid_out(text, random);
        if other != title || text.len() == 16 {
            return other;
        }
    }
}

/// A title character other than a space and the given one.
fn other_character(character: u8, random: &mut Random) -> u8 {
    loop {
        let other = random.pick(&[0x21, 0x5b, 0x5d, 0x7e, character ^ 1, character ^ 0x20, character ^ 0x40]);
        if (0x21..=0x7e).contains(&other) && other != 0x5c && other != character {
            return other;
        }
    }
}

/// Another text, near a given one; None where that one allows no such change.
struct Near {
    name: &'static str,
    change: fn(&[u8], &mut Random) -> Option<Vec<u8>>,
}

static NEAR: &[Near] = &[
    Near { name: "another character", change: |text, random| Some(changed_at(text, random.below(text.len()), random)) },
    Near {
        name: "another case",
        change: |text, random| {
            let letters: Vec<usize> = (0..text.len()).filter(|i| text[*i].is_ascii_alphabetic()).collect();
            let mut other = text.to_vec();
            other[*letters.get(random.below(letters.len()))?] ^= 0x20;
            Some(other)
        },
    },
    Near {
        name: "an inner space more",
        change: |text, random| {
            let mut other = text.to_vec();
            if text.len() < 2 || text.len() > 15 {
                return None;
            }
            other.insert(random.between(1, text.len() - 1), 0x20);
            Some(other)
        },
    },
    Near {
        name: "an inner space less",
        change: |text, random| {
            let spaces: Vec<usize> = (0..text.len()).filter(|i| text[*i] == 0x20).collect();
            let mut other = text.to_vec();
            other.remove(*spaces.get(random.below(spaces.len()))?);
            Some(other)
        },
    },
    Near {
        name: "a beginning",
        change: |text, random| {
            let left = random.pick(&[1, text.len() / 2, text.len() - 1]);
            Some(without_outer_spaces(&text[..left]).to_vec())
                .filter(|other| !other.is_empty() && other.len() < text.len())
        },
    },
    Near {
        name: "an end",
        change: |text, random| {
            let from = random.pick(&[1, text.len() / 2, text.len() - 1]);
            Some(without_outer_spaces(&text[from..]).to_vec())
                .filter(|other| !other.is_empty() && other.len() < text.len())
        },
    },
    Near { name: "a character more behind", change: |text, _| Some([text, b"~"].concat()).filter(|t| t.len() <= 16) },
    Near { name: "a character more before", change: |text, _| Some([b"!", text].concat()).filter(|t| t.len() <= 16) },
];

fn changed_at(text: &[u8], place: usize, random: &mut Random) -> Vec<u8> {
    let mut other = text.to_vec();
    other[place] = other_character(text[place], random);
    other
}

/// Faults of a title of 16 bytes.
const FAULTS: [&str; 7] = ["16 spaces", "16 NULs", "NULs behind", "5CH", "7FH", "below 20H", "above 7FH"];

/// A title with a fault, else with the given text.
fn bad_by(fault: usize, text: &[u8], random: &mut Random) -> Vec<u8> {
    let mut title = laid_out(text, random);
    let any = random.below(16);
    let place = random.pick(&[0, 15, any, any]);
    match fault {
        0 => title.fill(0x20),
        1 => title.fill(0),
        2 => {
            title = text[..text.len().min(15)].to_vec();
            title.resize(16, 0);
        }
        3 => title[place] = 0x5c,
        4 => title[place] = 0x7f,
        5 => title[place] = random.pick(&[0, 0x09, 0x0a, 0x1f]),
        _ => title[place] = random.pick(&[0x80, 0xa0, 0xff, title[place] | 0x80]),
    }
    title
}

/// Lists that are not 0 to 8 whole titles: how many titles, and how many bytes more or less.
const LIST_LENGTHS: [(usize, isize); 12] =
    [(9, 0), (9, 0), (16, 0), (256, 0), (264, 0), (1, 1), (7, 15), (8, 1), (8, -1), (1, -1), (9, -1), (0, 8)];

/// Sought titles of other than 16 bytes.
const SOUGHT_LENGTHS: [&str; 9] =
    ["empty", "a space less", "a space more", "text alone", "twice", "a NUL more", "272 bytes", "no list", "bad list"];

/// Sought titles of 16 bytes that no RQ may hold.
const BAD_SOUGHTS: [&str; 9] = [
    "16 spaces",
    "16 NULs",
    "NULs behind",
    "5CH",
    "7FH",
    "below 20H",
    "above 7FH",
    "16 spaces and no list",
    "a tab for a space",
];

impl Generator {
    pub fn call_t(&mut self) {
        let (manner, number) = self.titles.take();
        let number = number as usize;
        match manner {
            NONE => self.none_known(number),
            BAD_BEFORE => self.bad_and_known(number, true),
            BAD_BEHIND => self.bad_and_known(number, false),
            BAD_ALONE => self.bad_and_none(number),
            LIST_LENGTH => self.list_length(number),
            SOUGHT_LENGTH => self.sought_length(number),
            BAD_SOUGHT => self.bad_sought(number),
            ANY => self.any_titles(),
            length => self.known(length as usize, number),
        }
    }

    fn say_titles(&mut self, own: &[Vec<u8>], sought: &[u8]) {
        self.say(format!("T {} {}", hex(&own.concat()), hex(sought)));
    }

    /// A title with a text near the given one.
    fn near_title(&mut self, text: &[u8]) -> Vec<u8> {
        loop {
            let near = &NEAR[self.random.below(NEAR.len())];
            if let Some(other) = (near.change)(text, &mut self.random) {
                self.mark(&format!("T: near by {}", near.name));
                return laid_out(&other, &mut self.random);
            }
        }
    }

    fn near_titles(&mut self, count: usize, text: &[u8]) -> Vec<Vec<u8>> {
        (0..count).map(|_| self.near_title(text)).collect()
    }

    /// A title equal to the sought one, more often than not with its spaces elsewhere.
    fn equal_title(&mut self, text: &[u8], sought: &[u8]) -> Vec<u8> {
        if self.random.chance(65) {
            moved(text, sought, &mut self.random)
        } else {
            sought.to_vec()
        }
    }

    /// Titles near the sought one before the place; behind it, more often than not, one that is equal once more.
    fn known(&mut self, length: usize, place: usize) {
        let text = some_text(&mut self.random);
        let sought = laid_out(&text, &mut self.random);
        let mut own = self.near_titles(length, &text);
        own[place] = self.equal_title(&text, &sought);
        self.mark(if own[place] == sought { "T: known as it stands" } else { "T: known once outer spaces go" });
        if place + 1 < length && self.random.chance(65) {
            let again = self.random.between(place + 1, length - 1);
            own[again] = self.equal_title(&text, &sought);
            self.mark(if own[again] == own[place] { "T: again, same bytes" } else { "T: again, other spaces" });
        }
        self.say_titles(&own, &sought);
    }

    /// No title is equal. By the numbers 8 and 9 each differs in one of the 16 characters, by others it is near.
    fn none_known(&mut self, number: usize) {
        let one_character = number == 8 || number == 9;
        let text = if one_character { full_text(&mut self.random) } else { some_text(&mut self.random) };
        let sought = laid_out(&text, &mut self.random);
        let mut own = if one_character {
            let first = 8 * (number - 8);
            (first..first + 8).map(|place| changed_at(&text, place, &mut self.random)).collect()
        } else {
            self.near_titles(number.min(8), &text)
        };
        self.random.shuffle(&mut own);
        self.mark(&format!("T: none of {}", own.len()));
        self.say_titles(&own, &sought);
    }

    /// A bad title before or behind one that is equal; with the last number they are the ends of eight.
    fn bad_and_known(&mut self, number: usize, before: bool) {
        let any = self.random.below(FAULTS.len());
        let fault = if number < FAULTS.len() { number } else { any };
        let length = if number < FAULTS.len() { self.random.between(2, 8) } else { 8 };
        let (mut first, mut last) = (0, length - 1);
        if number < FAULTS.len() {
            first = self.random.below(length - 1);
            last = self.random.between(first + 1, length - 1);
        }
        let (bad, known) = if before { (first, last) } else { (last, first) };
        let text = some_text(&mut self.random);
        let sought = laid_out(&text, &mut self.random);
        let mut own = self.near_titles(length, &text);
        own[known] = self.equal_title(&text, &sought);
        own[bad] = bad_by(fault, &text, &mut self.random);
        self.mark(&format!("T: bad {} known: {}", if before { "before" } else { "behind" }, FAULTS[fault]));
        self.say_titles(&own, &sought);
    }

    /// A bad title, and none is equal: alone, among others, or sought itself.
    fn bad_and_none(&mut self, number: usize) {
        let text = some_text(&mut self.random);
        let length = if number == 0 { 1 } else { self.random.between(2, 8) };
        let mut own = self.near_titles(length, &text);
        let bad = self.random.below(length);
        let fault = self.random.below(FAULTS.len());
        own[bad] = bad_by(fault, &text, &mut self.random);
        let sought = if number == 2 { own[bad].clone() } else { laid_out(&text, &mut self.random) };
        self.mark(["T: bad alone", "T: bad among others", "T: bad and sought"][number]);
        self.say_titles(&own, &sought);
    }

    /// Too many titles or a part record, though one is equal: the first of them, the last or another.
    fn list_length(&mut self, number: usize) {
        let (count, more) = LIST_LENGTHS[number];
        let text = short_text(&mut self.random);
        let mut sought = text.clone();
        sought.resize(16, 0x20);
        let mut own = self.near_titles(count, &text);
        let any = self.random.below(count.max(1));
        let places = [0, count.max(1) - 1, any];
        let place = if number < 2 { places[number] } else { self.random.pick(&places) };
        if let Some(title) = own.get_mut(place) {
            *title = sought.clone();
        }
        let mut list = own.concat();
        if more < 0 {
            list.truncate(list.len() - more.unsigned_abs());
        } else {
            list.extend_from_slice(&sought[..more.unsigned_abs()]);
        }
        self.mark(&format!("T: {} titles and {} bytes", count, more));
        self.say_titles(&[list], &sought);
    }

    /// A sought title of other than 16 bytes that is equal to an own one once outer spaces go, or nearly.
    fn sought_length(&mut self, number: usize) {
        let text = short_text(&mut self.random);
        let mut title = text.clone();
        title.resize(16, 0x20);
        let length = self.random.between(1, 8);
        let mut own = self.near_titles(length, &text);
        own[self.random.below(length)] = title.clone();
        let mut sought = title.clone();
        match number {
            0 => sought.clear(),
            1 => sought.truncate(15),
            2 => sought.push(0x20),
            3 => sought = text,
            4 => sought = title.repeat(2),
            5 => sought.push(0),
            6 => sought.resize(272, 0x20),
            7 => {
                own.clear();
                sought.truncate(15);
            }
            _ => {
                own[0] = vec![0x20; 16];
                sought.push(0x20);
            }
        }
        self.mark(&format!("T: sought of other length: {}", SOUGHT_LENGTHS[number]));
        self.say_titles(&own, &sought);
    }

    /// A sought title that is not valid is none of a good list, whatever is near it there.
    fn bad_sought(&mut self, number: usize) {
        let text = short_text(&mut self.random);
        let length = self.random.between(1, 8);
        let mut own = self.near_titles(length, &text);
        own[self.random.below(length)] = laid_out(&text, &mut self.random);
        let sought = match number {
            7 => {
                own.clear();
                vec![0x20; 16]
            }
            8 => {
                let mut title = text.clone();
                title.push(0x09);
                title.resize(16, 0x20);
                title
            }
            fault => bad_by(fault, &text, &mut self.random),
        };
        self.mark(&format!("T: bad sought: {}", BAD_SOUGHTS[number]));
        self.say_titles(&own, &sought);
    }

    /// Any titles, some of them bad, and a sought one that is often among them.
    fn any_titles(&mut self) {
        let count = self.random.below(10);
        let mut own: Vec<Vec<u8>> = (0..count).map(|_| good_title(&mut self.random)).collect();
        if count > 0 && self.random.chance(20) {
            let place = self.random.below(count);
            own[place] = bad_title(&mut self.random);
        }
        let sought = match self.random.below(8) {
            0 => title_of_other_length(&mut self.random),
            1 => bad_title(&mut self.random),
            2..=6 if count > 0 => self.random.pick(&own),
            _ => good_title(&mut self.random),
        };
        self.mark("T: any");
        self.say_titles(&own, &sought);
    }
}

/// The marks of all title checks, for coverage.
pub fn title_marks() -> Vec<String> {
    let mut marks: Vec<String> = NEAR.iter().map(|near| format!("T: near by {}", near.name)).collect();
    marks.extend((0..=8).map(|length| format!("T: none of {}", length)));
    marks.extend(FAULTS.iter().flat_map(|f| ["before", "behind"].map(|side| format!("T: bad {} known: {}", side, f))));
    marks.extend(LIST_LENGTHS.iter().map(|(count, more)| format!("T: {} titles and {} bytes", count, more)));
    marks.extend(SOUGHT_LENGTHS.iter().map(|name| format!("T: sought of other length: {}", name)));
    marks.extend(BAD_SOUGHTS.iter().map(|name| format!("T: bad sought: {}", name)));
    let others = ["known as it stands", "known once outer spaces go", "again, same bytes", "again, other spaces"];
    let bad = ["bad alone", "bad among others", "bad and sought", "any"];
    marks.extend(others.iter().chain(&bad).map(|name| format!("T: {}", name)));
    marks
}
