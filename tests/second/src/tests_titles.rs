//! Tests of the title check: the first equal place, lists tested whole, wrong rules; and what the generator reaches.

use std::collections::BTreeMap;

use crate::calls_titles::title_marks;
use crate::generate::{hex, Generator};
use crate::names::{title_is_valid, title_place, titles_equal, without_outer_spaces};
use crate::replay::Replay;
use crate::tests::bytes_of;

const EQUINE: &[u8] = b"STORE-EQUINE    ";
const EXOTIC: &[u8] = b"STORE-EXOTIC    ";

/// A full list, no two of its titles equal.
const EIGHT: [[u8; 16]; 8] = [
    *b"STORE-EQUINE    ",
    *b"STORE-EXOTIC    ",
    *b"    STORE-AVIAN ",
    *b"               A",
    *b"A              B",
    *b"ABCDEFGHIJKLMNOP",
    *b" store-equine   ",
    *b"STORE EQUINE   ~",
];

/// Titles of 16 bytes, each with one fault.
fn bad_titles() -> Vec<Vec<u8>> {
    let mut bad = vec![vec![0x20; 16], vec![0; 16], b"STORE-EQUINE\0\0\0\0".to_vec()];
    for place in 0..16 {
        for byte in [0x00, 0x1f, 0x5c, 0x7f, 0x80, 0xff] {
            let mut title = b"ABCDEFGHIJKLMNOP".to_vec();
            title[place] = byte;
            bad.push(title);
        }
    }
    bad
}

/// A list of so many titles with some of them set.
fn list(length: usize, set: &[(usize, &[u8])]) -> Vec<u8> {
    let mut own: Vec<Vec<u8>> = (0..length).map(|place| format!("OTHER STORE {:<4}", place).into_bytes()).collect();
    for (place, title) in set {
        own[*place] = title.to_vec();
    }
    own.concat()
}

// The place.

#[test]
fn each_place_of_each_length() {
    for length in 0..=8 {
        let own = EIGHT[..length].concat();
        for (place, title) in EIGHT.iter().enumerate() {
            let expected = if place < length { Some(place) } else { None };
            assert_eq!(title_place(&own, title), Ok(expected), "{} of {}", place, length);
        }
    }
}

#[test]
fn the_first_of_several() {
    for first in 0..8 {
        for second in first + 1..8 {
            for again in [EQUINE, b" STORE-EQUINE   ", b"    STORE-EQUINE"] {
                for sought in [EQUINE, again] {
                    let own = list(8, &[(first, EQUINE), (second, again), (7, EQUINE)]);
                    assert_eq!(title_place(&own, sought), Ok(Some(first)));
                    let own = list(8, &[(second, EQUINE), (first, again)]);
                    assert_eq!(title_place(&own, sought), Ok(Some(first)));
                }
            }
        }
    }
    assert_eq!(title_place(&EQUINE.repeat(8), EQUINE), Ok(Some(0)));
    assert_eq!(title_place(&list(8, &[(7, EQUINE)]), b"    STORE-EQUINE"), Ok(Some(7)));
}

#[test]
fn none() {
    assert_eq!(title_place(&[], EQUINE), Ok(None));
    for length in 1..=8 {
        assert_eq!(title_place(&list(length, &[]), EQUINE), Ok(None));
        assert_eq!(title_place(&EXOTIC.repeat(length), EQUINE), Ok(None));
    }
}

#[test]
fn case_4_by_place() {
    assert_eq!(title_place(b"STORE-EXOTIC     STORE-EQUINE   ", EQUINE), Ok(Some(1)));
    assert_eq!(title_place(b" STORE-EQUINE   STORE-EXOTIC    ", EQUINE), Ok(Some(0)));
    assert_eq!(title_place(b" STORE-EQUINE   STORE-EXOTIC    ", b"STORE-AVIAN     "), Ok(None));
    assert!(titles_equal(b"", b"   ") && titles_equal(b"A", b" A ") && !titles_equal(b"A\0", b"A"));
}

#[test]
fn titles_that_differ_in_one_of_16_characters() {
    let sought = b"ABCDEFGHIJKLMNOP";
    for place in 0..16 {
        for byte in (0x20..=0x7e).filter(|byte| *byte != 0x5c && *byte != sought[place]) {
            let mut other = *sought;
            other[place] = byte;
            assert_eq!(title_place(&other, sought), Ok(None));
            assert_eq!(title_place(sought, &other), Ok(None));
            assert_eq!(title_place(&[other, *sought].concat(), sought), Ok(Some(1)));
        }
    }
}

#[test]
fn titles_much_alike() {
    let title = |text: &str| format!("{:<16}", text).into_bytes();
    let texts =
        ["AN OTHER", "AN  OTHER", "ANOTHER", "AN", "AN OTHE", "N OTHER", "AN OTHER~", "an other", "AN oTHER", "A"];
    for (one, text) in texts.iter().enumerate() {
        for (other, near) in texts.iter().enumerate() {
            let expected = if one == other { Some(0) } else { None };
            assert_eq!(title_place(&title(near), &title(text)), Ok(expected), "{} {}", near, text);
            let expected = if one == other { Some(0) } else { Some(1) };
            assert_eq!(title_place(&[title(near), title(text)].concat(), &title(text)), Ok(expected));
        }
    }
}

// Refusals.

#[test]
fn the_list_is_tested_whole_before_it_is_searched() {
    for bad in bad_titles() {
        for length in [1, 2, 5, 8] {
            for at in 0..length {
                assert_eq!(title_place(&list(length, &[(at, &bad)]), EQUINE), Err(4));
                assert_eq!(title_place(&list(length, &[(at, &bad)]), &bad), Err(4));
                for known in (0..length).filter(|known| *known != at) {
                    assert_eq!(title_place(&list(length, &[(at, &bad), (known, EQUINE)]), EQUINE), Err(4));
                }
            }
        }
    }
}

#[test]
fn lengths_of_the_list() {
    let own = EQUINE.repeat(20);
    for length in 1..=own.len() {
        let expected = if length % 16 == 0 && length <= 128 { Ok(Some(0)) } else { Err(4) };
        assert_eq!(title_place(&own[..length], EQUINE), expected, "{} bytes", length);
    }
    for count in [255, 256, 257, 264, 1_000, 4_096, 65_536, 65_544] {
        assert_eq!(title_place(&EQUINE.repeat(count), EQUINE), Err(4), "{} titles", count);
    }
    assert_eq!(title_place(&list(9, &[(8, EQUINE)]), EQUINE), Err(4));
}

#[test]
fn lengths_of_the_sought_title() {
    for length in (0..=70).chain([256, 272, 4_096, 65_552]).filter(|length| *length != 16) {
        let mut sought = EQUINE.to_vec();
        sought.resize(length, 0x20);
        assert_eq!(title_place(EQUINE, &sought), Err(4), "{} bytes", length);
        assert_eq!(title_place(&[], &sought), Err(4), "{} bytes", length);
    }
}

#[test]
fn a_sought_title_that_is_not_valid_is_none() {
    for sought in bad_titles() {
        assert_eq!(title_place(&EIGHT.concat(), &sought), Ok(None));
        assert_eq!(title_place(&[], &sought), Ok(None));
    }
}

#[test]
fn lines_of_t() {
    let mut replay = Replay::new();
    let mut answer = |own: &[u8], sought: &[u8]| {
        let answer = replay.answer(&format!("T {} {}", hex(own), hex(sought)));
        (answer, replay.last.refusal, replay.last.place)
    };
    assert_eq!(answer(&EIGHT.concat(), &EIGHT[0]), ("0 1 0".to_string(), 0, Some(0)));
    assert_eq!(answer(&EIGHT.concat(), &EIGHT[7]), ("0 1 7".to_string(), 0, Some(7)));
    assert_eq!(answer(&EIGHT[..7].concat(), &EIGHT[7]), ("0 0 0".to_string(), 0, None));
    assert_eq!(answer(&[], EQUINE), ("0 0 0".to_string(), 0, None));
    assert_eq!(answer(&EQUINE.repeat(9), EQUINE), ("4 0 0".to_string(), 4, None));
    assert_eq!(answer(&list(8, &[(0, EQUINE), (7, &[0; 16])]), EQUINE), ("4 0 0".to_string(), 4, None));
    assert_eq!(answer(&[], &[]), ("4 0 0".to_string(), 4, None));
    for bad in ["T", "T -", "T - - -", "T - 0", "T 4 -", "T - - 0"] {
        assert_eq!(replay.answer(bad), "?", "{}", bad);
    }
}

// Rules that are wrong.

type Found = Result<Option<usize>, u8>;

/// Refused as it should be, but searched with another equality.
fn by(own: &[u8], sought: &[u8], equal: &dyn Fn(&[u8], &[u8]) -> bool) -> Found {
    title_place(own, sought)?;
    Ok(own.chunks(16).position(|title| equal(title, sought)))
}

/// Searched with another equality of the texts.
fn by_texts(own: &[u8], sought: &[u8], equal: &dyn Fn(&[u8], &[u8]) -> bool) -> Found {
    by(own, sought, &|one, other| equal(without_outer_spaces(one), without_outer_spaces(other)))
}

fn without_spaces(text: &[u8]) -> Vec<u8> {
    text.iter().copied().filter(|byte| *byte != 0x20).collect()
}

fn first_six(text: &[u8]) -> &[u8] {
    &text[..text.len().min(6)]
}

fn words(title: &[u8]) -> String {
    title.iter().map(|byte| *byte as char).collect()
}

/// A wrong rule: its name and what it answers.
type Wrong = (&'static str, fn(&[u8], &[u8]) -> Found);

static WRONG: &[Wrong] = &[
    ("the last equal place", |own, sought| {
        title_place(own, sought)?;
        Ok(own.chunks(16).rposition(|title| titles_equal(title, sought)))
    }),
    ("counted from 1", |own, sought| Ok(title_place(own, sought)?.map(|place| place + 1))),
    ("counted in bytes", |own, sought| Ok(title_place(own, sought)?.map(|place| 16 * place))),
    ("counted from the end", |own, sought| Ok(title_place(own, sought)?.map(|place| own.len() / 16 - 1 - place))),
    ("found before a bad title behind is refused", |own, sought| {
        let good = own.chunks(16).take_while(|title| title_is_valid(title)).count();
        match title_place(&own[..16 * good], sought) {
            Ok(Some(place)) => Ok(Some(place)),
            _ => title_place(own, sought),
        }
    }),
    ("bad titles before are passed over", |own, sought| {
        let bad = own.chunks(16).take_while(|title| !title_is_valid(title)).count();
        Ok(title_place(own.get(16 * bad..).unwrap_or(&[]), sought)?.map(|place| place + bad))
    }),
    ("the eighth is not reached", |own, sought| Ok(title_place(own, sought)?.filter(|place| *place < 7))),
    ("none is place 0", |own, sought| Ok(title_place(own, sought)?.or(Some(0)))),
    ("refused is none", |own, sought| Ok(title_place(own, sought).unwrap_or(None))),
    ("nine titles are taken", |own, sought| match own.len() {
        144 => {
            title_place(&own[128..], sought)?;
            Ok(title_place(&own[..128], sought)?.or(title_place(&own[128..], sought)?.map(|place| place + 8)))
        }
        _ => title_place(own, sought),
    }),
    ("titles behind the eighth are left out", |own, sought| title_place(&own[..own.len().min(128)], sought)),
    ("a part record is left out", |own, sought| title_place(&own[..own.len() / 16 * 16], sought)),
    ("a part record is filled up with spaces", |own, sought| {
        title_place(&[own, &vec![0x20; (16 - own.len() % 16) % 16]].concat(), sought)
    }),
    ("an empty list is refused", |own, sought| if own.is_empty() { Err(4) } else { title_place(own, sought) }),
    (
        "a bad sought title is refused",
        |own, sought| {
            if title_is_valid(sought) {
                title_place(own, sought)
            } else {
                Err(4)
            }
        },
    ),
    ("a sought title of any length", |own, sought| {
        title_place(own, EQUINE)?;
        Ok(own.chunks(16).position(|title| titles_equal(title, sought)))
    }),
    ("six characters", |own, sought| by_texts(own, sought, &|one, other| first_six(one) == first_six(other))),
    ("with their spaces", |own, sought| by(own, sought, &|one, other| one == other)),
    ("spaces before count", |own, sought| {
        by(own, sought, &|one, other| words(one).trim_end_matches(' ') == words(other).trim_end_matches(' '))
    }),
    ("spaces behind count", |own, sought| {
        by(own, sought, &|one, other| words(one).trim_start_matches(' ') == words(other).trim_start_matches(' '))
    }),
    ("NULs go like spaces", |own, sought| {
        by(own, sought, &|one, other| words(one).trim_matches([' ', '\0']) == words(other).trim_matches([' ', '\0']))
    }),
    ("case left out", |own, sought| by_texts(own, sought, &|one, other| one.eq_ignore_ascii_case(other))),
    ("inner spaces left out", |own, sought| {
        by_texts(own, sought, &|one, other| without_spaces(one) == without_spaces(other))
    }),
    ("a beginning is enough", |own, sought| by_texts(own, sought, &|one, other| other.starts_with(one))),
    ("a longer one is enough", |own, sought| by_texts(own, sought, &|one, other| one.starts_with(other))),
    ("an end is enough", |own, sought| by_texts(own, sought, &|one, other| other.ends_with(one))),
    ("the length of the text alone", |own, sought| by_texts(own, sought, &|one, other| one.len() == other.len())),
];

/// One character of the text is not compared.
fn but_one(place: usize, own: &[u8], sought: &[u8]) -> Found {
    by_texts(own, sought, &|one, other| {
        one.len() == other.len() && (0..one.len()).all(|i| i == place || one[i] == other[i])
    })
}

// Generated calls.

/// The own titles, the sought one and the answer of each T among so many calls, and the generator with its marks.
fn generated(seed: u64, count: usize) -> (Vec<(Vec<u8>, Vec<u8>, String)>, Generator) {
    let mut generator = Generator::new(seed);
    let calls: Vec<(String, String)> =
        (0..count).map(|_| generator.next()).map(|call| (call.line, call.answer)).collect();
    let checks = calls.into_iter().filter(|(line, _)| line.starts_with("T ") && line.split(' ').count() == 3);
    let checks = checks.map(|(line, answer)| {
        let words: Vec<&str> = line.split(' ').collect();
        (bytes_of(words[1]), bytes_of(words[2]), answer)
    });
    (checks.collect(), generator)
}

/// The papers once more: the answer's line from the bytes, the list walked from its end.
fn judged(own: &[u8], sought: &[u8]) -> String {
    let is_bad = |title: &[u8]| title.iter().any(|b| *b < 32 || *b > 126 || *b == 92) || title == [32; 16];
    if sought.len() != 16 || own.len() > 128 || own.len() % 16 != 0 || own.chunks(16).any(is_bad) {
        return "4 0 0".to_string();
    }
    let mut answer = "0 0 0".to_string();
    for place in (0..own.len() / 16).rev() {
        if words(&own[16 * place..16 * (place + 1)]).trim_matches(' ') == words(sought).trim_matches(' ') {
            answer = format!("0 1 {}", place);
        }
    }
    answer
}

#[test]
fn generated_calls_judged_from_their_bytes() {
    for seed in [2, 31] {
        for (own, sought, answer) in generated(seed, 6_000).0 {
            assert_eq!(answer, judged(&own, &sought), "{} {}", hex(&own), hex(&sought));
        }
    }
}

/// The edges that a title check shows, from its bytes.
fn edges(own: &[u8], sought: &[u8]) -> Vec<String> {
    let titles: Vec<&[u8]> = own.chunks(16).collect();
    let at = |test: &dyn Fn(&[u8]) -> bool| -> Vec<usize> { (0..titles.len()).filter(|i| test(titles[*i])).collect() };
    let bad = at(&|title| title.len() == 16 && !title_is_valid(title));
    let equal = at(&|title| title.len() == 16 && titles_equal(title, sought));
    let with = if equal.is_empty() { "none" } else { "known" };
    if own.len() % 16 != 0 {
        return vec![format!("part record, {}", with)];
    }
    if titles.len() > 8 {
        let ninth = if titles.len() == 9 { "nine titles" } else { "more than nine" };
        let only = if equal == [8] { ", the ninth" } else { "" };
        return vec![format!("{}, {}{}", ninth, with, only)];
    }
    if sought.len() != 16 {
        return vec![format!("sought of other length, {}", with)];
    }
    match (&equal[..], &bad[..]) {
        ([], []) if title_is_valid(sought) => vec![format!("none of {}", titles.len())],
        ([], []) => vec!["bad sought".to_string()],
        ([], _) => vec!["bad, none".to_string()],
        ([place], []) => {
            let stands = if titles[*place] == sought { "as it stands" } else { "once spaces go" };
            vec![format!("{} of {}", place, titles.len()), stands.to_string()]
        }
        ([place, .., last], []) => {
            let same = if titles[*place] == titles[*last] { "same bytes" } else { "other spaces" };
            vec![format!("{} of {}", place, titles.len()), format!("first of several, {}", same)]
        }
        ([place, ..], [fault, ..]) => {
            let ends = (*place, *fault) == (0, 7) || (*place, *fault) == (7, 0);
            let side = if fault < place { "bad before known" } else { "bad behind known" };
            vec![side.to_string(), format!("{}{}", side, if ends { ", ends of eight" } else { ", inside" })]
        }
    }
}

fn expected_edges() -> Vec<String> {
    let places = (1..=8).flat_map(|length| (0..length).map(move |place| format!("{} of {}", place, length)));
    let others = [
        "as it stands",
        "once spaces go",
        "first of several, same bytes",
        "first of several, other spaces",
        "bad before known, ends of eight",
        "bad before known, inside",
        "bad behind known, ends of eight",
        "bad behind known, inside",
        "bad, none",
        "bad sought",
        "nine titles, known",
        "nine titles, known, the ninth",
        "more than nine, known",
        "part record, known",
        "part record, none",
        "sought of other length, known",
        "sought of other length, none",
    ];
    let others = others.iter().map(|name| name.to_string());
    (0..=8).map(|length| format!("none of {}", length)).chain(places).chain(others).collect()
}

#[test]
fn every_edge_is_generated() {
    for seed in [2, 1, 8] {
        let (checks, generator) = generated(seed, 6_000);
        assert!((90..=150).contains(&checks.len()), "{}", checks.len());
        let mut met: BTreeMap<String, u32> = BTreeMap::new();
        for edge in checks.iter().flat_map(|(own, sought, _)| edges(own, sought)) {
            *met.entry(edge).or_insert(0) += 1;
        }
        for edge in expected_edges() {
            assert!(met.contains_key(&edge), "seed {}: {}", seed, edge);
        }
        for mark in title_marks() {
            assert!(generator.marks.count(&mark) > 0, "seed {}: {}", seed, mark);
        }
    }
}

#[test]
fn every_wrong_rule_is_seen() {
    for seed in [2, 1, 8] {
        let checks = generated(seed, 6_000).0;
        for (name, wrong) in WRONG {
            let differs = |own: &[u8], sought: &[u8]| wrong(own, sought) != title_place(own, sought);
            assert!(checks.iter().any(|(own, sought, _)| differs(own, sought)), "seed {}: {}", seed, name);
        }
        for place in 0..16 {
            let differs = |own: &[u8], sought: &[u8]| but_one(place, own, sought) != title_place(own, sought);
            assert!(checks.iter().any(|(own, sought, _)| differs(own, sought)), "seed {}: {}", seed, place);
        }
    }
}
