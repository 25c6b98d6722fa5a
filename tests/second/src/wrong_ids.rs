//! The search for an ID that comes twice, once more, by the papers but for one rule, by its name; "" is no such rule.

use std::collections::BTreeSet;

use crate::ids::Place;

/// Rules of every search.
pub static SEARCHING: &[&str] = &[
    // What is compared.
    "equal IDs are taken",
    "only neighbours are compared",
    "neighbours are not compared",
    "only the first is compared with the others",
    "only the last is compared with the others",
    "the first is not compared",
    "the last is not compared",
    "only the greatest so far is compared",
    "IDs must rise",
    "only the third counts",
    "only the first 64 are searched",
    "only the first 127 are searched",
    "only the first 128 are searched",
    // What is kept of the marks.
    "marks are forgotten after 64",
    "marks are forgotten after 127",
    "a mark replaces those of its word",
    "a mark clears the other words",
    "the marks of the call before are kept",
    // IDs that share a mark.
    "255 and 1 share a mark",
    "127 and 255 share a mark",
    "IDs are marked modulo 64",
    "bit 1 of an ID is not looked at",
    "bit 2 of an ID is not looked at",
    "bit 3 of an ID is not looked at",
    "bit 4 of an ID is not looked at",
    "bit 5 of an ID is not looked at",
    "bit 6 of an ID is not looked at",
    "bit 7 of an ID is not looked at",
    "words 0 and 1 share their marks",
    "words 0 and 2 share their marks",
    "words 0 and 3 share their marks",
    "words 1 and 2 share their marks",
    "words 1 and 3 share their marks",
    "words 2 and 3 share their marks",
    // IDs that have none.
    "word 0 is not marked",
    "word 1 is not marked",
    "word 2 is not marked",
    "word 3 is not marked",
    "the top bit of a word is not marked",
    "the lowest odd bit of a word is not marked",
    "1 is not marked",
    "255 is not marked",
];

/// Rules of a PDU's items.
static OF_PDUS: &[&str] = &[
    "equal ones are taken",
    "equal IDs of unequal ones are taken",
    "the other kind counts",
    "the other kind is marked",
    "the other kind is looked up",
    "the first byte of a skipped item counts",
    "a context inside a skipped item counts",
    "a context inside a context counts",
];

/// Rules of an AC's contexts and an answer's records.
static OF_RESULTS: &[&str] = &[
    "refused ones are not marked",
    "refused ones are not looked up",
    "accepted ones are not marked",
    "accepted ones are not looked up",
    "refused and accepted ones are searched apart",
];

/// Rules of a proposal's runs.
static OF_RUNS: &[&str] = &[
    "the second record of a run is a repeat",
    "a run goes on under another name",
    "a run goes on under another ID",
    "a second run of the same name is taken",
    "a second run of another name is taken",
    "a run of one is not marked",
    "a run of one is not looked up",
    "a run of several is not marked",
    "a run of several is not looked up",
    "more than 128 records are refused",
];

static OF_ANSWERS: &[&str] =
    &["equal ones are taken", "equal IDs of unequal ones are taken", "equal IDs side by side are a run"];

static OF_CHOOSING: &[&str] = &["the IDs of the site's sheet are searched"];

/// The wrong rules that a place can show.
pub fn rules(place: Place) -> Vec<&'static str> {
    let own: &[&[&str]] = match place {
        Place::Rq => &[OF_PDUS],
        Place::Ac => &[OF_PDUS, OF_RESULTS],
        Place::Sent => &[OF_RUNS],
        Place::Asked => &[OF_RUNS, OF_CHOOSING],
        Place::Answer => &[OF_ANSWERS, OF_RESULTS],
    };
    SEARCHING.iter().chain(own.iter().copied().flatten()).copied().collect()
}

/// What an ID was found in.
#[derive(Clone, Copy, Debug, PartialEq)]
pub enum Sort {
    /// What counts by the papers: a context of the PDU's kind, a record.
    Counted,
    OtherKind,
    Skipped,
    InsideSkipped,
    InsideContext,
}

/// An ID with what a wrong rule may look at beside it; `rest` is a proposal's abstract name, else all behind the ID.
#[derive(Clone, Debug)]
pub struct Seen {
    pub id: u8,
    pub sort: Sort,
    pub refused: bool,
    pub rest: Vec<u8>,
    /// Of how many records a run is.
    pub records: usize,
}

/// The runs of a proposal's records.
pub fn runs(records: &[Seen], wrong: &str) -> Vec<Seen> {
    let mut runs: Vec<Seen> = Vec::new();
    for record in records {
        let goes_on = runs.last().is_some_and(|run| match wrong {
            "the second record of a run is a repeat" => false,
            "a run goes on under another name" | "equal IDs side by side are a run" => run.id == record.id,
            "a run goes on under another ID" => run.rest == record.rest,
            _ => run.id == record.id && run.rest == record.rest,
        });
        match runs.last_mut() {
            Some(run) if goes_on => run.records += 1,
            _ => runs.push(record.clone()),
        }
    }
    runs
}

/// The mark that an ID falls on, None for none.
fn mark(id: u8, wrong: &str) -> Option<u8> {
    let (word, bit) = (id / 64, id % 64);
    let (rule, numbers) = split_numbers(wrong);
    match (rule.as_str(), &numbers[..]) {
        ("# and # share a mark", [one, other]) if id == *one => Some(*other),
        ("bit # of an ID is not looked at", [place]) => Some(id & !(1 << place)),
        ("IDs are marked modulo #", [count]) => Some(id % count),
        ("words # and # share their marks", [one, other]) if word == *one => Some(64 * other + bit),
        ("word # is not marked", [none]) if word == *none => None,
        ("# is not marked", [none]) if id == *none => None,
        ("the top bit of a word is not marked", _) if bit == 63 => None,
        ("the lowest odd bit of a word is not marked", _) if bit == 1 => None,
        _ => Some(id),
    }
}

/// A rule with # for each of its numbers.
fn split_numbers(wrong: &str) -> (String, Vec<u8>) {
    let mut numbers = Vec::new();
    let words: Vec<&str> = wrong
        .split(' ')
        .map(|word| match word.parse() {
            Ok(number) => {
                numbers.push(number);
                "#"
            }
            Err(_) => word,
        })
        .collect();
    (words.join(" "), numbers)
}

fn differ(ids: &[u8]) -> bool {
    ids.iter().collect::<BTreeSet<_>>().len() == ids.len()
}

/// Whether a mark is found that is there already.
fn marked_twice(ids: &[u8], wrong: &str) -> bool {
    let mut marks: BTreeSet<u8> = BTreeSet::new();
    for id in ids {
        if marks.contains(id) {
            return true;
        }
        match wrong {
            "a mark replaces those of its word" => marks.retain(|mark| mark / 64 != id / 64),
            "a mark clears the other words" => marks.retain(|mark| mark / 64 == id / 64),
            _ => {}
        }
        marks.insert(*id);
    }
    false
}

/// Whether one of the IDs comes twice, by a rule of every search.
fn searched(ids: &[u8], before: &[u8], wrong: &str) -> bool {
    let first = |count: usize| &ids[..count.min(ids.len())];
    let (one, last) = (ids[0], ids[ids.len() - 1]);
    match wrong {
        "equal IDs are taken" => false,
        "only neighbours are compared" => ids.windows(2).any(|two| two[0] == two[1]),
        "neighbours are not compared" => (2..ids.len()).any(|at| ids[..at - 1].contains(&ids[at])),
        "only the first is compared with the others" => ids[1..].contains(&one),
        "only the last is compared with the others" => first(ids.len() - 1).contains(&last),
        "the first is not compared" => !differ(&ids[1..]),
        "the last is not compared" => !differ(first(ids.len() - 1)),
        "only the greatest so far is compared" => (1..ids.len()).any(|at| ids[..at].iter().max() == Some(&ids[at])),
        "IDs must rise" => ids.windows(2).any(|two| two[0] >= two[1]),
        "only the third counts" => ids.iter().any(|id| ids.iter().filter(|other| *other == id).count() > 2),
        "only the first 64 are searched" => !differ(first(64)),
        "only the first 127 are searched" => !differ(first(127)),
        "only the first 128 are searched" => !differ(first(128)),
        "marks are forgotten after 64" => !ids.chunks(64).all(differ),
        "marks are forgotten after 127" => !ids.chunks(127).all(differ),
        "a mark replaces those of its word" | "a mark clears the other words" => marked_twice(ids, wrong),
        "the marks of the call before are kept" => !differ(ids) || ids.iter().any(|id| before.contains(id)),
        _ => !differ(&ids.iter().filter_map(|id| mark(*id, wrong)).collect::<Vec<u8>>()),
    }
}

/// Whether the equal IDs of two count, the second behind the first.
fn counts(one: &Seen, other: &Seen, wrong: &str) -> bool {
    let same = one.rest == other.rest;
    let sorts = |sort: Sort| [one.sort, other.sort].iter().all(|of| [Sort::Counted, sort].contains(of));
    let beside = match wrong {
        "the other kind counts" => sorts(Sort::OtherKind),
        "the other kind is marked" => sorts(Sort::OtherKind) && other.sort == Sort::Counted,
        "the other kind is looked up" => sorts(Sort::OtherKind) && one.sort == Sort::Counted,
        "the first byte of a skipped item counts" => sorts(Sort::Skipped),
        "a context inside a skipped item counts" => sorts(Sort::InsideSkipped),
        "a context inside a context counts" => sorts(Sort::InsideContext),
        _ => sorts(Sort::Counted),
    };
    let taken = match wrong {
        "equal ones are taken" | "a second run of the same name is taken" => same,
        "equal IDs of unequal ones are taken" | "a second run of another name is taken" => !same,
        "refused ones are not marked" => one.refused,
        "refused ones are not looked up" => other.refused,
        "accepted ones are not marked" => !one.refused,
        "accepted ones are not looked up" => !other.refused,
        "refused and accepted ones are searched apart" => one.refused != other.refused,
        "a run of one is not marked" => one.records == 1,
        "a run of one is not looked up" => other.records == 1,
        "a run of several is not marked" => one.records > 1,
        "a run of several is not looked up" => other.records > 1,
        _ => false,
    };
    beside && !taken
}

/// Whether an ID comes twice; `before` are the IDs of the call before.
pub fn comes_twice(list: &[Seen], before: &[u8], wrong: &str) -> bool {
    let ids: Vec<u8> = list.iter().filter(|seen| seen.sort == Sort::Counted).map(|seen| seen.id).collect();
    if SEARCHING.contains(&wrong) {
        return searched(&ids, before, wrong);
    }
    (0..list.len()).any(|j| (0..j).any(|i| list[i].id == list[j].id && counts(&list[i], &list[j], wrong)))
}
