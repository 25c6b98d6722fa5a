//! Wrong rules of the search for IDs that come twice, each of which must show among the generated calls, wherever IDs are
//! searched.

use crate::choose::choose;
use crate::fields::RECORD;
use crate::generate::{Call, Generator};
use crate::ids::Place;
use crate::tests::bytes_of;
use crate::tests_user_wrong::{contents_of, received};
use crate::write;
use crate::wrong_ids::{comes_twice, rules, runs, Seen, Sort};
use crate::wrong_reading::{is_valid, items};
use crate::wrong_sending::Contents;

/// A generated call in which IDs are searched, and whether the program found its contexts good.
struct Case {
    place: Place,
    /// Good but for IDs that come twice.
    good: bool,
    list: Vec<Seen>,
    before: Vec<u8>,
    site: usize,
    answered: bool,
}

impl Case {
    /// What is found with one rule wrong.
    fn finds(&self, wrong: &str) -> bool {
        if !self.good {
            return false;
        }
        let in_runs = match self.place {
            Place::Sent | Place::Asked => true,
            _ => wrong == "equal IDs side by side are a run",
        };
        let refused = wrong == "the IDs of the site's sheet are searched" && self.site > 1
            || wrong == "more than 128 records are refused" && self.list.len() > 128;
        let twice = if in_runs {
            comes_twice(&runs(&self.list, wrong), &self.before, wrong)
        } else {
            comes_twice(&self.list, &self.before, wrong)
        };
        !twice && !refused
    }
}

/// A context whose body stands between two places.
fn context_at(pdu: &[u8], at: usize, end: usize, sort: Sort) -> Seen {
    let body = &pdu[at..end];
    let refused = body.get(2).is_some_and(|result| *result != 0);
    Seen { id: body[0], sort, refused, rest: body[1..].to_vec(), records: 1 }
}

/// All in a valid PDU that could be taken for a context, in its order.
fn contexts_of(pdu: &[u8]) -> Vec<Seen> {
    let context = 0x1f + pdu[0];
    let mut list = Vec::new();
    for (kind, at, end) in items(pdu, 74, pdu.len()).unwrap_or_default() {
        let sort = match kind {
            0x10 | 0x50 => continue,
            _ if kind == context => Sort::Counted,
            0x20 | 0x21 => Sort::OtherKind,
            _ => Sort::Skipped,
        };
        if end > at {
            list.push(context_at(pdu, at, end, sort));
        }
        let (inside, from) =
            if sort == Sort::Counted { (Sort::InsideContext, at + 4) } else { (Sort::InsideSkipped, at) };
        for (kind, at, end) in items(pdu, from, end).unwrap_or_default() {
            if kind == context && end > at {
                list.push(context_at(pdu, at, end, inside));
            }
        }
    }
    list
}

fn records_of(sheet: &[u8], proposal: bool) -> Vec<Seen> {
    let seen = |record: &[u8]| Seen {
        id: record[0],
        sort: Sort::Counted,
        refused: record[1] != 0,
        rest: if proposal { record[4..68].to_vec() } else { record[1..].to_vec() },
        records: 1,
    };
    sheet.chunks(RECORD).map(seen).collect()
}

/// Whether a sheet is good but for its IDs: each record is by itself.
fn each_is_good(sheet: &[u8], is_good: &dyn Fn(&[u8]) -> bool) -> bool {
    !sheet.is_empty() && sheet.len() % RECORD == 0 && sheet.chunks(RECORD).all(is_good)
}

fn case_of_pdu(pdu: &[u8], answered: bool) -> Case {
    let good = is_valid(pdu, "equal IDs are taken");
    let list = if good { contexts_of(pdu) } else { Vec::new() };
    let place = if pdu[0] == 1 { Place::Rq } else { Place::Ac };
    Case { place, good, list, before: Vec::new(), site: 0, answered }
}

fn case_of_contents(contents: &Contents, answered: bool) -> Case {
    let [middle, more] = &contents.middle;
    let written = |record: &[u8]| match contents.kind {
        1 => write::rq(middle, more, &contents.application, &contents.user, record),
        _ => write::ac(middle, &contents.application, &contents.user, record),
    };
    let good = each_is_good(&contents.sheet, &|record| written(record) != Err(4));
    let place = if contents.kind == 1 { Place::Sent } else { Place::Answer };
    let list = if good { records_of(&contents.sheet, contents.kind == 1) } else { Vec::new() };
    Case { place, good, list, before: Vec::new(), site: 0, answered }
}

fn case_of_choice(proposal: &[u8], site: &[u8], answered: bool) -> Case {
    let good = each_is_good(proposal, &|record| choose(record, site, &[0; RECORD]).is_ok());
    let list = if good { records_of(proposal, true) } else { Vec::new() };
    Case { place: Place::Asked, good, list, before: Vec::new(), site: site.len() / RECORD, answered }
}

fn case_of(call: &Call) -> Option<Case> {
    let words: Vec<&str> = call.line.split(' ').collect();
    if call.answer == "?" || words.get(1) == Some(&"=") {
        return None;
    }
    let refusal = call.last.refusal;
    match words[0] {
        "K" | "Q" | "A" => {
            let pdu = bytes_of(words[1]);
            let (asked, valid): (&[u8], bool) = match words[0] {
                "K" => (&[1, 2], call.answer != "0 0 0"),
                "Q" => (&[1], refusal != 7),
                _ => (&[2], refusal != 7),
            };
            pdu.first().filter(|kind| asked.contains(kind))?;
            Some(case_of_pdu(&pdu, valid))
        }
        "r" if refusal == 0 && call.last.answer.event != 0 => {
            received(&words).map(|pdu| case_of_pdu(&pdu, call.last.answer.event != 19))
        }
        "1" | "2" => Some(case_of_contents(&contents_of(words[0].parse().ok()?, &words[1..]), refusal != 4)),
        "c" | "a" if [0, 2, 4, 5].contains(&refusal) => {
            let kind = if words[0] == "c" { 1 } else { 2 };
            Some(case_of_contents(&contents_of(kind, &words[10..]), refusal != 4))
        }
        "C" => Some(case_of_choice(&bytes_of(words[1]), &bytes_of(words[2]), refusal != 4)),
        _ => None,
    }
}

/// The calls in which IDs are searched among so many, each with the IDs of the one before it at the same place.
fn generated(seed: u64, count: usize) -> Vec<Case> {
    let mut generator = Generator::new(seed);
    let mut cases: Vec<Case> = Vec::new();
    for _ in 0..count {
        if let Some(mut case) = case_of(&generator.next()) {
            if let Some(last) = cases.iter().rev().find(|last| last.place == case.place) {
                let counted = last.list.iter().filter(|seen| seen.sort == Sort::Counted);
                case.before = counted.map(|seen| seen.id).collect();
            }
            cases.push(case);
        }
    }
    cases
}

#[test]
fn generated_calls_searched_once_more() {
    for seed in [2, 1, 8, 31] {
        let cases = generated(seed, 6_000);
        for place in Place::ALL {
            let of_place = || cases.iter().filter(|case| case.place == place && case.good);
            assert!(of_place().filter(|case| case.answered).count() > 40, "seed {}: {:?}", seed, place);
            assert!(of_place().filter(|case| !case.answered).count() > 20, "seed {}: {:?}", seed, place);
        }
        for case in &cases {
            assert_eq!(case.finds(""), case.answered, "seed {}: {:?} {:?}", seed, case.place, case.list);
        }
    }
}

#[test]
fn every_wrong_rule_is_seen() {
    let mut missed = Vec::new();
    for seed in [2, 1, 8] {
        let cases = generated(seed, 6_000);
        for place in Place::ALL {
            let cases: Vec<&Case> = cases.iter().filter(|case| case.place == place && case.good).collect();
            for wrong in rules(place) {
                if cases.iter().all(|case| case.finds(wrong) == case.answered) {
                    missed.push(format!("seed {}, {}: {}", seed, place.words(), wrong));
                }
            }
        }
    }
    assert!(missed.is_empty(), "{:#?}", missed);
}
