//! The coverage command: what the generator's calls reach, and what they leave out.

use std::collections::BTreeMap;

use crate::calls_ids;
use crate::calls_refused;
use crate::calls_titles;
use crate::calls_user;
use crate::contents;
use crate::generate::{filled_cells, Generator, BRANCHES};
use crate::machine::cell;
use crate::twists;

#[derive(Default)]
struct Counts {
    bytes: usize,
    refusals: BTreeMap<(String, u8), u64>,
    bad_form: u64,
    cells: BTreeMap<(u8, u8), u64>,
    actions: BTreeMap<u8, u64>,
    states: BTreeMap<u8, u64>,
    kinds: BTreeMap<u8, u64>,
    acceptable: u64,
    results: BTreeMap<Vec<usize>, u64>,
    places: BTreeMap<(usize, Option<usize>), u64>,
    over: u64,
}

/// Generates so many calls and tells what was met.
pub fn report(seed: u64, count: usize) -> String {
    let mut generator = Generator::new(seed);
    let mut counts = Counts::default();
    for _ in 0..count {
        let call = generator.next();
        note(&mut counts, &call.line, &call.answer, &call.last);
    }
    let mut text = format!("{} calls, {} bytes of call text, {} of bad form\n", count, counts.bytes, counts.bad_form);
    text += &refusals(&counts);
    text += &cells(&counts);
    text += &places(&counts);
    text += &smaller(&counts);
    text += &branches(&generator.marks.counts);
    text
}

fn note(counts: &mut Counts, line: &str, answer: &str, last: &crate::replay::Last) {
    counts.bytes += line.len() + 1;
    if answer == "?" {
        counts.bad_form += 1;
        return;
    }
    let call = line.split(' ').next().unwrap_or("").to_string();
    *counts.refusals.entry((call.clone(), last.refusal)).or_insert(0) += 1;
    if "recajd".contains(&call) {
        *counts.states.entry(last.state_before).or_insert(0) += 1;
    }
    if last.answer.event != 0 {
        *counts.cells.entry((last.answer.event, last.state_before)).or_insert(0) += 1;
        *counts.actions.entry(last.answer.action).or_insert(0) += 1;
    }
    if call == "K" {
        *counts.kinds.entry(last.kind).or_insert(0) += 1;
        counts.acceptable += answer.starts_with("1 1") as u64;
    }
    if call == "C" && last.refusal == 0 {
        let results = (0..5).filter(|result| last.results[*result]).collect();
        *counts.results.entry(results).or_insert(0) += 1;
    }
    if call == "T" && last.refusal == 0 {
        *counts.places.entry((own_titles(line), last.place)).or_insert(0) += 1;
    }
    counts.over += (line.len() > 30_000) as u64;
}

/// How many own titles a T line gives.
fn own_titles(line: &str) -> usize {
    line.split(' ').nth(1).map_or(0, |own| own.len() / 32)
}

fn refusals(counts: &Counts) -> String {
    let mut text = "refusals by call (0: answered)\ncall".to_string();
    for number in 0..8 {
        text += &format!("{:>8}", number);
    }
    text += "\n";
    for call in "r e c a j d K Q A J B D P C T N V E 1 2 3 4 5 6 7".split(' ') {
        text += &format!("{:<4}", call);
        for number in 0..8u8 {
            text += &format!("{:>8}", counts.refusals.get(&(call.to_string(), number)).unwrap_or(&0));
        }
        text += "\n";
    }
    text
}

fn cells(counts: &Counts) -> String {
    let filled = filled_cells();
    let met = filled.iter().filter(|pair| counts.cells.contains_key(pair)).count();
    let mut text = format!("cells met: {} of {}\n", met, filled.len());
    for event in 1..=19u8 {
        text += &format!("event {:>2}:", event);
        for state in 1..=13u8 {
            text += &match cell(event, state) {
                None => "      .".to_string(),
                Some(_) => format!("{:>7}", counts.cells.get(&(event, state)).unwrap_or(&0)),
            };
        }
        text += "\n";
    }
    text
}

fn places(counts: &Counts) -> String {
    let mut text = "places answered by T (none, 0 to 7), by the length of the list\n".to_string();
    for length in 0..=8 {
        text += &format!("{} titles:", length);
        for place in [None].into_iter().chain((0..length).map(Some)) {
            text += &format!("{:>7}", counts.places.get(&(length, place)).unwrap_or(&0));
        }
        text += "\n";
    }
    text
}

fn smaller(counts: &Counts) -> String {
    let mut text = format!("actions 1 to 28 met: {}\n", counts.actions.len());
    text += &format!("states before machine calls: {:?}\n", counts.states);
    text += &format!("kinds by K: {:?}, acceptable {}\n", counts.kinds, counts.acceptable);
    text += &format!("results that stand together in an answer of C: {:?}\n", counts.results);
    text += &format!("lines above 30,000 bytes: {}\n", counts.over);
    text
}

fn branches(used: &BTreeMap<String, u64>) -> String {
    let mut all: Vec<String> = BRANCHES.iter().map(|branch| format!("branch: {}", branch.name)).collect();
    all.extend(twists::twist_names().iter().map(|name| format!("twist: {}", name)));
    all.extend(contents::twist_marks());
    all.extend(calls_refused::behind_marks());
    all.extend(calls_titles::title_marks());
    all.extend(calls_user::user_marks());
    all.extend(calls_ids::id_marks());
    let missing: Vec<&String> = all.iter().filter(|name| !used.contains_key(*name)).collect();
    let mut text = "branches and twists used\n".to_string();
    for (name, count) in used {
        text += &format!("{:>8} {}\n", count, name);
    }
    text += &format!("never used: {:?}\n", missing);
    text
}
