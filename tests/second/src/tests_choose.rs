//! Tests of choosing: the site's order, results 3 and 4, names much alike, bad sheets, room; and what the generator reaches.

use std::collections::{BTreeMap, BTreeSet};

use crate::choose::choose;
use crate::fields::{read_ac, read_rq, sheet_record, RECORD};
use crate::generate::{hex, Call, Generator};
use crate::names::name_is_valid;
use crate::replay::{digest, Replay};
use crate::tests::{bytes_of, plain};
use crate::write;

/// A proposed context: its ID, its abstract name, its transfer names.
type Asked<'a> = (u8, &'a str, &'a [&'a str]);
/// An answer: ID, result, transfer name.
type Answered = (u8, u8, &'static str);

fn proposal(contexts: &[Asked]) -> Vec<u8> {
    let run = |(id, name, transfers): &Asked| -> Vec<u8> {
        transfers.iter().flat_map(|transfer| sheet_record(*id, 0, name.as_bytes(), transfer.as_bytes())).collect()
    };
    contexts.iter().flat_map(run).collect()
}

fn site(pairs: &[(&str, &str)]) -> Vec<u8> {
    pairs.iter().flat_map(|(name, transfer)| sheet_record(0, 0, name.as_bytes(), transfer.as_bytes())).collect()
}

fn answers(answered: &[Answered]) -> Vec<u8> {
    answered.iter().flat_map(|(id, result, transfer)| sheet_record(*id, *result, b"", transfer.as_bytes())).collect()
}

/// Chooses with room to spare, which must stay as it is.
fn check(contexts: &[Asked], pairs: &[(&str, &str)], expected: &[Answered]) {
    check_sheets(&proposal(contexts), &site(pairs), expected);
}

fn check_sheets(proposal: &[u8], site: &[u8], expected: &[Answered]) {
    let spare = [0xc3; 7];
    let lent = vec![0xc3; RECORD * expected.len() + spare.len()];
    let after = [&answers(expected)[..], &spare].concat();
    assert_eq!(choose(proposal, site, &lent), Ok((expected.len(), after)));
}

fn refused(proposal: &[u8], site: &[u8], room: usize) -> Option<u8> {
    choose(proposal, site, &vec![0xc3; room]).err()
}

// What is chosen.

#[test]
fn the_order_of_the_site_decides() {
    check(&[(1, "1.2", &["5", "6"])], &[("1.2", "5"), ("1.2", "6")], &[(1, 0, "5")]);
    check(&[(1, "1.2", &["5", "6"])], &[("1.2", "6"), ("1.2", "5")], &[(1, 0, "6")]);
    check(&[(1, "1.2", &["6", "5"])], &[("1.2", "5"), ("1.2", "6")], &[(1, 0, "5")]);
    check(&[(1, "1.2", &["6", "5"])], &[("1.2", "6"), ("1.2", "5")], &[(1, 0, "6")]);
}

#[test]
fn the_first_of_several_matches() {
    let asked: &[Asked] = &[(7, "1.2", &["9", "8", "7"])];
    check(asked, &[("1.2", "1"), ("1.3", "9"), ("1.2", "8"), ("1.2", "9"), ("1.2", "7")], &[(7, 0, "8")]);
    check(asked, &[("1.2", "1"), ("1.3", "9"), ("1.2", "2"), ("1.2", "7")], &[(7, 0, "7")]);
    check(asked, &[("1.2", "7")], &[(7, 0, "7")]);
}

#[test]
fn three_against_four() {
    check(&[(1, "1.2", &["5"])], &[("1.3", "5")], &[(1, 3, "")]);
    check(&[(1, "1.2", &["5"])], &[("1.2", "6")], &[(1, 4, "")]);
    // The one record with the abstract name may stand anywhere.
    check(&[(1, "1.2", &["5"])], &[("1.2", "6"), ("1.3", "5"), ("1.3", "6")], &[(1, 4, "")]);
    check(&[(1, "1.2", &["5"])], &[("1.3", "5"), ("1.3", "6"), ("1.2", "6")], &[(1, 4, "")]);
    // All three results in one answer.
    let asked: &[Asked] = &[(1, "1.1", &["5"]), (3, "1.2", &["5"]), (5, "1.3", &["5"])];
    check(asked, &[("1.3", "5"), ("1.2", "6")], &[(1, 3, ""), (3, 4, ""), (5, 0, "5")]);
}

#[test]
fn a_transfer_name_under_another_abstract_name_does_not_count() {
    check(&[(1, "1.2", &["5", "6"])], &[("1.3", "5"), ("1.2", "7"), ("1.3", "6")], &[(1, 4, "")]);
    check(&[(1, "1.2", &["5"]), (3, "1.3", &["6"])], &[("1.2", "6"), ("1.3", "5")], &[(1, 4, ""), (3, 4, "")]);
}

#[test]
fn abstract_and_transfer_names_are_not_mixed() {
    check(&[(1, "1.2", &["5"])], &[("5", "1.2")], &[(1, 3, "")]);
    check(&[(1, "1.2", &["5"])], &[("5", "5")], &[(1, 3, "")]);
    check(&[(1, "1.2", &["5"])], &[("1.2", "1.2")], &[(1, 4, "")]);
    check(&[(1, "5", &["5"])], &[("5", "1.2"), ("5", "5")], &[(1, 0, "5")]);
}

#[test]
fn refused_contexts_carry_no_transfer_name() {
    check(&[(1, "1.2", &["9", "5", "1"])], &[("1.3", "5")], &[(1, 3, "")]);
    check(&[(1, "1.2", &["9", "5", "1"])], &[("1.2", "6")], &[(1, 4, "")]);
    check(&[(1, "1.2", &["9", "5"]), (3, "1.2", &["7", "9"])], &[("1.2", "6")], &[(1, 4, ""), (3, 4, "")]);
}

#[test]
fn repeated_site_records_are_allowed() {
    let asked: &[Asked] = &[(1, "1.2", &["5", "6"])];
    check(asked, &[("1.2", "6"), ("1.2", "6"), ("1.2", "5")], &[(1, 0, "6")]);
    check(asked, &[("1.2", "7"), ("1.2", "7")], &[(1, 4, "")]);
    // ID 0 in three runs.
    check(asked, &[("1.2", "7"), ("1.3", "7"), ("1.2", "6"), ("1.3", "7")], &[(1, 0, "6")]);
    check_sheets(&proposal(asked), &site(&[("1.2", "6")]).repeat(600), &[(1, 0, "6")]);
}

#[test]
fn equal_transfer_names_in_a_run() {
    check(&[(1, "1.2", &["5", "5", "5"])], &[("1.2", "5")], &[(1, 0, "5")]);
    check(&[(1, "1.2", &["6", "5", "6"])], &[("1.2", "4")], &[(1, 4, "")]);
}

#[test]
fn two_contexts_of_one_abstract_name() {
    let pairs = [("1.2", "5"), ("1.2", "6")];
    check(&[(1, "1.2", &["6"]), (3, "1.2", &["5"])], &pairs, &[(1, 0, "6"), (3, 0, "5")]);
    check(&[(1, "1.2", &["5", "6"]), (3, "1.2", &["6", "5"])], &pairs, &[(1, 0, "5"), (3, 0, "5")]);
    check(&[(1, "1.2", &["7"]), (3, "1.2", &["6"])], &pairs, &[(1, 4, ""), (3, 0, "6")]);
    // What a neighbour proposes is not proposed here.
    check(
        &[(1, "1.2", &["7"]), (3, "1.2", &["5"]), (5, "1.2", &["8"])],
        &pairs,
        &[(1, 4, ""), (3, 0, "5"), (5, 4, "")],
    );
}

#[test]
fn answers_in_the_order_of_the_proposal() {
    let pairs = [("1.1", "5"), ("1.2", "5"), ("1.3", "5")];
    check(
        &[(255, "1.3", &["5"]), (1, "1.1", &["5"]), (129, "1.2", &["5"])],
        &pairs,
        &[(255, 0, "5"), (1, 0, "5"), (129, 0, "5")],
    );
}

#[test]
fn names_that_are_beginnings_of_each_other() {
    for other in ["1", "1.2.3", "1.23", "1.2.0", "11.2"] {
        check(&[(1, "1.2", &["5"])], &[(other, "5")], &[(1, 3, "")]);
        check(&[(1, other, &["5"])], &[("1.2", "5")], &[(1, 3, "")]);
        check(&[(1, "5", &["1.2"])], &[("5", other)], &[(1, 4, "")]);
        check(&[(1, "5", &["1.2", "7"])], &[("5", other), ("5", "1.2")], &[(1, 0, "1.2")]);
    }
    check(&[(1, "5", &["1.2", "1.23"])], &[("5", "1.23"), ("5", "1.2")], &[(1, 0, "1.23")]);
}

#[test]
fn names_of_equal_length_that_differ_in_one_byte() {
    for other in ["2.2.3", "1.3.3", "1.2.4", "112.3"] {
        check(&[(1, "1.2.3", &["5"])], &[(other, "5")], &[(1, 3, "")]);
        check(&[(1, "5", &["1.2.3"])], &[("5", other)], &[(1, 4, "")]);
    }
}

#[test]
fn names_of_64_bytes() {
    let long = "1234567.".repeat(7) + "12345678";
    let asked = sheet_record(1, 0, long.as_bytes(), long.as_bytes());
    let chosen = |pairs: &[(&str, &str)]| choose(&asked, &site(pairs), &[0; RECORD]).unwrap().1;
    let answered = |result| sheet_record(1, result, b"", if result == 0 { long.as_bytes() } else { b"" });
    for place in [0, 31, 62, 63] {
        let mut other = long.clone();
        other.replace_range(place..=place, "9");
        assert_eq!(chosen(&[(&other, &long)]), answered(3));
        assert_eq!(chosen(&[(&long, &other)]), answered(4));
    }
    assert_eq!(chosen(&[(&long[..63], &long), (&long, &long[..63])]), answered(4));
    assert_eq!(chosen(&[(&long[..63], &long), (&long, &long)]), answered(0));
}

#[test]
fn all_128_contexts() {
    let ids: Vec<u8> = (0..128u8).map(|number| 2 * number + 1).collect();
    let names: Vec<String> = ids.iter().map(|id| format!("1.{}", id)).collect();
    let contexts: Vec<Asked> = ids.iter().zip(&names).map(|(id, name)| (*id, &name[..], &["5", "6"][..])).collect();
    let known: Vec<(&str, &str)> = names.iter().skip(1).step_by(2).map(|name| (&name[..], "6")).collect();
    let expected: Vec<Answered> = ids.iter().map(|id| if id % 4 == 3 { (*id, 0, "6") } else { (*id, 3, "") }).collect();
    check(&contexts, &known, &expected);
}

#[test]
fn a_proposal_too_long_to_be_sent_is_good() {
    let sheet = sheet_record(1, 0, b"1.2", b"5").repeat(4_000);
    assert_eq!(write::rq(b"STORE-EQUINE    ", b"STORE-EXOTIC    ", b"1.2", &plain(), &sheet), Err(5));
    check_sheets(&sheet, &site(&[("1.2", "6"), ("1.2", "5")]), &[(1, 0, "5")]);
}

#[test]
fn from_a_received_rq_to_the_ac() {
    let asked = proposal(&[(3, "1.2", &["5", "6"]), (1, "1.3", &["5"])]);
    let rq = write::rq(b"STORE-EQUINE    ", b"STORE-EXOTIC    ", b"1.2", &plain(), &asked).unwrap();
    let (fields, read, _) = read_rq(&rq, &[0; 3 * RECORD], &[]).unwrap();
    assert_eq!(fields.records, 3);
    let (count, after) = choose(&read, &site(&[("1.2", "6")]), &[0; 2 * RECORD]).unwrap();
    assert_eq!((count, &after[..]), (2, &answers(&[(3, 0, "6"), (1, 3, "")])[..]));
    let ac = write::ac(&rq[10..74], b"1.2", &plain(), &after).unwrap();
    assert_eq!(read_ac(&ac, &[0; 2 * RECORD], &[]).map(|(_, sheet, _)| sheet), Ok(after));
}

// Bad sheets.

/// Sheets made bad in one byte or by their length; what is bad for proposals and site sheets alike.
fn spoiled(good: &[u8]) -> Vec<(&'static str, Vec<u8>)> {
    let with = |place: usize, value: u8| {
        let mut sheet = good.to_vec();
        let last = sheet.len() - RECORD;
        sheet[last + place] = value;
        sheet
    };
    let nameless = |result: u8| {
        let mut sheet = with(1, result);
        let last = sheet.len() - RECORD;
        sheet[last + 3] = 0;
        sheet[last + 68..].fill(0);
        sheet
    };
    vec![
        ("no record", Vec::new()),
        ("one byte", good[..1].to_vec()),
        ("a byte less", good[..good.len() - 1].to_vec()),
        ("a byte more", [good, &[0]].concat()),
        ("a part record behind", [good, &good[..131]].concat()),
        ("a record of zeros behind", [good, &[0; 132]].concat()),
        ("result 1", with(1, 1)),
        ("result 3", with(1, 3)),
        ("result 255", with(1, 255)),
        ("abstract length 0", with(2, 0)),
        ("abstract length one less", with(2, 2)),
        ("abstract length one more", with(2, 4)),
        ("abstract length 64", with(2, 64)),
        ("abstract length 65", with(2, 65)),
        ("abstract length 255", with(2, 255)),
        ("no transfer name", nameless(0)),
        ("result 3 and no transfer name", nameless(3)),
        ("transfer length 0", with(3, 0)),
        ("transfer length one less", with(3, 2)),
        ("transfer length one more", with(3, 4)),
        ("transfer length 64", with(3, 64)),
        ("transfer length 65", with(3, 65)),
        ("transfer length 255", with(3, 255)),
        ("a letter in the abstract name", with(4, b'A')),
        ("a leading dot in the abstract name", with(4, b'.')),
        ("a last dot in the abstract name", with(6, b'.')),
        ("a space behind the abstract name", with(7, b' ')),
        ("the last unused abstract byte", with(67, 1)),
        ("a letter in the transfer name", with(68, b'A')),
        ("a space in the transfer name", with(70, b' ')),
        ("NUL in the transfer name", with(70, 0)),
        ("a digit behind the transfer name", with(71, b'1')),
        ("the last unused transfer byte", with(131, 1)),
    ]
}

#[test]
fn bad_proposals() {
    let good = proposal(&[(1, "1.2", &["5.5", "6.6"]), (3, "1.3", &["5.5"])]);
    let liked = site(&[("1.2", "5.5")]);
    assert_eq!(refused(&good, &liked, 2 * RECORD), None);
    for (name, bad) in spoiled(&good) {
        assert_eq!(refused(&bad, &liked, 66_000), Some(4), "{}", name);
    }
    for id in [0, 2, 4, 128, 254] {
        let mut bad = good.clone();
        bad[2 * RECORD] = id;
        assert_eq!(refused(&bad, &liked, 66_000), Some(4), "ID {}", id);
    }
}

#[test]
fn second_runs() {
    let liked = site(&[("1.2", "5")]);
    for bad in [
        proposal(&[(1, "1.2", &["5"]), (1, "1.3", &["5"])]),
        proposal(&[(1, "1.2", &["5"]), (1, "1.23", &["5"])]),
        proposal(&[(1, "1.2", &["5"]), (3, "1.2", &["5"]), (1, "1.2", &["5"])]),
        proposal(&[(1, "1.2", &["5"]), (3, "1.3", &["5"]), (5, "1.2", &["5"]), (3, "1.3", &["6"])]),
    ] {
        assert_eq!(refused(&bad, &liked, 66_000), Some(4));
    }
}

#[test]
fn bad_site_sheets() {
    let asked = proposal(&[(1, "1.2", &["5.5"])]);
    let good = site(&[("1.2", "5.5"), ("1.3", "6.6")]);
    assert_eq!(refused(&asked, &good, RECORD), None);
    // The last record is spoiled, and the first matches: all are tested.
    for (name, bad) in spoiled(&good) {
        assert_eq!(refused(&asked, &bad, 66_000), Some(4), "{}", name);
    }
    for id in 1..=255 {
        for place in [0, RECORD] {
            let mut bad = good.clone();
            bad[place] = id;
            assert_eq!(refused(&asked, &bad, 66_000), Some(4), "ID {}", id);
        }
    }
    assert_eq!(refused(&asked, &proposal(&[(1, "1.2", &["5.5"])]), 66_000), Some(4));
    assert_eq!(refused(&asked, &answers(&[(0, 0, "5.5")]), 66_000), Some(4));
}

// Refusals and room.

#[test]
fn four_comes_before_two() {
    let (asked, liked) = (proposal(&[(1, "1.2", &["5"])]), site(&[("1.2", "5")]));
    for room in [0, 131, 132, 66_000] {
        assert_eq!(refused(&asked[1..], &liked, room), Some(4));
        assert_eq!(refused(&asked, &liked[1..], room), Some(4));
        assert_eq!(refused(&asked[1..], &liked[1..], room), Some(4));
        assert_eq!(refused(&[], &[], room), Some(4));
        assert_eq!(refused(&liked, &asked, room), Some(4));
        assert_eq!(refused(&liked, &liked, room), Some(4));
        assert_eq!(refused(&asked, &asked, room), Some(4));
    }
}

#[test]
fn room_is_counted_by_contexts() {
    // One context of three records, and a site sheet of four.
    let (asked, liked) = (proposal(&[(1, "1.2", &["5", "6", "7"])]), site(&[("1.2", "5")]).repeat(4));
    assert_eq!(refused(&asked, &liked, 0), Some(2));
    assert_eq!(refused(&asked, &liked, 131), Some(2));
    assert_eq!(choose(&asked, &liked, &[0xc3; 132]), Ok((1, answers(&[(1, 0, "5")]))));
    // Three contexts of five records.
    let asked = proposal(&[(1, "1.2", &["5", "6"]), (3, "1.3", &["5"]), (5, "1.2", &["7", "5"])]);
    let expected = answers(&[(1, 0, "5"), (3, 3, ""), (5, 0, "5")]);
    assert_eq!(refused(&asked, &liked, 2 * RECORD), Some(2));
    assert_eq!(refused(&asked, &liked, 3 * RECORD - 1), Some(2));
    assert_eq!(choose(&asked, &liked, &[0xc3; 3 * RECORD]), Ok((3, expected.clone())));
    assert_eq!(choose(&asked, &liked, &[0xc3; 3 * RECORD + 1]), Ok((3, [&expected[..], &[0xc3]].concat())));
}

#[test]
fn lines_of_c() {
    let mut replay = Replay::new();
    let (asked, liked) = (hex(&proposal(&[(1, "1.2", &["5", "6"])])), hex(&site(&[("1.2", "6")])));
    let after = [&answers(&[(1, 0, "6")])[..], &[0xc3; 8]].concat();
    assert_eq!(replay.answer(&format!("C {} {} 140", asked, liked)), format!("0 1 {}", digest(&after)));
    assert_eq!(replay.last.results, [true, false, false, false, false]);
    assert_eq!(replay.answer(&format!("C {} {} 131", asked, liked)), format!("2 0 {}", digest(&[0xc3; 131])));
    assert_eq!(replay.answer(&format!("C {} {} 131", liked, asked)), format!("4 0 {}", digest(&[0xc3; 131])));
    assert_eq!(replay.answer("C - - 0"), "4 0 1");
    let (most, over) = (hex(&[0; 66_000]), hex(&[0; 66_001]));
    assert_eq!(replay.answer(&format!("C {} {} 0", most, most)), "4 0 1");
    for bad in ["C", "C -", "C - -", "C - 0", "C - - -", "C - - 66001", "C - - 0 0", "C - 0 0", "C 0 - 0", "C = - - 0"]
    {
        assert_eq!(replay.answer(bad), "?", "{}", bad);
    }
    assert_eq!(replay.answer(&format!("C {} - 0", over)), "?");
    assert_eq!(replay.answer(&format!("C - {} 0", over)), "?");
}

// Generated calls, judged once more from the bytes of their sheets.

/// The byte strings of a C line, and its room.
fn words_of(line: &str) -> (Vec<u8>, Vec<u8>, usize) {
    let words: Vec<&str> = line.split(' ').collect();
    (bytes_of(words[1]), bytes_of(words[2]), words[3].parse().unwrap())
}

/// A good record of a proposal or a site sheet, but for its ID.
fn record_is_good(record: &[u8]) -> bool {
    let field_is_good = |length: u8, field: &[u8]| {
        let length = length as usize;
        length <= 64 && name_is_valid(&field[..length]) && field[length..].iter().all(|byte| *byte == 0)
    };
    record[1] == 0 && field_is_good(record[2], &record[4..68]) && field_is_good(record[3], &record[68..])
}

fn records_are_good(sheet: &[u8]) -> bool {
    !sheet.is_empty() && sheet.len() % RECORD == 0 && sheet.chunks(RECORD).all(record_is_good)
}

/// No ID stands apart from its first record's run, or with another abstract name than there.
fn ids_are_good(records: &[&[u8]]) -> bool {
    (0..records.len()).all(|place| {
        let first = records.iter().position(|record| record[0] == records[place][0]).unwrap();
        let run = &records[first..=place];
        records[place][0] % 2 == 1
            && run.iter().all(|r| r[0] == run[0][0] && r[2] == run[0][2] && r[4..68] == run[0][4..68])
    })
}

/// The answer to the context that starts at a place, from whole name fields.
fn answer_to(start: usize, records: &[&[u8]], liked: &[&[u8]]) -> Vec<u8> {
    let asked = records[start];
    let run: Vec<&[u8]> = records.iter().copied().filter(|record| record[0] == asked[0]).collect();
    let mut answer = vec![asked[0], 3];
    answer.resize(RECORD, 0);
    for like in liked.iter().rev().filter(|like| like[4..68] == asked[4..68]) {
        if run.iter().any(|record| record[68..] == like[68..]) {
            answer[1] = 0;
            answer[3] = like[3];
            answer[68..].copy_from_slice(&like[68..]);
        } else if answer[1] == 3 {
            answer[1] = 4;
        }
    }
    answer
}

/// Document 02 on raw bytes: the answer line of a C call.
fn judged(line: &str) -> String {
    let (proposal, site, room) = words_of(line);
    let mut sheet = vec![0xc3; room];
    let records: Vec<&[u8]> = proposal.chunks(RECORD).collect();
    let liked: Vec<&[u8]> = site.chunks(RECORD).collect();
    let proposal_is_good = records_are_good(&proposal) && ids_are_good(&records);
    if !proposal_is_good || !records_are_good(&site) || liked.iter().any(|record| record[0] != 0) {
        return format!("4 0 {}", digest(&sheet));
    }
    let starts: Vec<usize> = (0..records.len()).filter(|i| *i == 0 || records[*i][0] != records[i - 1][0]).collect();
    if room < RECORD * starts.len() {
        return format!("2 0 {}", digest(&sheet));
    }
    for (number, start) in starts.iter().enumerate() {
        sheet[RECORD * number..RECORD * (number + 1)].copy_from_slice(&answer_to(*start, &records, &liked));
    }
    format!("0 {} {}", starts.len(), digest(&sheet))
}

/// So many C calls, and some with long sheets; apart from them the calls that send what was chosen.
fn generated(seed: u64, count: usize, long: usize) -> (Vec<Call>, Vec<Call>) {
    let mut generator = Generator::new(seed);
    generator.calls.clear();
    (0..count).for_each(|_| generator.call_c());
    (0..long).for_each(|_| generator.call_c_long());
    generator.calls.into_iter().partition(|call| call.line.starts_with('C'))
}

#[test]
fn generated_calls_judged_from_their_bytes() {
    for call in generated(12, 1_500, 24).0 {
        assert_eq!(call.answer, judged(&call.line), "{}", call.line);
    }
}

#[test]
fn what_is_chosen_is_good_to_send() {
    let sent = generated(12, 1_500, 0).1;
    assert!(sent.len() > 100 && sent.iter().all(|call| [0, 2].contains(&call.last.refusal)));
    assert!(["2 ", "a "].iter().all(|name| sent.iter().any(|call| call.line.starts_with(name))));
}

#[test]
fn every_outcome_is_generated() {
    let mut refusals: BTreeMap<u8, u32> = BTreeMap::new();
    let mut together = BTreeSet::new();
    for call in generated(1, 400, 0).0 {
        *refusals.entry(call.last.refusal).or_insert(0) += 1;
        together.insert(call.last.results);
    }
    assert!(refusals.keys().copied().eq([0, 2, 4]) && refusals.values().all(|count| *count > 40), "{:?}", refusals);
    // No result where refused; and each mixture of 0, 3 and 4.
    let mixtures = (0..8).map(|set| [set & 1 != 0, false, false, set & 2 != 0, set & 4 != 0]);
    assert_eq!(together, mixtures.collect());
}
