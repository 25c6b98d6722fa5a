//! Tests of refused contexts: what is left untested, what is still tested, how they are sent, what the generator reaches.

use std::collections::BTreeMap;

use crate::calls_refused::behind_marks;
use crate::choose::choose;
use crate::contents::twist_marks;
use crate::fields::{kind, read_ac, sheet_record, RECORD};
use crate::generate::{hex, user_words, Call, Generator};
use crate::judge::lines;
use crate::machine::{receive, Record};
use crate::make::Node;
use crate::names::name_is_valid;
use crate::random::Random;
use crate::refused::{BEHIND, FAULTS};
use crate::replay::{digest, fresh, Replay};
use crate::tests::{bytes_of, check_twists, plain};
use crate::write;

fn item(kind: u8, body: &[u8]) -> Vec<u8> {
    [&[kind, 0][..], &(body.len() as u16).to_be_bytes(), body].concat()
}

/// A 21H with its four fixed bytes and any bytes behind them.
fn context(id: u8, result: u8, behind: &[u8]) -> Vec<u8> {
    item(0x21, &[&[id, 0, result, 0], behind].concat())
}

fn accepted(id: u8, name: &[u8]) -> Vec<u8> {
    context(id, 0, &item(0x40, name))
}

fn user() -> Vec<u8> {
    item(0x50, &item(0x51, &[0, 0, 0x40, 0]))
}

/// An RQ or AC with the contexts given between a good 10H and a good 50H.
fn associate(kind: u8, contexts: &[Vec<u8>]) -> Vec<u8> {
    let titles = b"STORE-EQUINE    STORE-EXOTIC    ";
    let body = [&[0, 1, 0, 0][..], titles, &[0; 32], &item(0x10, b"1.2"), &contexts.concat(), &user()].concat();
    write::pdu(kind, &body)
}

fn ac(contexts: &[Vec<u8>]) -> Vec<u8> {
    associate(2, contexts)
}

/// What an AC reads as, with five bytes of room to spare, which must stay as they are; None where it is no valid AC.
fn read(pdu: &[u8]) -> Option<Vec<u8>> {
    let found = read_ac(pdu, &[0xc3; 600 * RECORD], &[]);
    assert_eq!(found.is_ok(), kind(pdu).kind == 2);
    let (fields, sheet, _) = found.ok()?;
    let needed = RECORD * fields.records;
    assert_eq!(read_ac(pdu, &vec![0xc3; needed - 1], &[]), Err(2));
    assert_eq!((fields.version, &pdu[fields.application_at..][..fields.application_length]), (1, &b"1.2"[..]));
    assert!(fields.maximum == 0x4000 && sheet[needed..].iter().all(|byte| *byte == 0xc3));
    Some(sheet[..needed].to_vec())
}

/// The record that every refused context reads as.
fn refused_record(id: u8, result: u8) -> Vec<u8> {
    [&[id, result][..], &[0; 130]].concat()
}

/// Bytes that may stand behind the four fixed ones, and whether they keep document 01's rule.
fn behinds() -> Vec<(Vec<u8>, bool)> {
    let name = item(0x40, b"1.2.840.10008.1.2");
    let long = item(0x40, &[b'1'; 64]);
    let with = |before: &[u8], behind: &[u8]| [before, behind].concat();
    vec![
        (name.clone(), true),
        (long, true),
        (with(&item(0x30, b"x"), &name), true),
        (with(&name, &[0, 0, 0, 0]), true),
        // An empty name, with its reserved byte of any value, and with other sub-items.
        (vec![0x40, 0, 0, 0], false),
        (vec![0x40, 0xff, 0, 0], false),
        (with(&[0x40, 0, 0, 0], &item(0x30, b"1.2")), false),
        // No sub-item at all, and remainders of 1 to 3 bytes, also of a sub-item's first bytes and behind sub-items.
        (vec![], false),
        (vec![0], false),
        (vec![0xff, 0xff], false),
        (vec![0, 0, 0], false),
        (vec![0x40], false),
        (vec![0x40, 0], false),
        (vec![0x40, 0, 0], false),
        (with(&name, &[0]), false),
        (with(&name, &[0, 0]), false),
        (with(&name, &[0x40, 0, 0]), false),
        (with(&[0x40, 0, 0, 0], &[1, 2, 3]), false),
        // Bad names.
        (item(0x40, b"1.02"), false),
        (item(0x40, b"1.2\0"), false),
        (item(0x40, &[b'1'; 65]), false),
        (item(0x40, &[0; 64]), false),
        // Two 40H and more, none, another in its place.
        (with(&name, &name), false),
        (with(&name, &[0x40, 0, 0, 0]), false),
        ([0x40, 0, 0, 0].repeat(7), false),
        (item(0x30, b"1.2"), false),
        (item(0x41, b"1.2"), false),
        (vec![0; 8], false),
        // Lengths that don't fit.
        (with(&[0x40, 0, 0, 4], b"1.2"), false),
        (with(&[0x40, 0, 0, 2], b"1.2"), false),
        (with(&[0x40, 0, 0xff, 0xff], b"1.2"), false),
        (vec![0x40, 0, 0, 1], false),
        // Bytes that look like items of the PDU.
        (user(), false),
        (accepted(1, b"1.2"), false),
        (context(2, 9, b"x"), false),
        ([item(0x10, b"1.2"), accepted(1, b"1.2"), user()].concat(), false),
    ]
}

// What is left untested.

#[test]
fn a_refused_context_is_taken_whatever_follows() {
    for (behind, _) in behinds() {
        for result in 1..=4 {
            assert_eq!(read(&ac(&[context(1, result, &behind)])), Some(refused_record(1, result)), "{:x?}", behind);
        }
    }
}

#[test]
fn rubbish_of_every_length() {
    for byte in [0, 0x10, 0x21, 0x40, 0x50, 0xff] {
        for length in 0..200 {
            assert_eq!(read(&ac(&[context(255, 4, &vec![byte; length])])), Some(refused_record(255, 4)));
        }
    }
    let most = 16_384 - (ac(&[context(1, 1, &[])]).len() - 6);
    assert_eq!(read(&ac(&[context(1, 1, &vec![0x21; most])])), Some(refused_record(1, 1)));
    assert_eq!(read(&ac(&[context(1, 1, &vec![0x21; most + 1])])), None);
}

#[test]
fn neighbours_are_read_as_before() {
    for (behind, _) in behinds() {
        let pdu = ac(&[accepted(3, b"1.3"), context(1, 2, &behind), accepted(5, b"1.5"), context(7, 1, &behind)]);
        let expected = [
            sheet_record(3, 0, b"", b"1.3"),
            refused_record(1, 2),
            sheet_record(5, 0, b"", b"1.5"),
            refused_record(7, 1),
        ];
        assert_eq!(read(&pdu), Some(expected.concat()));
    }
}

#[test]
fn a_context_inside_a_refused_one_is_no_context() {
    let inner = [accepted(3, b"1.3"), context(4, 9, b"")].concat();
    let pdu = ac(&[context(1, 3, &inner), accepted(3, b"1.5")]);
    assert_eq!(read(&pdu), Some([refused_record(1, 3), sheet_record(3, 0, b"", b"1.5")].concat()));
}

#[test]
fn a_name_that_stands_behind_a_refused_context_is_skipped() {
    assert_eq!(read(&ac(&[context(1, 3, b""), item(0x40, b"1.2")])), Some(refused_record(1, 3)));
    assert_eq!(read(&ac(&[context(1, 0, b""), item(0x40, b"1.2")])), None);
}

#[test]
fn all_128_contexts_refused() {
    let ids: Vec<u8> = (0..128u8).map(|number| 2 * number + 1).collect();
    let contexts: Vec<Vec<u8>> = ids.iter().map(|id| context(*id, 1 + id % 4, &[0x40, 0, 0, 0])).collect();
    let expected: Vec<u8> = ids.iter().flat_map(|id| refused_record(*id, 1 + id % 4)).collect();
    assert_eq!(read(&ac(&contexts)), Some(expected));
    let again: Vec<Vec<u8>> = contexts.iter().chain(&contexts[127..]).cloned().collect();
    assert_eq!(read(&ac(&again)), None);
}

#[test]
fn the_judge_shows_no_name_of_a_refused_context() {
    let text = lines(&ac(&[accepted(1, b"1.3"), context(3, 2, &item(0x40, b"1.2"))])).concat();
    assert!(text.ends_with(" context 1 result 0 transfer 1.3 context 3 result 2"), "{}", text);
}

// What is still tested.

#[test]
fn four_bytes_at_least() {
    for length in 0..4 {
        let short = item(0x21, &[1, 0, 3, 0][..length]);
        assert_eq!(read(&ac(&[short.clone()])), None);
        assert_eq!(read(&ac(&[accepted(3, b"1.2"), short])), None);
    }
    assert!(read(&ac(&[item(0x21, &[1, 0, 3, 0])])).is_some());
}

#[test]
fn results_above_4() {
    for (behind, _) in behinds() {
        for result in 5..=255 {
            assert_eq!(read(&ac(&[context(1, result, &behind)])), None);
        }
    }
}

#[test]
fn odd_ids() {
    for id in 0..=255 {
        let expected = if id % 2 == 1 { Some(refused_record(id, 3)) } else { None };
        assert_eq!(read(&ac(&[context(id, 3, &[0x40, 0, 0, 0])])), expected);
        assert_eq!(read(&ac(&[context(id, 3, b"")])), expected);
    }
}

#[test]
fn an_id_comes_once() {
    for (behind, _) in behinds() {
        let (one, other) = (context(1, 3, &behind), accepted(3, b"1.2"));
        for again in [one.clone(), context(1, 4, b""), context(1, 1, &[9; 9]), accepted(1, b"1.2")] {
            assert_eq!(read(&ac(&[one.clone(), again.clone()])), None);
            assert_eq!(read(&ac(&[again.clone(), one.clone()])), None);
            assert_eq!(read(&ac(&[one.clone(), other.clone(), again.clone()])), None);
        }
        assert!(read(&ac(&[one, other])).is_some());
    }
}

#[test]
fn a_refused_context_fits_its_pdu() {
    let good = ac(&[context(1, 3, b"rubbish")]);
    let place = good.windows(2).position(|pair| pair == [0x21, 0]).unwrap() + 2;
    for length in 0..=0xffffu16 {
        let mut pdu = good.clone();
        pdu[place..place + 2].copy_from_slice(&length.to_be_bytes());
        // Up to the end it takes in the 50H, beyond it doesn't fit; a shorter one leaves a bad item before the 50H.
        assert_eq!(read(&pdu).is_some(), length == 11, "{}", length);
    }
}

#[test]
fn result_0_is_as_before() {
    for (behind, good) in behinds() {
        assert_eq!(read(&ac(&[context(1, 0, &behind)])).is_some(), good, "{:x?}", behind);
        // Also beside a refused one.
        assert_eq!(read(&ac(&[context(3, 3, &behind), context(1, 0, &behind)])).is_some(), good, "{:x?}", behind);
    }
    assert_eq!(read(&ac(&[accepted(1, b"1.2")])), Some(sheet_record(1, 0, b"", b"1.2")));
}

#[test]
fn a_20h_is_as_before() {
    for (behind, _) in behinds() {
        for reserved in 0..=5 {
            let proposed = item(0x20, &[&[1, 0, reserved, 0], &behind[..]].concat());
            assert_eq!(kind(&associate(1, &[proposed])).kind, 0);
        }
    }
    let names = [item(0x30, b"1.2"), item(0x40, b"1.2")].concat();
    assert_eq!(kind(&associate(1, &[item(0x20, &[&[1, 0, 3, 0], &names[..]].concat())])).kind, 1);
}

#[test]
fn the_rest_of_an_ac_is_as_before() {
    let refused = context(1, 3, b"");
    let good = ac(&[refused.clone()]);
    let mut without_bit = good.clone();
    without_bit[7] = 2;
    let mut longer = good.clone();
    longer.push(0);
    let two = [ac(&[refused.clone()]), user()].concat();
    for bad in [without_bit, longer, two, good[..good.len() - 1].to_vec(), ac(&[]), ac(&[refused, user()])] {
        assert_eq!(read(&bad), None);
    }
}

// Received.

/// An AC received in a state: the action, what is shown, the state after, and the ABORT's source and reason.
fn received(state: u8, pdu: &[u8], piece: usize) -> (u8, usize, u8, Option<[u8; 2]>) {
    let mut lent = fresh();
    lent.record = Record { state, artim: state == 2 || state == 13, ..Record::default() };
    let mut done = (0, 0, state, None);
    for part in pdu.chunks(piece) {
        let (answer, after) = receive(&lent, part);
        let abort = if answer.sent == 10 { Some([after.output[8], after.output[9]]) } else { None };
        assert_eq!((done.0, answer.refusal, answer.used), (0, 0, part.len()));
        done = (answer.action, answer.shown, after.record.state, abort);
        lent = after;
    }
    done
}

#[test]
fn received_in_sta5_and_elsewhere() {
    for (behind, good) in behinds() {
        let taken = ac(&[context(1, 4, &behind)]);
        for piece in [1, 7, taken.len()] {
            assert_eq!(received(5, &taken, piece), (3, taken.len(), 6, None));
            assert_eq!(received(6, &taken, piece), (28, 0, 13, Some([2, 2])));
            assert_eq!(received(13, &taken, piece), (26, 0, 13, None));
        }
        let as_before = ac(&[context(1, 0, &behind)]);
        if !good {
            assert_eq!(received(5, &as_before, 9), (28, 0, 13, Some([2, 6])));
            assert_eq!(received(13, &as_before, 9), (27, 0, 13, Some([2, 6])));
        }
        assert_eq!(received(5, &ac(&[context(1, 5, &behind)]), 9), (28, 0, 13, Some([2, 6])));
    }
}

// Sent.

fn send(sheet: &[u8]) -> Result<Vec<u8>, u8> {
    write::ac(&[7; 64], b"1.2", &plain(), sheet)
}

#[test]
fn the_written_form() {
    for result in 1..=4 {
        let pdu = send(&[sheet_record(3, 0, b"", b"1.3"), refused_record(1, result)].concat()).unwrap();
        let items = [
            vec![0x10, 0, 0, 3, b'1', b'.', b'2'],
            vec![0x21, 0, 0, 11, 3, 0, 0, 0, 0x40, 0, 0, 3, b'1', b'.', b'3'],
            vec![0x21, 0, 0, 8, 1, 0, result, 0, 0x40, 0, 0, 0],
            vec![0x50, 0, 0, 15, 0x51, 0, 0, 4, 0, 0, 0x40, 0, 0x52, 0, 0, 3, b'1', b'.', b'2'],
        ];
        assert_eq!(pdu[74..], items.concat()[..]);
    }
    // Case 3's AC is 134 with a name of 17 bytes and no 52H.
    let pdu = write::ac(&[7; 64], b"1.2.840.10008.3.1.1.1", &plain(), &refused_record(1, 3)).unwrap();
    assert_eq!((pdu[5], pdu.len()), (134 - 17 + 7, 140 - 17 + 7));
}

#[test]
fn what_is_read_can_be_sent_and_reads_again() {
    for (behind, _) in behinds() {
        let sheet = read(&ac(&[context(1, 2, &behind), accepted(3, b"1.3"), context(5, 4, &behind)])).unwrap();
        assert_eq!(read(&send(&sheet).unwrap()).map(|again| again == sheet), Some(true));
    }
}

/// A refused record, right or with one byte changed, behind a good one: what 2 and a answer.
fn refusals(record: &[u8]) -> (String, String) {
    let sheet = [&sheet_record(3, 0, b"", b"1.3"), record].concat();
    let words = format!("{} 312e32 {} {}", hex(&[7; 64]), user_words(&plain()), hex(&sheet));
    let first = |line: String| Replay::new().answer(&line).split(' ').next().unwrap_or("").to_string();
    (first(format!("2 {} 16390", words)), first(format!("a 3 0 0 0 0 0 0 - 16390 {}", words)))
}

#[test]
fn a_refused_record_carries_no_transfer_name() {
    let answered = |number: &str| (number.to_string(), number.to_string());
    for result in 1..=4 {
        assert_eq!(refusals(&refused_record(1, result)), answered("0"));
        for name in [&b"1"[..], b"1.2", b"1.02", b"x", &[b'1'; 64], &[0; 3]] {
            assert_eq!(refusals(&sheet_record(1, result, b"", name)), answered("4"));
        }
        // Transfer length 0 and any byte of the field, its first and its last too.
        for place in 68..RECORD {
            for value in [1, b'1', 0x80, 0xff] {
                let mut record = refused_record(1, result);
                record[place] = value;
                assert_eq!(refusals(&record), answered("4"), "{}", place);
            }
        }
        // Any other transfer length, the field zero.
        for length in 1..=255 {
            let mut record = refused_record(1, result);
            record[3] = length;
            assert_eq!(refusals(&record), answered("4"), "{}", length);
        }
        // A name whose length is forgotten.
        let mut record = sheet_record(1, result, b"", b"1.2");
        record[3] = 0;
        assert_eq!(refusals(&record), answered("4"));
    }
}

#[test]
fn other_rules_of_an_answer_are_as_before() {
    let changed = |place: usize, value: u8| {
        let mut record = refused_record(1, 3);
        record[place] = value;
        send(&record).err()
    };
    for (place, value) in [(0, 0), (0, 2), (0, 254), (1, 5), (1, 255), (2, 1), (2, 65), (4, 1), (67, 1)] {
        assert_eq!(changed(place, value), Some(4), "{} {}", place, value);
    }
    // Result 0 wants a name.
    assert_eq!((changed(1, 0), send(&sheet_record(1, 0, b"", b"0")).err()), (Some(4), None));
    assert_eq!(send(&sheet_record(1, 0, b"", b"")), Err(4));
    assert_eq!(send(&sheet_record(1, 5, b"", b"1.2")), Err(4));
    // IDs differ, whatever the results.
    for again in [refused_record(1, 3), refused_record(1, 4), sheet_record(1, 0, b"", b"1.2")] {
        assert_eq!(send(&[refused_record(1, 3), again.clone()].concat()), Err(4));
        assert_eq!(send(&[again.clone(), refused_record(3, 3), refused_record(1, 3)].concat()), Err(4));
    }
    assert_eq!(send(&refused_record(1, 3)[..131]), Err(4));
    // All refused is good.
    assert!(send(&[refused_record(1, 1), refused_record(3, 2), refused_record(255, 4)].concat()).is_ok());
}

#[test]
fn a_refused_record_is_none_of_a_proposal() {
    let titles: (&[u8], &[u8]) = (b"STORE-EQUINE    ", b"STORE-EXOTIC    ");
    for result in 0..=4 {
        let record = sheet_record(1, result, b"1.2", b"");
        assert_eq!(write::rq(titles.0, titles.1, b"1.2", &plain(), &record), Err(4));
        assert_eq!(write::rq(titles.0, titles.1, b"1.2", &plain(), &refused_record(1, result)), Err(4));
    }
}

#[test]
fn four_is_tested_in_its_place() {
    let before = format!("{} 312e32 {}", hex(&[7; 64]), user_words(&plain()));
    let bad = format!("{} {}", before, hex(&sheet_record(1, 3, b"", b"1.2")));
    let good = format!("{} {}", before, hex(&refused_record(1, 3)));
    let refusal = |line: String| Replay::new().answer(&line)[..1].to_string();
    // After 6, 3 and 1; before 2, which is by need: 112 bytes.
    assert_eq!(refusal(format!("a 3 0 0 1 0 0 0 - 0 {}", bad)), "6");
    assert_eq!(refusal(format!("a 3 1 0 0 0 0 0 - 0 {}", bad)), "3");
    assert_eq!(refusal(format!("a 6 0 0 0 0 0 0 - 0 {}", bad)), "1");
    assert_eq!(refusal(format!("a 3 0 0 0 0 0 0 - 0 {}", bad)), "4");
    assert_eq!(refusal(format!("a 3 0 0 0 0 0 0 - 111 {}", good)), "2");
    assert_eq!(refusal(format!("a 3 0 0 0 0 0 0 - 112 {}", good)), "0");
    assert_eq!((refusal(format!("2 {} 0", bad)), refusal(format!("2 {} 111", good))), ("4".into(), "2".into()));
    let sent = send(&refused_record(1, 3)).unwrap();
    assert_eq!(Replay::new().answer(&format!("2 {} 112", good)), format!("0 112 {}", digest(&sent)));
}

#[test]
fn chosen_answers_that_refuse_carry_no_name_and_can_be_sent() {
    let record = |id: u8, abstract_name: &[u8], transfer: &[u8]| sheet_record(id, 0, abstract_name, transfer);
    let proposal = [record(1, b"1.1", b"5"), record(3, b"1.2", b"5"), record(3, b"1.2", b"6"), record(5, b"1.3", b"5")];
    let site = [record(0, b"1.2", b"7"), record(0, b"1.3", b"5")].concat();
    let (count, sheet) = choose(&proposal.concat(), &site, &[0xc3; 3 * RECORD]).unwrap();
    let expected = [refused_record(1, 3), refused_record(3, 4), sheet_record(5, 0, b"", b"5")].concat();
    assert_eq!((count, &sheet), (3, &expected));
    assert_eq!(read(&send(&sheet).unwrap()), Some(expected));
}

// Generated calls, judged once more from their bytes.

/// The items of some bytes as type and body; None where they don't fill them.
fn items(mut bytes: &[u8]) -> Option<Vec<(u8, &[u8])>> {
    let mut found = Vec::new();
    while let [kind, _, high, low, rest @ ..] = bytes {
        let length = *high as usize * 256 + *low as usize;
        found.push((*kind, rest.get(..length)?));
        bytes = &rest[length..];
    }
    if bytes.is_empty() {
        Some(found)
    } else {
        None
    }
}

fn all_of(kind: u8, found: &[(u8, &[u8])]) -> Vec<Vec<u8>> {
    found.iter().filter(|(k, _)| *k == kind).map(|(_, body)| body.to_vec()).collect()
}

/// The record of a 21H's body.
fn record_of(body: &[u8]) -> Option<Vec<u8>> {
    let result = *body.get(2)?;
    if body.len() < 4 || body[0] % 2 == 0 || result > 4 {
        return None;
    }
    if result > 0 {
        return Some(refused_record(body[0], result));
    }
    match &all_of(0x40, &items(&body[4..])?)[..] {
        [name] if name_is_valid(name) => Some(sheet_record(body[0], 0, b"", name)),
        _ => None,
    }
}

/// The sheet of an AC, from its bytes; None where it is invalid.
fn sheet_of(pdu: &[u8]) -> Option<Vec<u8>> {
    let length = pdu.len().checked_sub(6)?;
    if pdu[0] != 2 || !(68..=16_384).contains(&length) || pdu[2..6] != (length as u32).to_be_bytes() || pdu[7] & 1 == 0
    {
        return None;
    }
    let known: Vec<(u8, &[u8])> =
        items(&pdu[74..])?.into_iter().filter(|(kind, _)| [0x10, 0x21, 0x50].contains(kind)).collect();
    let (first, last) = (known.first()?, known.last()?);
    let between = known.get(1..known.len() - 1)?;
    let maximum = all_of(0x51, &items(last.1)?);
    let frame_is_good = first.0 == 0x10 && name_is_valid(first.1) && last.0 == 0x50;
    if !frame_is_good || between.is_empty() || maximum.len() != 1 || maximum[0].len() != 4 {
        return None;
    }
    let records: Option<Vec<Vec<u8>>> =
        between.iter().map(|(kind, body)| if *kind == 0x21 { record_of(body) } else { None }).collect();
    let records = records?;
    let again = |i: usize| records[..i].iter().any(|record| record[0] == records[i][0]);
    if (0..records.len()).any(again) {
        None
    } else {
        Some(records.concat())
    }
}

/// Whether an answer's sheet may be sent, from its bytes.
fn answer_is_good(sheet: &[u8]) -> bool {
    let records: Vec<&[u8]> = sheet.chunks(RECORD).collect();
    let record_is_good = |i: usize| {
        let (record, length) = (records[i], records[i][3] as usize);
        let name_is_good = if record[1] == 0 {
            length <= 64 && name_is_valid(&record[68..68 + length]) && record[68 + length..].iter().all(|b| *b == 0)
        } else {
            length == 0 && record[68..].iter().all(|b| *b == 0)
        };
        let first = records.iter().position(|other| other[0] == record[0]) == Some(i);
        first
            && name_is_good
            && record[0] % 2 == 1
            && record[1] < 5
            && record[2..3].iter().chain(&record[4..68]).all(|b| *b == 0)
    };
    !sheet.is_empty() && sheet.len() % RECORD == 0 && (0..records.len()).all(record_is_good)
}

/// So many calls of the two branches, and the generator with its marks.
fn generated(seed: u64, count: usize) -> (Vec<Call>, Generator) {
    let mut generator = Generator::new(seed);
    generator.calls.clear();
    for _ in 0..count {
        generator.refused_contexts();
        generator.refused_records();
    }
    (generator.calls.drain(..).collect(), generator)
}

#[test]
fn generated_calls_judged_from_their_bytes() {
    let mut judged = BTreeMap::new();
    for call in generated(21, 1_500).0 {
        let words: Vec<&str> = call.line.split(' ').collect();
        let agrees = match words[0] {
            "A" => {
                let room: usize = words[2].parse().unwrap();
                match sheet_of(&bytes_of(words[1])) {
                    None => call.last.refusal == 7,
                    Some(sheet) if room < sheet.len() => call.last.refusal == 2,
                    Some(mut sheet) => {
                        sheet.resize(room, 0xc3);
                        call.last.refusal == 0 && call.answer.split(' ').nth(13) == Some(&digest(&sheet).to_string())
                    }
                }
            }
            "K" => (call.last.kind == 2) == sheet_of(&bytes_of(words[1])).is_some(),
            "2" | "a" => {
                let sheet = bytes_of(words[if words[0] == "2" { 8 } else { 17 }]);
                answer_is_good(&sheet) || call.last.refusal == 4
            }
            _ => continue,
        };
        assert!(agrees, "{} {}", call.line, call.answer);
        *judged.entry(words[0].to_string()).or_insert(0) += 1;
    }
    assert!(judged.len() == 4 && judged.values().all(|count| *count > 200), "{:?}", judged);
}

#[test]
fn what_the_generator_puts_behind() {
    let node =
        |result: u8| move |_: &mut Random| Node::holder(0x21, &[1, 0, result, 0], vec![Node::leaf(0x40, b"1.2")]);
    let valid = |node: &Node| kind(&ac(&[node.bytes()])).kind == 2;
    check_twists(&[BEHIND], &mut node(0), &valid);
    for twist in BEHIND {
        for result in 1..=4 {
            let mut random = Random::new(result as u64);
            let mut refused = node(result)(&mut random);
            (twist.edit)(&mut refused, &mut random);
            assert!(valid(&refused), "{}", twist.name);
        }
    }
}

/// What stands behind the four fixed bytes of a context.
fn edge(behind: &[u8]) -> &'static str {
    match (behind, items(behind)) {
        ([], _) => "nothing",
        ([0x40, _, 0, 0], _) => "an empty name",
        ([_] | [_, _] | [_, _, _], _) => "a remainder alone",
        (_, None) => "not filled",
        (_, Some(found)) => match &all_of(0x40, &found)[..] {
            [] => "no 40H",
            [name] if name_is_valid(name) => "a good name",
            [_] => "a bad name",
            _ => "several 40H",
        },
    }
}

/// The edges of an AC's refused contexts.
fn edges(pdu: &[u8]) -> Vec<&'static str> {
    let top = items(&pdu[74..]).unwrap_or_default();
    let contexts = all_of(0x21, &top);
    contexts.iter().filter(|body| (1..5).contains(&body[2])).map(|body| edge(&body[4..])).collect()
}

#[test]
fn every_edge_is_generated() {
    let (calls, generator) = generated(1, 1_500);
    let faults = FAULTS.iter().map(|twist| format!("twist: {}", twist.name));
    let sheets = twist_marks().into_iter().filter(|mark| mark.starts_with("answer of "));
    for mark in behind_marks().into_iter().chain(faults).chain(sheets) {
        assert!(generator.marks.count(&mark) > 3, "{}", mark);
    }
    // By the bytes: read by A, judged by K, taken in Sta5.
    let mut met: BTreeMap<(&str, &str), u32> = BTreeMap::new();
    for call in &calls {
        let words: Vec<&str> = call.line.split(' ').collect();
        let (name, pdu) = match words[0] {
            "A" if call.last.refusal == 0 => ("A", bytes_of(words[1])),
            "K" if call.last.kind == 2 => ("K", bytes_of(words[1])),
            "r" if call.last.answer.action == 3 && words[1] == "5" => {
                let gathered: usize = words[2].parse().unwrap();
                ("r", [&bytes_of(words[8])[..gathered], &bytes_of(words[10])].concat())
            }
            _ => continue,
        };
        let whole = 6 + u16::from_be_bytes([pdu[4], pdu[5]]) as usize;
        for edge in edges(&pdu[..whole]) {
            *met.entry((name, edge)).or_insert(0) += 1;
        }
    }
    assert!(met.len() == 3 * 8 && met.values().all(|count| *count > 3), "{:?}", met);
    let refused =
        |name: &str| calls.iter().filter(|call| call.line.starts_with(name) && call.last.refusal == 4).count();
    let sent = |name: &str| calls.iter().filter(|call| call.line.starts_with(name) && call.last.refusal == 0).count();
    assert!(["2 ", "a "].iter().all(|name| refused(name) > 100 && sent(name) > 50));
}

#[test]
fn long_refused_contexts_are_generated() {
    let mut generator = Generator::new(4);
    generator.calls.clear();
    (0..24).for_each(|_| generator.limit_in_full());
    (0..120).for_each(|_| generator.limit_in_few_words());
    let met = |call: &str, done: &dyn Fn(&Call) -> bool| {
        generator.calls.iter().filter(|c| c.line.starts_with(call) && done(c)).count()
    };
    // PDU-lengths 16,384 and 16,385; received with results 1 to 4, and 0.
    assert_eq!((met("A ", &|call| call.last.refusal == 0), met("A ", &|call| call.last.refusal == 7)), (1, 1));
    let filled = |action: u8| met("r 5 16378 ", &|call| call.last.answer.action == action);
    assert!(filled(3) > 5 && filled(28) > 0, "{} {}", filled(3), filled(28));
}

#[test]
fn calls_with_refused_contexts_come_often() {
    let mut generator = Generator::new(6);
    (0..6_000).for_each(|_| drop(generator.next()));
    let often = |name: &str| generator.marks.count(&format!("branch: {}", name));
    let (read, sent) = (often("AC with refused contexts"), often("answer with refused records"));
    let chosen = generator.marks.count("C: the answers are sent");
    assert!(read > 180 && sent > 90 && chosen > 15, "{} {} {}", read, sent, chosen);
}
