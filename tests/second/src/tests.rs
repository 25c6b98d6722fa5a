//! Tests: document 01's cases, the table, the traps, the twists, and cuts that change nothing.

use std::collections::BTreeSet;

use crate::calls_choose::good_choice;
use crate::choose::choose;
use crate::contents::{good_sheet, Sheet, ABSTRACT, ANSWER, PROPOSAL, REFUSED, SHEET, SITE};
use crate::fields::{kind, pdv_at, read_ac, read_pdv, read_rj, read_rq, sheet_record};
use crate::generate::{filled_cells, hex, Generator};
use crate::items::four_bytes;
use crate::machine::{
    action_number, cell, length_is_broken, local_event, receive, record_is_broken, Answer, Lent, Record, Request,
    RECEIVED, TABLE_9_10,
};
use crate::make::{good_data, good_plan, good_short};
use crate::marks::Marks;
use crate::names::{name_is_valid, title_is_valid, titles_equal};
use crate::pdus::{invalid_pdu, over_length_header, rq_with_version, valid_pdu};
use crate::random::Random;
use crate::refused::FAULTS;
use crate::replay::{digest, fresh, Replay};
use crate::twists::{Expect, Twist, ABORT, AC, BOTH, CONTROL_BITS, DATA, RJ, RQ, SHORT};
use crate::user::Given;
use crate::valid::{judge, Pdu};
use crate::write;

const APPLICATION: &[u8] = b"1.2.840.10008.3.1.1.1";
const VERIFICATION: &[u8] = b"1.2.840.10008.1.1";
const IMPLICIT: &[u8] = b"1.2.840.10008.1.2";
const EQUINE: &[u8] = b"STORE-EQUINE    ";
const EXOTIC: &[u8] = b"STORE-EXOTIC    ";

/// A class UID of 3 bytes and nothing else.
pub fn plain() -> Given {
    Given::class_alone(b"1.2")
}

pub fn in_state(state: u8) -> Lent {
    let mut lent = fresh();
    lent.record = Record { state, artim: state == 2 || state == 13, ..Record::default() };
    lent
}

fn case_3_rq() -> Vec<u8> {
    let sheet = sheet_record(1, 0, VERIFICATION, IMPLICIT);
    write::rq(EQUINE, EXOTIC, APPLICATION, &plain(), &sheet).unwrap()
}

fn case_3_ac() -> Vec<u8> {
    write::ac(&case_3_rq()[10..74], APPLICATION, &plain(), &sheet_record(1, 0, b"", IMPLICIT)).unwrap()
}

fn sent(answer: &Answer, lent: &Lent) -> Vec<u8> {
    lent.output[..answer.sent].to_vec()
}

// Cases 1 to 12.

#[test]
fn case_1_unknown_type_at_the_last_byte() {
    let mut piece = vec![8, 0, 0, 0, 0x40, 0];
    piece.resize(16_390, 0);
    piece.push(5);
    let (answer, after) = receive(&in_state(6), &piece);
    assert_eq!((answer.action, answer.used, answer.shown), (28, 16_390, 0));
    assert_eq!(sent(&answer, &after), [7, 0, 0, 0, 0, 4, 0, 0, 2, 1]);
    assert_eq!((after.record.state, after.record.deaf, after.record.gathered), (13, false, 0));
}

#[test]
fn case_2_over_length_at_the_sixth_byte() {
    for kind in [8u8, 4, 1].iter() {
        let (answer, after) = receive(&in_state(6), &[*kind, 0, 0, 0, 0x40, 1, 9, 9]);
        assert_eq!((answer.action, answer.used), (28, 6));
        assert_eq!(sent(&answer, &after), [7, 0, 0, 0, 0, 4, 0, 0, 2, 6]);
        assert!(after.record.deaf && after.record.state == 13 && after.record.gathered == 0);
        assert_eq!(after.gather[..7], [*kind, 0, 0, 0, 0x40, 1, 0xa5]);
        let (answer, later) = receive(&after, &[5, 0, 0, 0, 0, 4, 0, 0, 0, 0]);
        assert_eq!((answer.action, answer.used), (0, 10));
        assert_eq!(later, after);
    }
}

#[test]
fn case_3_lengths() {
    let (rq, ac) = (case_3_rq(), case_3_ac());
    // 155 and 134, and a 52H of 3 bytes.
    assert_eq!((four_bytes(&rq[2..]), rq.len()), (155 + 7, 161 + 7));
    assert_eq!((four_bytes(&ac[2..]), ac.len()), (134 + 7, 140 + 7));
    assert_eq!((kind(&rq).kind, kind(&ac).kind), (1, 2));
    assert_eq!(ac[10..74], rq[10..74]);
}

#[test]
fn case_4_titles() {
    assert!(titles_equal(b" STORE-EQUINE   ", EQUINE));
    assert!(!titles_equal(EXOTIC, EQUINE));
    assert!(!titles_equal(b"STORE EQUINE    ", EQUINE) && !titles_equal(b"store-equine    ", EQUINE));
}

#[test]
fn case_5_release_collision() {
    for requestor in [true, false].iter() {
        let mut lent = in_state(7);
        lent.record.requestor = *requestor;
        let (answer, after) = receive(&lent, &write::release_rq());
        assert_eq!(answer.action, 18);
        assert_eq!(after.record.state, if *requestor { 9 } else { 10 });
    }
}

#[test]
fn case_6_data_in_sta7_and_sta8() {
    let data = write::data(&[0, 0, 0, 2, 1, 0], 0).unwrap();
    let (answer, after) = receive(&in_state(7), &data);
    assert_eq!((answer.action, answer.shown, after.record.state), (16, 12, 7));
    let (answer, after) = receive(&in_state(8), &data);
    assert_eq!((answer.action, answer.shown, after.record.state), (28, 0, 13));
    assert_eq!(sent(&answer, &after)[8..], [2, 2]);
}

#[test]
fn case_7_rq_in_sta13() {
    let (answer, after) = receive(&in_state(13), &case_3_rq());
    assert_eq!((answer.action, after.record.state), (27, 13));
    assert_eq!(sent(&answer, &after)[8..], [2, 2]);
}

#[test]
fn case_8_abort_source_and_reason() {
    assert_eq!(kind(&[7, 0, 0, 0, 0, 4, 0, 0, 1, 0]).kind, 0);
    assert_eq!(kind(&[7, 0, 0, 0, 0, 4, 0, 0, 0, 9]).kind, 7);
}

#[test]
fn case_9_pdv_lengths() {
    assert_eq!(kind(&[4, 0, 0, 0, 0, 5, 0, 0, 0, 1, 1]).kind, 0);
    assert_eq!(kind(&[4, 0, 0, 0, 0, 6, 0, 0, 0, 2, 1, 0]).kind, 4);
    assert_eq!(kind(&[4, 0, 0, 0, 0, 0]).kind, 0);
}

#[test]
fn case_10_names() {
    assert!(name_is_valid(b"1.0") && name_is_valid(b"0"));
    assert!(!name_is_valid(b"1.02") && !name_is_valid(b"1.2.") && !name_is_valid(b""));
    assert!(name_is_valid(&[b'1'; 64]) && !name_is_valid(&[b'1'; 65]));
}

#[test]
fn case_11_versions() {
    let mut rq = case_3_rq();
    rq[7] = 2;
    let (answer, after) = receive(&in_state(2), &rq);
    assert_eq!((answer.action, answer.shown, after.record.state), (6, 0, 13));
    assert_eq!(sent(&answer, &after), [3, 0, 0, 0, 0, 4, 0, 1, 2, 2]);
    rq[7] = 3;
    let (answer, after) = receive(&in_state(2), &rq);
    assert_eq!((answer.action, answer.shown, after.record.state), (6, 168, 3));
    assert_eq!((after.record.peer_maximum, after.record.artim), (16_384, false));
}

#[test]
fn case_12_release_rq_then_abort() {
    let mut replay = Replay::new();
    let piece = [write::release_rq(), write::abort(0, 0).unwrap()].concat();
    assert!(replay.answer("e = 5").starts_with("0 5 0 0 0 2 "));
    assert!(replay.answer(&format!("r = {}", hex(&piece))).starts_with("0 21 10 10 0 13 "));
    assert!(replay.answer(&format!("r = {}", hex(&piece[10..]))).starts_with("0 22 10 0 0 1 "));
    assert!(replay.answer("e = 17").starts_with("1 0 0 0 0 1 "));
}

// Table 9-10.

/// The condensed form of document 01; "" for a blank cell.
fn condensed(event: u8, state: u8) -> &'static str {
    let received = |two, three, thirteen, own: &[(u8, &'static str)], other| match state {
        1 | 4 => "",
        2 => two,
        3 => three,
        13 => thirteen,
        _ => own.iter().find(|(s, _)| *s == state).map_or(other, |(_, action)| *action),
    };
    let local = |own: &[(u8, &'static str)]| own.iter().find(|(s, _)| *s == state).map_or("", |(_, action)| *action);
    match event {
        3 => received("AA-1", "AA-8", "AA-6", &[(5, "AE-3")], "AA-8"),
        4 => received("AA-1", "AA-8", "AA-6", &[(5, "AE-4")], "AA-8"),
        6 => received("AE-6", "AA-8", "AA-7", &[], "AA-8"),
        10 => received("AA-1", "AA-8", "AA-6", &[(6, "DT-2"), (7, "AR-6")], "AA-8"),
        12 => received("AA-1", "AA-8", "AA-6", &[(6, "AR-2"), (7, "AR-8")], "AA-8"),
        13 => received("AA-1", "AA-8", "AA-6", &[(7, "AR-3"), (11, "AR-3"), (10, "AR-10")], "AA-8"),
        16 => received("AA-2", "AA-3", "AA-2", &[], "AA-3"),
        19 => received("AA-1", "AA-8", "AA-7", &[], "AA-8"),
        1 => local(&[(1, "AE-1")]),
        5 => local(&[(1, "AE-5")]),
        2 => local(&[(4, "AE-2")]),
        7 => local(&[(3, "AE-7")]),
        8 => local(&[(3, "AE-8")]),
        9 => local(&[(6, "DT-1"), (8, "AR-7")]),
        11 => local(&[(6, "AR-1")]),
        14 => local(&[(8, "AR-4"), (12, "AR-4"), (9, "AR-9")]),
        15 if state == 4 => "AA-2",
        15 if state == 3 || (5..=12).contains(&state) => "AA-1",
        17 if state == 2 => "AA-5",
        17 if state == 13 => "AR-5",
        17 if state >= 3 => "AA-4",
        18 => local(&[(2, "AA-2"), (13, "AA-2")]),
        _ => "",
    }
}

/// The 28 next states of Tables 9-6 to 9-9; the first of two for AE-6 and AR-8.
const NEXT: [u8; 28] = [4, 5, 6, 1, 2, 3, 6, 13, 6, 6, 7, 8, 1, 13, 1, 7, 8, 9, 11, 12, 13, 1, 1, 1, 1, 13, 13, 13];

#[test]
fn table_has_247_cells_and_124_blank() {
    let cells: Vec<&str> = TABLE_9_10.iter().flat_map(|row| row.split('|')).collect();
    assert!(TABLE_9_10.iter().all(|row| row.split('|').count() == 13));
    assert_eq!(cells.len(), 247);
    assert_eq!(cells.iter().filter(|cell| cell.is_empty()).count(), 124);
    let mut numbers: Vec<u8> =
        cells.iter().filter(|c| !c.is_empty()).map(|c| action_number(c.split(' ').next().unwrap())).collect();
    numbers.sort();
    numbers.dedup();
    assert_eq!(numbers, (1..=28).collect::<Vec<u8>>());
}

#[test]
fn table_agrees_with_the_condensed_form() {
    assert_eq!((cell(0, 1), cell(20, 1), cell(1, 0), cell(16, 14)), (None, None, None, None));
    for event in 1..=19u8 {
        for state in 1..=13u8 {
            let printed = cell(event, state);
            assert_eq!(printed.map_or("", |c| c.action), condensed(event, state), "event {} state {}", event, state);
            if let Some(c) = printed {
                assert_eq!(c.next, NEXT[action_number(c.action) as usize - 1]);
                assert_eq!(
                    c.other,
                    match c.action {
                        "AE-6" => Some(13),
                        "AR-8" => Some(10),
                        _ => None,
                    }
                );
            }
        }
    }
}

// The traps of the rulings.

pub fn item(kind: u8, body: &[u8]) -> Vec<u8> {
    [&[kind, 0, 0, body.len() as u8], body].concat()
}

/// An RQ or AC of given items behind a good fixed part.
pub fn associate(kind: u8, items: &[Vec<u8>]) -> Vec<u8> {
    let body = [&[0, 1, 0, 0][..], EQUINE, EXOTIC, &[0; 32], &items.concat()].concat();
    write::pdu(kind, &body)
}

pub fn user() -> Vec<u8> {
    item(0x50, &item(0x51, &[0, 0, 0x40, 0]))
}

pub fn proposed(id: u8, inner: &[Vec<u8>]) -> Vec<u8> {
    item(0x20, &[vec![id, 0, 0, 0], inner.concat()].concat())
}

pub fn answered(id: u8, result: u8, inner: &[Vec<u8>]) -> Vec<u8> {
    item(0x21, &[vec![id, 0, result, 0], inner.concat()].concat())
}

#[test]
fn trap_1_what_is_known_where() {
    let names = [item(0x30, b"1.2"), item(0x40, b"1.2")];
    let (app, good) = (item(0x10, b"1.2"), proposed(1, &names));
    let rq = |items: &[Vec<u8>]| kind(&associate(1, items)).kind;
    let ac = |items: &[Vec<u8>]| kind(&associate(2, items)).kind;
    assert_eq!(rq(&[app.clone(), good.clone(), user()]), 1);
    for skipped in [item(0x21, &[2]), answered(1, 9, &[]), item(0x30, b"x"), item(0x40, b""), item(0x51, &[1])].iter() {
        assert_eq!(rq(&[skipped.clone(), app.clone(), good.clone(), skipped.clone(), user(), skipped.clone()]), 1);
    }
    let answer = answered(1, 0, &names[1..]);
    for skipped in [item(0x20, &[2]), proposed(1, &names), item(0x52, b"")].iter() {
        assert_eq!(ac(&[app.clone(), skipped.clone(), answer.clone(), user(), skipped.clone()]), 2);
    }
    assert_eq!(ac(&[app.clone(), answered(1, 0, &[item(0x30, b"bad"), names[1].clone()]), user()]), 2);
    assert_eq!(
        rq(&[
            app.clone(),
            proposed(1, &[names[0].clone(), item(0x10, b"x"), names[1].clone(), item(0x50, b"")]),
            user()
        ]),
        1
    );
    assert_eq!(
        rq(&[
            app.clone(),
            good.clone(),
            item(0x50, &[item(0x10, b"x"), item(0x51, &[0; 4]), item(0x50, b"")].concat())
        ]),
        1
    );
    assert_eq!(rq(&[app.clone(), good.clone(), item(0x50, &[item(0x51, &[0; 4]), vec![0, 0, 0]].concat())]), 0);
    assert_eq!(rq(&[app.clone(), good.clone(), item(0x60, &[1, 2, 3]), user()]), 1);
    assert_eq!(rq(&[app, answer, user()]), 0);
}

#[test]
fn trap_2_version_of_an_otherwise_bad_rq() {
    let mut rq = case_3_rq();
    rq[7] = 2;
    for (state, action, tail) in [(13u8, 27u8, [2u8, 2u8]), (3, 28, [2, 2]), (6, 28, [2, 2])].iter() {
        let (answer, after) = receive(&in_state(*state), &rq);
        assert_eq!(answer.action, *action);
        assert_eq!(sent(&answer, &after)[8..], *tail);
    }
    assert_eq!(read_rq(&rq, &[0; 132], &[]).unwrap().0.version, 2);
    assert!(!kind(&rq).acceptable);
    rq[10] = 0x5c;
    let (answer, after) = receive(&in_state(2), &rq);
    assert_eq!((answer.action, sent(&answer, &after)), (21, vec![7, 0, 0, 0, 0, 4, 0, 0, 0, 0]));
}

#[test]
fn trap_3_what_is_shown() {
    let rj = write::rj(1, 1, 1).unwrap();
    let (answer, after) = receive(&in_state(5), &rj);
    assert_eq!((answer.action, answer.shown, after.record.state, after.record.gathered), (4, 10, 1, 0));
    assert_eq!(after.gather[..10], rj[..]);
    let abort = write::abort(2, 1).unwrap();
    let (answer, after) = receive(&in_state(12), &abort);
    assert_eq!((answer.action, answer.shown, after.record), (23, 10, in_state(1).record));
    for state in [2u8, 13].iter() {
        let (answer, _) = receive(&in_state(*state), &abort);
        assert_eq!((answer.action, answer.shown), (22, 0));
    }
    let (answer, after) = receive(&in_state(5), &case_3_ac());
    assert_eq!((answer.action, answer.shown, after.record.peer_maximum), (3, 147, 16_384));
    let (answer, _) = receive(&in_state(6), &write::release_rq());
    assert_eq!((answer.action, answer.shown), (12, 0));
}

fn refusal(call: &str) -> String {
    Replay::new().answer(call).split(' ').next().unwrap_or("").to_string()
}

#[test]
fn trap_4_order_of_refusals() {
    // Receiving: 6, 3, 6 (L), 2.
    assert_eq!(refusal("r 0 0 0 0 0 0 0 - 0 -"), "6");
    assert_eq!(refusal("r 6 6 0 0 0 0 16389 0400ffffffff 0 -"), "3");
    assert_eq!(refusal("r 6 6 0 0 0 0 16390 0400ffffffff 0 -"), "6");
    assert_eq!(refusal("r 6 6 0 0 0 0 16390 040000000000 0 -"), "6");
    for state in ["1 0 0 0", "4 0 0 0", "13 0 1 1", "6 0 0 0"].iter() {
        assert_eq!(refusal(&format!("r {} 0 0 16390 - 9 -", state)), "2");
        assert_eq!(refusal(&format!("r {} 0 0 16390 - 10 -", state)), "0");
        assert_eq!(refusal(&format!("r {} 0 0 16389 - 9 -", state)), "3");
    }
    // Local events: 6, 3, 6 (L), 1, 4, 5, 2; room by need.
    assert_eq!(refusal("e 6 7 0 0 0 0 6 0400ffffffff 0 1"), "3");
    assert_eq!(refusal("e 6 7 0 0 0 0 7 0400ffffffff 0 1"), "6");
    assert_eq!(refusal("e 6 7 0 0 0 0 7 040000000002 0 1"), "1");
    assert_eq!(refusal("e 6 7 0 0 0 0 7 040000000002 9 11"), "2");
    assert_eq!(refusal("e 6 7 0 0 0 0 7 040000000002 0 17"), "0");
    assert_eq!(refusal("e 1 0 0 0 0 0 0 - 0 1"), "0");
    assert_eq!(refusal("d 6 0 0 0 0 5 0 - 0 00000001"), "4");
    assert_eq!(refusal("d 6 0 0 0 0 5 0 - 0 000000020100"), "5");
    assert_eq!(refusal("d 6 0 0 0 0 6 0 - 11 000000020100"), "2");
    assert_eq!(refusal("d 6 0 0 0 0 6 0 - 12 000000020100"), "0");
    assert_eq!(refusal("d 3 0 0 0 0 6 0 - 12 -"), "1");
}

#[test]
fn clauses_of_refusal_6() {
    let good = |state: u8| in_state(state).record;
    assert!((1..=13).all(|state| !record_is_broken(&good(state))));
    assert!(record_is_broken(&Record { state: 0, ..good(1) }) && record_is_broken(&Record { state: 14, ..good(6) }));
    assert!(
        record_is_broken(&Record { gathered: 16_390, ..good(6) })
            && !record_is_broken(&Record { gathered: 16_389, ..good(6) })
    );
    assert!(
        record_is_broken(&Record { gathered: 1, ..good(1) }) && record_is_broken(&Record { gathered: 1, ..good(4) })
    );
    assert!(record_is_broken(&Record { gathered: 1, deaf: true, ..good(13) }));
    assert!(
        !record_is_broken(&Record { deaf: true, ..good(13) }) && record_is_broken(&Record { deaf: true, ..good(2) })
    );
    assert!(
        record_is_broken(&Record { artim: true, ..good(6) }) && record_is_broken(&Record { artim: false, ..good(2) })
    );
    assert!(
        record_is_broken(&Record { requestor: true, ..good(1) })
            && !record_is_broken(&Record { requestor: true, ..good(2) })
    );
    assert!(
        record_is_broken(&Record { peer_maximum: 1, ..good(1) })
            && !record_is_broken(&Record { peer_maximum: 1, ..good(4) })
    );
    let with = |gathered, header: [u8; 6]| length_is_broken(&Record { gathered, ..good(6) }, &header);
    assert!(!with(5, [4, 0, 255, 255, 255, 255]) && with(6, [4, 0, 255, 255, 255, 255]));
    assert!(!with(16_389, [4, 0, 0, 0, 0x40, 0]) && with(6, [4, 0, 0, 0, 0x40, 1]));
    assert!(with(6, [4, 0, 0, 0, 0, 0]) && !with(9, [4, 0, 0, 0, 0, 4]) && with(10, [4, 0, 0, 0, 0, 4]));
}

#[test]
fn trap_5_over_length_in_sta2_and_sta13() {
    let (answer, after) = receive(&in_state(2), &[0xff, 0, 0xff, 0, 0, 0]);
    assert_eq!((answer.action, sent(&answer, &after)[8..].to_vec(), after.record.deaf), (21, vec![0, 0], true));
    let (answer, after) = receive(&in_state(13), &[0xff, 0, 0xff, 0, 0, 0]);
    assert_eq!((answer.action, sent(&answer, &after)[8..].to_vec(), after.record.deaf), (27, vec![2, 6], true));
    let (answer, after) = receive(&in_state(6), &[9, 0, 0, 0, 0, 0, 9]);
    assert_eq!((answer.used, sent(&answer, &after)[8..].to_vec(), after.record.deaf), (6, vec![2, 1], false));
    let (answer, after) = receive(&in_state(6), &[5, 0, 0, 0, 0, 0]);
    assert_eq!((answer.action, sent(&answer, &after)[8..].to_vec()), (28, vec![2, 6]));
    let (_, after) =
        local_event(&Lent { record: Record { deaf: true, ..in_state(13).record }, ..fresh() }, &Request::Number(18));
    assert_eq!(after.record, in_state(1).record);
}

#[test]
fn trap_6_second_run() {
    let one = sheet_record(1, 0, b"1.2", b"1.3");
    let same = sheet_record(1, 0, b"1.2", b"1.4");
    let other = sheet_record(1, 0, b"1.5", b"1.3");
    let three = sheet_record(3, 0, b"1.2", b"1.3");
    let write = |records: &[&Vec<u8>]| {
        let sheet: Vec<u8> = records.iter().flat_map(|r| r.iter().copied()).collect();
        write::rq(EQUINE, EXOTIC, b"1.2", &plain(), &sheet).map(|bytes| bytes.len())
    };
    assert!(write(&[&one, &same, &one, &three]).is_ok());
    assert_eq!(write(&[&one, &other]), Err(4));
    assert_eq!(write(&[&one, &three, &one]), Err(4));
}

#[test]
fn trap_7_items_of_a_local_request() {
    let items = [0, 0, 0, 2, 1, 3];
    assert_eq!(write::data(&items, 0).map(|b| b.len()), Ok(12));
    assert_eq!(write::data(&items, 6).map(|b| b.len()), Ok(12));
    assert_eq!(write::data(&items, 5), Err(5));
    assert_eq!(write::data(&[0, 0, 0, 2, 1, 4], 5), Err(4));
    assert_eq!(write::data(&[], 0), Err(4));
    assert_eq!(write::data(&[0, 0, 0, 2, 2, 0], 0), Err(4));
    assert_eq!(write::data(&[255, 255, 255, 255, 1, 0], 0), Err(4));
    assert_eq!(kind(&[4, 9, 0, 0, 0, 6, 0, 0, 0, 2, 1, 0xff]).kind, 4);
}

#[test]
fn trap_8_reserved_bytes_are_never_tested() {
    assert_eq!(kind(&[5, 0xff, 0, 0, 0, 4, 0xde, 0xad, 0xbe, 0xef]).kind, 5);
    assert_eq!(kind(&[6, 0xff, 0, 0, 0, 4, 0xde, 0xad, 0xbe, 0xef]).kind, 6);
    assert_eq!(read_rj(&[3, 7, 0, 0, 0, 4, 0x66, 2, 3, 2]), Ok((2, 3, 2)));
    let mut ac = case_3_ac();
    for byte in ac[8..74].iter_mut() {
        *byte = 0;
    }
    ac[1] = 0xff;
    assert_eq!(kind(&ac).kind, 2);
    let mut rq = case_3_rq();
    rq[25] = 0;
    assert_eq!(kind(&rq).kind, 0);
}

#[test]
fn pdv_by_number() {
    let bytes = [4, 0, 0, 0, 0, 15, 0, 0, 0, 5, 1, 0xff, 7, 8, 9, 0, 0, 0, 2, 3, 0];
    let part = read_pdv(&bytes, 0).unwrap();
    assert_eq!((part.id, part.control, part.start, part.length, part.fragment), (1, 0xff, 12, 3, &[7u8, 8, 9][..]));
    let part = read_pdv(&bytes, 1).unwrap();
    assert_eq!((part.id, part.control, part.start, part.length, part.fragment), (3, 0, 21, 0, &[][..]));
    assert_eq!((read_pdv(&bytes, 2), read_pdv(&bytes, u64::MAX)), (Err(4), Err(4)));
    assert_eq!(read_pdv(&write::release_rq(), 9), Err(7));
}

#[test]
fn pdv_by_place() {
    let mut bytes = [4, 0, 0, 0, 0, 15, 0, 0, 0, 5, 1, 0xff, 7, 8, 9, 0, 0, 0, 2, 3, 0];
    assert_eq!(pdv_at(&bytes, 6), read_pdv(&bytes, 0));
    assert_eq!(pdv_at(&bytes, 15), read_pdv(&bytes, 1));
    for place in (0..6).chain([7, 14, 16, 21, 22, u64::MAX - 5, u64::MAX]) {
        assert_eq!(pdv_at(&bytes, place), Err(4));
    }
    assert_eq!(pdv_at(&bytes[..20], 15), Err(4));
    bytes[0] = 7;
    bytes[19] = 2;
    assert_eq!(pdv_at(&bytes, 6).map(|part| (part.id, part.start, part.length)), Ok((1, 12, 3)));
    assert_eq!(pdv_at(&bytes, 15), Err(4));
    assert_eq!(pdv_at(&[4, 0, 0, 0, 0, 2, 1, 3], 2), Err(4));
    assert_eq!(pdv_at(&[], 6), Err(4));
}

/// 04H with two PDVs; the places of the items are 6 and 14.
const TWO_PDVS: [u8; 22] = [4, 0, 0, 0, 0, 16, 0, 0, 0, 4, 1, 3, 0xaa, 0xbb, 0, 0, 0, 4, 3, 2, 0xcc, 0xdd];

/// ID, control byte, start and length of the PDV item at a place.
fn placed(bytes: &[u8], place: u64) -> Result<(u8, u8, usize, usize), u8> {
    let part = pdv_at(bytes, place)?;
    assert_eq!(part.fragment, &bytes[part.start..part.start + part.length]);
    Ok((part.id, part.control, part.start, part.length))
}

/// Thirteen bytes: a header, an item's length field, and three bytes for it to count.
fn thirteen(length: u32) -> Vec<u8> {
    [&[4, 0, 0, 0, 0, 7][..], &length.to_be_bytes(), &[1, 3, 0xaa]].concat()
}

#[test]
fn places_of_two_pdvs() {
    assert_eq!(placed(&TWO_PDVS, 6), Ok((1, 3, 12, 2)));
    assert_eq!(placed(&TWO_PDVS, 14), Ok((3, 2, 20, 2)));
    let far = [(1 << 32) + 6, (1 << 32) + 14, 1 << 63, (1 << 63) + 6];
    for place in (0..6).chain(7..14).chain(15..40).chain(far).chain((0..16).map(|less| u64::MAX - less)) {
        assert_eq!(placed(&TWO_PDVS, place), Err(4), "{}", place);
        let answer = Replay::new().answer(&format!("P {} {}", hex(&TWO_PDVS), place));
        assert_eq!(answer, "4 0 0 0 0");
    }
    assert_eq!(Replay::new().answer(&format!("P {} 14", hex(&TWO_PDVS))), "0 3 2 20 2");
    for place in [0, 1, 5, 6, 7, 1 << 32, 1 << 63, u64::MAX - 5, u64::MAX] {
        assert_eq!(placed(&[], place), Err(4));
    }
}

#[test]
fn a_whole_item_below_place_6_is_refused() {
    for place in 0..12usize {
        let bytes = [&vec![0; place][..], &[0, 0, 0, 3, 1, 3, 0xaa]].concat();
        let expected = if place < 6 { Err(4) } else { Ok((1, 3, place + 6, 1)) };
        assert_eq!(placed(&bytes, place as u64), expected);
    }
}

#[test]
fn lengths_of_a_placed_pdv() {
    assert_eq!(placed(&thirteen(3), 6), Ok((1, 3, 12, 1)));
    assert_eq!(placed(&thirteen(2), 6), Ok((1, 3, 12, 0)));
    assert_eq!(placed(&thirteen(2)[..12], 6), Ok((1, 3, 12, 0)));
    for length in [0, 1, 4, 5, 0x0000_0103, 0x0001_0003, 0x0100_0003, 0x0300_0000, 0x7fff_ffff, 0x8000_0003] {
        assert_eq!(placed(&thirteen(length), 6), Err(4), "{:x}", length);
    }
    for less in 0..16 {
        assert_eq!(placed(&thirteen(u32::MAX - less), 6), Err(4), "2^32 - 1 - {}", less);
    }
    // Cut anywhere, and lengths 0 and 1 that end the bytes.
    for left in 0..13 {
        assert_eq!(placed(&thirteen(3)[..left], 6), Err(4), "{} bytes", left);
    }
    assert_eq!((placed(&thirteen(0)[..10], 6), placed(&thirteen(1)[..11], 6)), (Err(4), Err(4)));
}

#[test]
fn ids_controls_and_headers_of_a_placed_pdv() {
    let mut bytes = thirteen(3);
    for id in 0..=255u8 {
        bytes[10] = id;
        assert_eq!(placed(&bytes, 6), if id % 2 == 0 { Err(4) } else { Ok((id, 3, 12, 1)) });
    }
    for control in 0..=255u8 {
        bytes[11] = control;
        assert_eq!(placed(&bytes, 6), Ok((255, control, 12, 1)));
    }
    for header in [[1, 0, 0, 0, 0, 7], [4, 0, 0, 0, 0, 0], [0; 6], [0xff; 6]] {
        bytes[..6].copy_from_slice(&header);
        assert_eq!(placed(&bytes, 6), Ok((255, 255, 12, 1)));
    }
}

#[test]
fn a_long_placed_pdv() {
    let mut bytes = vec![4, 0, 0, 0, 0x40, 0, 0, 0, 0x42, 0x5e];
    bytes.resize(17_000, 1);
    assert_eq!(placed(&bytes, 6), Ok((1, 1, 12, 16_988)));
    bytes[9] += 1;
    assert_eq!(placed(&bytes, 6), Err(4));
    bytes.resize(70_000, 1);
    bytes[6..10].copy_from_slice(&69_990u32.to_be_bytes());
    assert_eq!(placed(&bytes, 6), Ok((1, 1, 12, 69_988)));
    bytes[65_540..65_544].copy_from_slice(&[0, 0, 0, 5]);
    assert_eq!(placed(&bytes, 65_540), Ok((1, 1, 65_546, 3)));
}

#[test]
fn places_walk_through_a_valid_pdu_as_numbers_do() {
    let mut random = Random::new(5);
    for _ in 0..500 {
        let bytes = good_data(&mut random).bytes();
        let (mut place, mut number) = (6, 0);
        while let Ok(part) = read_pdv(&bytes, number) {
            assert_eq!(pdv_at(&bytes, place), Ok(part));
            place = (part.start + part.length) as u64;
            number += 1;
        }
        assert_eq!((place, pdv_at(&bytes, place)), (bytes.len() as u64, Err(4)));
    }
}

#[test]
fn reject_and_abort_values_one_by_one() {
    let (mut rejects, mut aborts, mut sendable) = (0, 0, 0);
    for source in 0..=255u8 {
        for reason in 0..=255u8 {
            let abort_expected = source == 0 || (source == 2 && matches!(reason, 0..=2 | 4..=6));
            assert_eq!(judge(&[7, 0, 0, 0, 0, 4, 0, 0, source, reason]).is_ok(), abort_expected);
            aborts += abort_expected as u32;
            sendable += write::abort(source, reason).is_ok() as u32;
            for result in 0..=4u8 {
                let pair = matches!((source, reason), (1, 1..=3) | (1, 7) | (2, 1..=2) | (3, 1..=2));
                let expected = pair && (result == 1 || result == 2);
                assert_eq!(judge(&[3, 0, 0, 0, 0, 4, 9, result, source, reason]).is_ok(), expected);
                assert_eq!(write::rj(result, source, reason).is_ok(), expected);
                rejects += expected as u32;
            }
        }
    }
    assert_eq!((rejects, aborts, sendable), (16, 256 + 6, 7));
}

/// A name judged by a walk over its bytes.
fn walks_as_a_name(name: &[u8]) -> bool {
    let mut component = 0;
    let mut zero = false;
    for byte in name {
        match byte {
            b'.' if component == 0 => return false,
            b'.' => component = 0,
            b'0'..=b'9' if component > 0 && zero => return false,
            b'0'..=b'9' => {
                zero = component == 0 && *byte == b'0';
                component += 1;
            }
            _ => return false,
        }
    }
    component > 0 && name.len() <= 64
}

#[test]
fn names_of_up_to_seven_bytes() {
    for length in 0..=7u32 {
        for number in 0..4u32.pow(length) {
            let name: Vec<u8> = (0..length).map(|i| b"012."[(number / 4u32.pow(i) % 4) as usize]).collect();
            assert_eq!(name_is_valid(&name), walks_as_a_name(&name), "{:?}", name);
        }
    }
}

#[test]
fn title_bytes_one_by_one() {
    for byte in 0..=255u8 {
        let mut title = *b"ABCDEFGHIJKLMNOP";
        title[7] = byte;
        assert_eq!(title_is_valid(&title), (32..127).contains(&byte) && byte != b'\\');
    }
    assert!(!title_is_valid(&[0x20; 16]) && !title_is_valid(&[b'A'; 15]) && !title_is_valid(&[b'A'; 17]));
}

// The generator's twists do what they say.

/// The bytes of a word of a call: `hex` backwards.
pub fn bytes_of(word: &str) -> Vec<u8> {
    let digits = if word == "-" { "" } else { word };
    (0..digits.len() / 2).map(|i| u8::from_str_radix(&digits[2 * i..2 * i + 2], 16).unwrap()).collect()
}

pub fn check_twists<P>(lists: &[&[Twist<P>]], make: &mut dyn FnMut(&mut Random) -> P, valid: &dyn Fn(&P) -> bool) {
    let mut random = Random::new(7);
    for twist in lists.iter().flat_map(|list| list.iter()) {
        for _ in 0..150 {
            let mut plan = make(&mut random);
            assert!(valid(&plan), "a good plan");
            (twist.edit)(&mut plan, &mut random);
            match twist.expect {
                Expect::Inside => assert!(valid(&plan), "{}", twist.name),
                Expect::Outside => assert!(!valid(&plan), "{}", twist.name),
                Expect::Either => {}
            }
        }
    }
}

#[test]
fn twists_of_pdus() {
    check_twists(&[BOTH, RQ], &mut |r| good_plan(1, r), &|p| judge(&p.bytes()).is_ok());
    check_twists(&[BOTH, AC, FAULTS], &mut |r| good_plan(2, r), &|p| judge(&p.bytes()).is_ok());
    check_twists(&[DATA, CONTROL_BITS], &mut good_data, &|p| judge(&p.bytes()).is_ok());
    check_twists(&[SHORT, RJ], &mut |r| good_short(3, r), &|p| judge(&p.bytes()).is_ok());
    check_twists(&[SHORT, ABORT], &mut |r| good_short(7, r), &|p| judge(&p.bytes()).is_ok());
    for kind in 5..=6u8 {
        check_twists(&[SHORT], &mut |r| good_short(kind, r), &|p| judge(&p.bytes()).is_ok());
    }
}

#[test]
fn twists_of_sheets() {
    let proposal = |s: &Sheet| write::rq(EQUINE, EXOTIC, b"1.2", &plain(), &s.bytes()).is_ok();
    let answer = |s: &Sheet| write::ac(&[0; 64], b"1.2", &plain(), &s.bytes()).is_ok();
    check_twists(&[SHEET, ABSTRACT, PROPOSAL], &mut |r| good_sheet(true, r), &proposal);
    check_twists(&[SHEET, ANSWER, REFUSED], &mut |r| good_sheet(false, r), &answer);
    let one = sheet_record(1, 0, b"1.2", b"1.2");
    let liked = sheet_record(0, 0, b"1.2", b"1.2");
    let asked = |s: &Sheet| choose(&s.bytes(), &liked, &[0; 20_000]).is_ok();
    let site = |s: &Sheet| choose(&one, &s.bytes(), &[0; 132]).is_ok();
    check_twists(&[SHEET, ABSTRACT, PROPOSAL], &mut |r| good_choice(r, &mut Marks::default()).0, &asked);
    check_twists(&[SHEET, ABSTRACT, SITE], &mut |r| good_choice(r, &mut Marks::default()).1, &site);
}

#[test]
fn what_is_written_is_valid_and_reads_back() {
    let mut random = Random::new(11);
    for _ in 0..500 {
        let sheet = good_sheet(true, &mut random).bytes();
        let rq = write::rq(EQUINE, EXOTIC, APPLICATION, &plain(), &sheet).unwrap();
        let (fields, read, _) = read_rq(&rq, &vec![0xc3; sheet.len() + 5], &[]).unwrap();
        assert_eq!((&read[..sheet.len()], &read[sheet.len()..]), (&sheet[..], &[0xc3; 5][..]));
        assert_eq!((fields.version, fields.maximum, fields.records), (1, 16_384, sheet.len() / 132));
        assert_eq!(&rq[fields.application_at..][..fields.application_length], APPLICATION);
        assert_eq!(read_rq(&rq, &vec![0; sheet.len() - 1], &[]), Err(2));
        let sheet = good_sheet(false, &mut random).bytes();
        let ac = write::ac(&rq[10..74], APPLICATION, &plain(), &sheet).unwrap();
        assert_eq!(read_ac(&ac, &vec![0; sheet.len()], &[]).unwrap().1, sheet);
        assert_eq!(read_rq(&ac, &sheet, &[]), Err(7));
    }
}

#[test]
fn a_long_sheet_is_5_and_with_a_bad_last_record_4() {
    let one = sheet_record(1, 0, b"1.2", b"1.2");
    let mut sheet = one.repeat(40_000);
    assert_eq!(write::rq(EQUINE, EXOTIC, b"1.2", &plain(), &sheet), Err(5));
    let last = sheet.len() - 132;
    sheet[last + 1] = 1;
    assert_eq!(write::rq(EQUINE, EXOTIC, b"1.2", &plain(), &sheet), Err(4));
}

// Generated calls keep what every call must keep.

#[test]
fn generated_calls_keep_the_record_good() {
    let mut generator = Generator::new(3);
    let mut before = fresh();
    let mut replay = Replay::new();
    for _ in 0..3_000 {
        let call = generator.next();
        assert_eq!(replay.answer(&call.line), call.answer);
        let after = replay.lent.clone();
        let words: Vec<&str> = call.line.split(' ').collect();
        let machine = call.answer != "?" && "recajd".contains(words[0]);
        if machine && call.last.refusal == 0 {
            assert!(!record_is_broken(&after.record) && !length_is_broken(&after.record, &after.gather));
        }
        if machine && words[1] == "=" {
            check_step(&call.last.answer, &before, &after);
        }
        if !machine {
            assert_eq!(before, after);
        }
        before = after;
    }
}

fn check_step(answer: &Answer, before: &Lent, after: &Lent) {
    if answer.refusal != 0 {
        assert_eq!(before, after);
        assert_eq!((answer.action, answer.used, answer.sent, answer.shown), (0, 0, 0, 0));
    }
    assert_eq!(before.output[answer.sent..], after.output[answer.sent..]);
    let touched = (before.record.gathered as usize + answer.used).min(before.gather.len());
    assert_eq!(before.gather[touched..], after.gather[touched..]);
    if answer.shown != 0 {
        assert!(judge(&after.gather[..answer.shown]).is_ok());
    }
}

#[test]
fn scripts_fill_every_cell() {
    let mut generator = Generator::new(8);
    let (mut cells, mut states) = (BTreeSet::new(), BTreeSet::new());
    for _ in 0..250 {
        generator.script();
        for call in generator.calls.drain(..) {
            states.insert(call.last.state_before);
            if call.last.answer.event != 0 {
                assert_eq!(call.line.split(' ').nth(1), Some("="));
                cells.insert((call.last.answer.event, call.last.state_before));
            }
        }
    }
    assert_eq!(states, (1..=13).collect());
    assert_eq!(cells, filled_cells().into_iter().collect());
}

#[test]
fn same_seed_same_calls() {
    let (mut one, mut other) = (Generator::new(42), Generator::new(42));
    assert!((0..500).all(|_| one.next().line == other.next().line));
    let mut third = Generator::new(43);
    let mut fourth = Generator::new(42);
    assert!((0..500).any(|_| third.next().line != fourth.next().line));
}

// Cuts change nothing: runs framed at once, by another machine, against random pieces.

/// What an action did: its name, the state after, what was sent and what was shown.
type Outcome = (String, u8, Vec<u8>, Vec<u8>);

/// A machine that frames each run at once, over the condensed form of Table 9-10.
struct AtOnce {
    state: u8,
    pending: Vec<u8>,
    deaf: bool,
    requestor: bool,
    maximum: u32,
    buffer: Vec<u8>,
    outcomes: Vec<Outcome>,
}

impl AtOnce {
    fn new() -> AtOnce {
        AtOnce {
            state: 1,
            pending: Vec::new(),
            deaf: false,
            requestor: false,
            maximum: 0,
            buffer: vec![0xa5; 16_390],
            outcomes: Vec::new(),
        }
    }

    fn drops(&self) -> bool {
        self.state == 1 || self.state == 4 || self.deaf
    }

    /// Frames all bytes gathered and given, one PDU after the other.
    fn run(&mut self, bytes: &[u8]) {
        let all = [&self.pending[..], bytes].concat();
        let mut at = 0;
        self.pending.clear();
        while !self.drops() {
            let rest = &all[at..];
            let whole =
                if rest.len() < 6 || four_bytes(&rest[2..]) > 16_384 { 6 } else { 6 + four_bytes(&rest[2..]) as usize };
            let part = &rest[..whole.min(rest.len())];
            self.buffer[..part.len()].copy_from_slice(part);
            if rest.len() < whole {
                self.pending = rest.to_vec();
                return;
            }
            at += whole;
            self.received(part);
        }
    }

    fn received(&mut self, pdu: &[u8]) {
        let judged = judge(pdu);
        let over = four_bytes(&pdu[2..]) > 16_384;
        let event = judged.as_ref().map_or(19, |pdu| RECEIVED[pdu.kind() as usize - 1]);
        let (version, maximum) = match &judged {
            Ok(Pdu::Rq(read)) | Ok(Pdu::Ac(read)) => (read.version, read.user.maximum),
            _ => (0, 0),
        };
        let reason = match (&judged, over, pdu[0]) {
            (Ok(_), _, _) => 2,
            (_, false, 0) | (_, false, 8..=255) => 1,
            _ => 6,
        };
        let action = condensed(event, self.state);
        let rejects = action == "AE-6" && version & 1 == 0;
        let sent = match action {
            "AE-6" if rejects => vec![3, 0, 0, 0, 0, 4, 0, 1, 2, 2],
            "AA-1" => vec![7, 0, 0, 0, 0, 4, 0, 0, 0, 0],
            "AA-7" | "AA-8" => vec![7, 0, 0, 0, 0, 4, 0, 0, 2, reason],
            _ => Vec::new(),
        };
        let shows = ["AE-3", "AE-4", "DT-2", "AR-6", "AA-3", "AE-6"].contains(&action) && !rejects;
        if action == "AE-3" || (action == "AE-6" && !rejects) {
            self.maximum = maximum;
        }
        self.deaf = over;
        self.go(action, rejects, sent, if shows { pdu.to_vec() } else { Vec::new() });
    }

    fn go(&mut self, action: &str, rejects: bool, sent: Vec<u8>, shown: Vec<u8>) {
        self.state = NEXT[action_number(action) as usize - 1];
        if rejects {
            self.state = 13;
        }
        if action == "AR-8" && !self.requestor {
            self.state = 10;
        }
        if action == "AE-1" {
            self.requestor = true;
        }
        if self.state == 1 {
            self.pending.clear();
            self.deaf = false;
            self.requestor = false;
            self.maximum = 0;
        }
        self.outcomes.push((action.to_string(), self.state, sent, shown));
    }

    /// A local event; what it sends is given, a blank cell is left alone.
    fn local(&mut self, event: u8, sent: &[u8]) {
        let action = condensed(event, self.state);
        if action.is_empty() {
            return;
        }
        let sends = ["AE-2", "AE-7", "AE-8", "DT-1", "AR-7", "AR-1", "AR-4", "AR-9", "AA-1"].contains(&action);
        self.go(action, false, if sends { sent.to_vec() } else { Vec::new() }, Vec::new());
    }

    fn record(&self) -> Record {
        Record {
            state: self.state,
            gathered: self.pending.len() as u64,
            deaf: self.deaf,
            artim: self.state == 2 || self.state == 13,
            requestor: self.requestor,
            peer_maximum: self.maximum,
        }
    }
}

/// One step of a test script.
enum Step {
    Run(Vec<u8>),
    Local(u8),
}

fn random_step(random: &mut Random, marks: &mut Marks, state: u8) -> Step {
    let local: &[u8] = match state {
        1 => &[1, 5],
        2 => &[17, 18],
        3 => &[7, 7, 7, 8, 15],
        4 => &[2, 2, 2, 17],
        6 => &[9, 11, 11, 15],
        8 => &[9, 14],
        9 | 12 => &[14],
        13 => &[17, 18],
        _ => &[15, 17],
    };
    let share = match state {
        1 | 3 | 4 | 8 | 9 | 12 => 75,
        6 | 13 => 40,
        _ => 8,
    };
    if random.chance(share) {
        Step::Local(random.pick(local))
    } else if random.chance(7) {
        Step::Local(random.pick(&[1, 2, 5, 7, 8, 9, 11, 14, 15, 17, 18]))
    } else {
        Step::Run(random_run(random, marks, state))
    }
}

/// Some PDUs one behind the other, the last perhaps cut.
fn random_run(random: &mut Random, marks: &mut Marks, state: u8) -> Vec<u8> {
    let mut bytes = Vec::new();
    for _ in 0..random.pick(&[1, 1, 1, 2, 3]) {
        let waited: &[u8] = match state {
            2 => &[1],
            5 => &[2, 2, 2, 3],
            6 => &[4, 4, 5],
            7 => &[4, 5, 5, 6],
            10 | 11 => &[6],
            _ => &[1, 2, 3, 4, 5, 6, 7],
        };
        bytes.extend(match random.below(12) {
            0 => invalid_pdu(random, marks),
            1 if random.chance(30) => over_length_header(random, marks),
            2 => valid_pdu(random.pick(&[1, 2, 3, 4, 5, 6, 7]), random, marks),
            3 if state == 2 => rq_with_version(2, random, marks),
            _ => valid_pdu(random.pick(waited), random, marks),
        });
    }
    if random.chance(30) {
        bytes.truncate(random.below(bytes.len()));
    }
    bytes
}

const ITEMS: [u8; 6] = [0, 0, 0, 2, 1, 3];

/// The request of a local event with contents that are always good, and what it sends.
fn give(lent: &Lent, event: u8) -> (Answer, Lent) {
    let proposal = sheet_record(1, 0, VERIFICATION, IMPLICIT);
    let answer = sheet_record(1, 0, b"", IMPLICIT);
    let (application, user) = (APPLICATION, &plain());
    local_event(
        lent,
        &match event {
            2 => Request::Confirmation { called: EQUINE, calling: EXOTIC, application, user, sheet: &proposal },
            7 => Request::Accept { echoed: &[7; 64], application, user, sheet: &answer },
            8 => Request::Reject { result: 1, source: 1, reason: 7 },
            9 => Request::Data { items: &ITEMS },
            number => Request::Number(number),
        },
    )
}

fn sent_by(event: u8) -> Vec<u8> {
    match event {
        2 => case_3_rq(),
        7 => write::ac(&[7; 64], APPLICATION, &plain(), &sheet_record(1, 0, b"", IMPLICIT)).unwrap(),
        8 => vec![3, 0, 0, 0, 0, 4, 0, 1, 1, 7],
        9 => vec![4, 0, 0, 0, 0, 6, 0, 0, 0, 2, 1, 3],
        11 => vec![5, 0, 0, 0, 0, 4, 0, 0, 0, 0],
        14 => vec![6, 0, 0, 0, 0, 4, 0, 0, 0, 0],
        _ => vec![7, 0, 0, 0, 0, 4, 0, 0, 0, 0],
    }
}

/// The machine call by call, with what its actions did.
struct InPieces {
    lent: Lent,
    outcomes: Vec<Outcome>,
}

impl InPieces {
    fn note(&mut self, answer: Answer, after: Lent) {
        assert!([0, 1, 5].contains(&answer.refusal));
        if answer.action != 0 {
            let sent = after.output[..answer.sent].to_vec();
            let shown = after.gather[..answer.shown].to_vec();
            self.outcomes.push((name_of(answer.action), after.record.state, sent, shown));
        }
        self.lent = after;
    }

    /// Offers a run in random pieces until all its bytes are used.
    fn run(&mut self, bytes: &[u8], random: &mut Random) {
        let mut rest = bytes;
        while !rest.is_empty() {
            let any = random.below(rest.len() + 1);
            let length = random.pick(&[0, 1, 5, 6, 7, any, rest.len(), rest.len()]).min(rest.len());
            let (answer, after) = receive(&self.lent, &rest[..length]);
            assert!(answer.used <= length);
            rest = &rest[answer.used..];
            self.note(answer, after);
        }
    }
}

fn name_of(action: u8) -> String {
    match action {
        1..=8 => format!("AE-{}", action),
        9..=10 => format!("DT-{}", action - 8),
        11..=20 => format!("AR-{}", action - 10),
        _ => format!("AA-{}", action - 20),
    }
}

#[test]
fn cuts_change_nothing() {
    let mut random = Random::new(2024);
    let mut marks = Marks::default();
    let mut met = BTreeSet::new();
    for _ in 0..1_200 {
        let mut whole = AtOnce::new();
        let mut pieces = InPieces { lent: fresh(), outcomes: Vec::new() };
        for _ in 0..random.between(4, 20) {
            let before = whole.state;
            match random_step(&mut random, &mut marks, before) {
                Step::Run(bytes) => {
                    whole.run(&bytes);
                    pieces.run(&bytes, &mut random);
                }
                Step::Local(event) => {
                    let (answer, after) = give(&pieces.lent, event);
                    if answer.refusal != 5 {
                        whole.local(event, &sent_by(event));
                    }
                    pieces.note(answer, after);
                }
            }
            assert_eq!(whole.outcomes, pieces.outcomes);
            assert_eq!(whole.record(), pieces.lent.record);
            assert!(whole.buffer == pieces.lent.gather);
            met.insert(whole.state);
        }
    }
    assert_eq!(met, (1..=13).collect());
}

// Forms of call lines.

#[test]
fn forms_of_call_lines() {
    let mut replay = Replay::new();
    let start = digest(&[0xa5; 16_390]);
    assert_eq!(replay.answer("r = -"), format!("0 0 0 0 0 1 0 0 0 0 0 {} {}", start, digest(&[0x5a; 16_390])));
    for bad in [
        "", " ", "r", "r =", "r = - ", "r  = -", "r = 0A", "r = 0", "e = 256", "x", "# no", "K", "5", "N -1", "T - - -",
    ]
    .iter()
    {
        assert_eq!(replay.answer(bad), "?", "{}", bad);
    }
    assert_eq!(replay.answer("N 31"), "1");
    assert_eq!(replay.answer("N -"), "0");
    assert_eq!(replay.answer("V 41414141414141414141414141414141"), "1");
    assert_eq!(replay.answer("E 4120 2041"), "1");
    assert_eq!(replay.answer("K 05000000000400000000"), "5 0 0");
    assert_eq!(replay.answer("5 10"), format!("0 10 {}", digest(&[5, 0, 0, 0, 0, 4, 0, 0, 0, 0])));
    assert_eq!(replay.answer("6 9"), format!("2 0 {}", digest(&[0x5a; 9])));
    assert_eq!(replay.answer("e 77 0 0 0 0 0 0 - 0 17"), "6 0 0 0 0 77 0 0 0 0 0 1 1");
    assert_eq!(replay.answer("e = 17"), "6 0 0 0 0 77 0 0 0 0 0 1 1");
}
