//! Tests of IDs that come twice: in an RQ, in an AC, in a proposal, in an answer; and what the generator makes of them.

use crate::calls_ids::id_marks;
use crate::calls_large::all_ids;
use crate::choose::choose;
use crate::fields::{kind, read_ac, read_rq, sheet_record, RECORD};
use crate::generate::Generator;
use crate::ids::{put_in_plan, sheet_of, Place, IN_AC, IN_ANSWER, IN_PDU, IN_PROPOSAL, ROWS};
use crate::machine::receive;
use crate::make::good_plan;
use crate::random::Random;
use crate::tests::{answered, associate, in_state, item, plain, proposed, user};
use crate::twists::Expect;
use crate::valid::judge;
use crate::write;

/// What makes the context of an ID.
type Maker = fn(u8) -> Vec<u8>;

/// A good 20H.
fn asked(id: u8) -> Vec<u8> {
    proposed(id, &[item(0x30, b"1.2"), item(0x40, b"1.3")])
}

/// A good 21H.
fn accepted(id: u8) -> Vec<u8> {
    answered(id, 0, &[item(0x40, b"1.3")])
}

fn refused(id: u8) -> Vec<u8> {
    answered(id, 3, &[item(0x40, b"")])
}

fn pdu(kind: u8, items: &[Vec<u8>]) -> Vec<u8> {
    associate(kind, &[&[item(0x10, b"1.2")], items, &[user()]].concat())
}

/// Whether an RQ or AC of these items is valid, for the calls that judge and read and for the machine.
fn is_valid(of: u8, items: &[Vec<u8>]) -> bool {
    let bytes = pdu(of, items);
    let valid = kind(&bytes).kind == of;
    let lent = vec![0; 3 * RECORD * items.len()];
    let read = if of == 1 { read_rq(&bytes, &lent, &[]) } else { read_ac(&bytes, &lent, &[]) };
    assert_eq!(read.err(), if valid { None } else { Some(7) });
    // AE-6 or AA-1 in Sta2, AE-3 or AA-8 in Sta5.
    let (state, taken, not_taken) = if of == 1 { (2, 6, 21) } else { (5, 3, 28) };
    assert_eq!(receive(&in_state(state), &bytes).0.action, if valid { taken } else { not_taken });
    valid
}

fn rq_of(ids: &[u8]) -> bool {
    is_valid(1, &ids.iter().map(|id| asked(*id)).collect::<Vec<_>>())
}

/// The same IDs accepted, refused, and by turns, which are judged alike.
fn ac_of(ids: &[u8]) -> bool {
    let of = |one: Maker, other: Maker| {
        let make = |place: usize| if place % 2 == 0 { one } else { other };
        is_valid(2, &ids.iter().enumerate().map(|(place, id)| make(place)(*id)).collect::<Vec<_>>())
    };
    let valid = of(accepted, accepted);
    let others = [of(refused, refused), of(accepted, refused), of(refused, accepted)];
    assert_eq!(others, [valid; 3], "{:?}", ids);
    valid
}

/// A proposal with a record of each ID, all under one name, or each under another.
fn proposal_of(ids: &[u8], one_name: bool) -> Vec<u8> {
    let name = |place: usize| format!("1.{}", if one_name { 0 } else { place });
    ids.iter().enumerate().flat_map(|(place, id)| sheet_record(*id, 0, name(place).as_bytes(), b"1.3")).collect()
}

fn answer_of(ids: &[u8]) -> Vec<u8> {
    ids.iter().flat_map(|id| sheet_record(*id, 0, b"", b"1.3")).collect()
}

/// The refusal of a proposal that is sent, which for 4 is that of one to be answered.
fn proposal_refused(sheet: &[u8]) -> Option<u8> {
    let sent = write::rq(b"STORE-EQUINE    ", b"STORE-EXOTIC    ", b"1.2", &plain(), sheet).err();
    let site = sheet_record(0, 0, b"1.0", b"1.3");
    let chosen = choose(sheet, &site, &vec![0; sheet.len()]).err();
    assert_eq!(chosen, if sent == Some(4) { Some(4) } else { None });
    sent
}

fn answer_refused(sheet: &[u8]) -> Option<u8> {
    write::ac(&[0; 64], b"1.2", &plain(), sheet).err()
}

/// The same IDs in all four places: each once, or one of them twice.
fn check(ids: &[u8], once: bool) {
    let refusal = if once { None } else { Some(4) };
    assert_eq!(rq_of(ids), once, "RQ {:?}", ids);
    assert_eq!(ac_of(ids), once, "AC {:?}", ids);
    assert_eq!(proposal_refused(&proposal_of(ids, false)), refusal, "proposal {:?}", ids);
    assert_eq!(answer_refused(&answer_of(ids)), refusal, "answer {:?}", ids);
}

// In all four places.

#[test]
fn rows_of_few() {
    for ids in [&[1][..], &[255], &[255, 1], &[1, 255], &[127, 255], &[63, 65], &[127, 129], &[191, 193]] {
        check(ids, true);
    }
    for ids in [&[1, 65, 129, 193][..], &[193, 129, 65, 1], &[63, 127, 191, 255], &[5, 3, 1], &[3, 1, 5]] {
        check(ids, true);
    }
    for ids in [&[1, 1][..], &[255, 255], &[1, 3, 1], &[255, 1, 255], &[1, 65, 1], &[63, 127, 63], &[1, 1, 1]] {
        check(ids, false);
    }
    for ids in [&[3, 1, 1][..], &[1, 1, 3], &[1, 65, 129, 193, 65], &[7, 5, 3, 5], &[1, 3, 3, 1], &[1, 3, 1, 3]] {
        check(ids, false);
    }
}

/// An even ID is bad by itself, whether it comes twice or its neighbour comes.
#[test]
fn even_ids() {
    for ids in [&[0][..], &[2], &[0, 0], &[0, 1], &[2, 2], &[2, 3], &[63, 64], &[254, 255], &[1, 128, 129]] {
        check(ids, false);
    }
}

#[test]
fn every_pair() {
    for one in all_ids(0) {
        for other in all_ids(0) {
            check(&[one, other], one != other);
        }
    }
}

#[test]
fn all_128() {
    let falling = all_ids(0);
    let rising: Vec<u8> = falling.iter().rev().copied().collect();
    let mut mixed = falling.clone();
    Random::new(5).shuffle(&mut mixed);
    for ids in [falling, rising, mixed] {
        check(&ids, true);
        for more in [0, 1, 63, 64, 126, 127] {
            check(&[&ids[..], &[ids[more]]].concat(), false);
        }
    }
}

/// Each place of 128 set to the ID of an earlier one.
#[test]
fn every_distance() {
    let mut ids = all_ids(0);
    Random::new(6).shuffle(&mut ids);
    for other in 1..128 {
        let earlier: Vec<usize> = [0, 1, 31, 62, 63, 64, 65, 125].into_iter().filter(|one| *one < other).collect();
        for one in earlier.into_iter().chain([other - 1]) {
            let mut twice = ids.clone();
            twice[other] = twice[one];
            check(&twice, false);
        }
    }
}

// Contexts among other items.

#[test]
fn the_other_kind_has_no_id_that_counts() {
    let empty = |kind: u8| item(kind, b"");
    for of in [1, 2] {
        let (one, other): (Maker, Maker) = if of == 1 { (asked, accepted) } else { (accepted, asked) };
        let skipped = 0x22 - of;
        assert!(is_valid(of, &[one(1), other(1)]));
        assert!(is_valid(of, &[other(1), one(1), other(1), other(1), one(3)]));
        assert!(is_valid(of, &[one(1), other(2), other(2), one(3)]));
        assert!(is_valid(of, &[one(1), empty(skipped), item(skipped, &[1]), one(3), item(skipped, &[3, 0, 0])]));
        assert!(!is_valid(of, &[one(1), other(1), one(1)]));
        assert!(!is_valid(of, &[other(1)]));
    }
    assert!(is_valid(1, &[asked(1), refused(1)]));
}

#[test]
fn skipped_items_do_not_part_two_contexts() {
    for (of, one) in [(1, asked as Maker), (2, accepted), (2, refused)] {
        for between in [item(0xf0, b""), item(0x30, b"1"), item(0x22, &[1, 0, 0, 0]), item(0x52, &one(1))] {
            assert!(!is_valid(of, &[one(1), between.clone(), one(1)]));
            assert!(is_valid(of, &[one(1), between.clone(), one(3), between]));
        }
    }
}

#[test]
fn contexts_inside_other_items_are_none() {
    let names = [item(0x30, b"1.2"), item(0x40, b"1.3")];
    for inner in [asked(3), asked(1), accepted(3)] {
        assert!(is_valid(1, &[proposed(1, &[&names[..], &[inner]].concat()), asked(3)]));
    }
    assert!(is_valid(2, &[answered(1, 0, &[names[1].clone(), accepted(3)]), accepted(3)]));
    assert!(is_valid(2, &[answered(1, 2, &[accepted(3), accepted(1)]), accepted(3)]));
    assert!(is_valid(1, &[asked(1), item(0x60, &asked(1)), asked(3), item(0x60, &asked(3))]));
    let user = item(0x50, &[item(0x51, &[0; 4]), asked(1)].concat());
    let app = item(0x10, b"1.2");
    assert_eq!(kind(&associate(1, &[app.clone(), asked(1), user])).kind, 1);
    // Behind the 50H it is a context in a wrong place.
    assert_eq!(kind(&associate(1, &[app, asked(1), crate::tests::user(), asked(3)])).kind, 0);
}

#[test]
fn what_else_contexts_have_does_not_matter() {
    let names = |one: &[u8], other: &[u8]| [item(0x30, one), item(0x40, other)];
    assert!(is_valid(1, &[proposed(1, &names(b"1.2", b"1.3")), proposed(3, &names(b"1.2", b"1.3"))]));
    assert!(!is_valid(1, &[proposed(1, &names(b"1.2", b"1.3")), proposed(1, &names(b"1.4", b"1.5"))]));
    let mut reserved = [asked(1), asked(3), asked(5)];
    for context in &mut reserved {
        context[5..8].copy_from_slice(&[3, 3, 3]);
    }
    assert!(is_valid(1, &reserved));
    assert!(is_valid(1, &[proposed(1, &[item(0x30, b"1"), item(0x40, b"2"), item(0x40, b"2")]), asked(3)]));
}

#[test]
fn contexts_of_few_bytes() {
    for length in 0..4 {
        let few = |kind: u8| item(kind, &[1, 0, 0, 0][..length]);
        assert!(!is_valid(1, &[few(0x20), asked(1)]) && !is_valid(1, &[asked(3), few(0x20)]));
        assert!(!is_valid(2, &[few(0x21), accepted(1)]) && !is_valid(2, &[accepted(3), few(0x21)]));
    }
}

/// Without version bit 0 it is no valid RQ that is rejected, but an invalid one.
#[test]
fn an_id_twice_without_the_version_bit() {
    let action = |ids: &[u8]| {
        let mut bytes = pdu(1, &ids.iter().map(|id| asked(*id)).collect::<Vec<_>>());
        bytes[6..8].copy_from_slice(&[0, 2]);
        let (answer, after) = receive(&in_state(2), &bytes);
        (answer.action, after.output[0])
    };
    assert_eq!(action(&[1, 3]), (6, 3));
    assert_eq!(action(&[1, 3, 1]), (21, 7));
}

#[test]
fn pdvs_may_share_an_id() {
    let pdv = |id: u8| vec![0, 0, 0, 2, id, 0];
    assert!(write::data(&[pdv(1), pdv(1), pdv(3), pdv(1)].concat(), 0).is_ok());
}

// Runs, answers and the site's sheet.

/// Records of a proposal by ID and abstract name.
fn runs(records: &[(u8, &str)]) -> Option<u8> {
    let sheet: Vec<u8> = records.iter().flat_map(|(id, name)| sheet_record(*id, 0, name.as_bytes(), b"1.3")).collect();
    proposal_refused(&sheet)
}

#[test]
fn runs_of_a_proposal() {
    let (a, b) = ("1.2", "1.20");
    for good in [
        &[(1, a), (1, a), (1, a)][..],
        &[(1, a), (3, a)],
        &[(1, a), (1, a), (3, a), (3, a), (3, a), (5, b)],
        &[(255, a), (255, a), (1, a)],
        &[(1, a), (65, a), (65, a), (129, b), (193, b)],
    ] {
        assert_eq!(runs(good), None, "{:?}", good);
    }
    for bad in [
        &[(1, a), (1, b)][..],
        &[(1, a), (1, a), (1, b)],
        &[(1, a), (1, b), (1, a)],
        &[(1, a), (3, a), (1, a)],
        &[(1, a), (3, b), (1, a)],
        &[(1, a), (3, b), (1, b)],
        &[(1, a), (1, a), (1, a), (3, a), (1, a)],
        &[(1, a), (1, a), (3, a), (3, a), (1, a)],
        &[(1, a), (3, a), (5, a), (5, a), (3, a)],
        &[(1, a), (65, a), (129, a), (193, a), (65, a)],
        &[(255, a), (1, a), (255, a)],
        &[(0, a), (0, a)],
        &[(1, a), (3, a), (1, "")],
    ] {
        assert_eq!(runs(bad), Some(4), "{:?}", bad);
    }
    assert_eq!((proposal_refused(&[]), proposal_refused(&proposal_of(&[1, 3], true)[..263])), (Some(4), Some(4)));
}

#[test]
fn a_hundred_and_twenty_eight_runs_of_three() {
    let ids: Vec<u8> = all_ids(0).into_iter().flat_map(|id| [id, id, id]).collect();
    let sheet = proposal_of(&ids, true);
    assert_eq!(proposal_refused(&sheet), None);
    let with = |id: u8, name: &[u8]| proposal_refused(&[sheet.clone(), sheet_record(id, 0, name, b"1.3")].concat());
    // The last run's ID is 1.
    assert_eq!((with(1, b"1.0"), with(1, b"1.1")), (None, Some(4)));
    assert_eq!((with(255, b"1.0"), with(3, b"1.0")), (Some(4), Some(4)));
    let chosen = choose(&sheet, &sheet_record(0, 0, b"1.0", b"1.3"), &[0; 128 * RECORD]);
    assert_eq!(chosen, Ok((128, answer_of(&all_ids(0)))));
}

/// 4 before 5, in sheets far longer than a PDU.
#[test]
fn long_sheets() {
    let one = sheet_record(1, 0, b"1.2", b"1.3");
    let long = one.repeat(20_000);
    assert_eq!(proposal_refused(&long), Some(5));
    assert_eq!(proposal_refused(&[&long[..], &sheet_record(3, 0, b"1.2", b"1.3"), &one].concat()), Some(4));
    assert_eq!(proposal_refused(&[long, sheet_record(1, 0, b"1.4", b"1.3")].concat()), Some(4));
    let ids: Vec<u8> = all_ids(0).into_iter().cycle().take(20_000).collect();
    assert_eq!(answer_refused(&answer_of(&ids)), Some(4));
}

#[test]
fn answers_have_no_runs() {
    let refused = |id: u8| sheet_record(id, 4, b"", b"");
    let accepted = |id: u8, name: &[u8]| sheet_record(id, 0, b"", name);
    assert_eq!(answer_refused(&[accepted(1, b"1.3"), refused(3), accepted(5, b"1.3")].concat()), None);
    for two in [
        [accepted(1, b"1.3"), accepted(1, b"1.3")],
        [accepted(1, b"1.3"), accepted(1, b"1.4")],
        [refused(1), refused(1)],
        [refused(1), accepted(1, b"1.3")],
        [accepted(1, b"1.3"), refused(1)],
    ] {
        assert_eq!(answer_refused(&two.concat()), Some(4));
        assert_eq!(answer_refused(&[two[0].clone(), refused(3), two[1].clone()].concat()), Some(4));
    }
}

#[test]
fn the_site_has_one_id() {
    let like = |id: u8, name: &[u8]| sheet_record(id, 0, name, b"1.3");
    let ask = proposal_of(&[1, 3], true);
    let chosen = |site: &[u8]| choose(&ask, site, &[0; 2 * RECORD]).map(|answer| answer.0);
    assert_eq!(chosen(&[like(0, b"1.2"), like(0, b"1.0"), like(0, b"1.2")].concat()), Ok(2));
    assert_eq!(chosen(&like(0, b"1.0").repeat(300)), Ok(2));
    assert_eq!(chosen(&[like(0, b"1.2"), like(1, b"1.0")].concat()), Err(4));
}

/// What is read of a valid PDU has no second run and no ID twice.
#[test]
fn what_is_read_can_be_sent() {
    let mut random = Random::new(9);
    for (edge, row) in ROWS.iter().enumerate().filter(|(_, row)| row.expect == Expect::Inside) {
        let read = |of: u8, random: &mut Random| {
            let mut plan = good_plan(of, random);
            put_in_plan(&mut plan, edge, random);
            let lent = (vec![0; 400 * RECORD], vec![0; 68 * 20]);
            let read = if of == 1 { read_rq } else { read_ac };
            let (fields, sheet, _) = read(&plan.bytes(), &lent.0, &lent.1).unwrap();
            sheet[..fields.records * RECORD].to_vec()
        };
        assert_eq!(proposal_refused(&read(1, &mut random)), None, "{}", row.name);
        assert_eq!(answer_refused(&read(2, &mut random)), None, "{}", row.name);
    }
}

// The generator.

#[test]
fn edges_do_what_they_say() {
    let mut random = Random::new(7);
    for place in Place::ALL {
        let rows = ROWS.iter().map(|row| row.expect);
        let expects: Vec<Expect> = match place {
            Place::Rq => rows.chain(IN_PDU.iter().map(|twist| twist.expect)).collect(),
            Place::Ac => rows.chain(IN_PDU.iter().chain(IN_AC).map(|twist| twist.expect)).collect(),
            Place::Sent | Place::Asked => rows.chain(IN_PROPOSAL.iter().map(|twist| twist.expect)).collect(),
            Place::Answer => rows.chain(IN_ANSWER.iter().map(|twist| twist.expect)).collect(),
        };
        let names = place.names();
        assert_eq!(names.len(), expects.len());
        for edge in 0..names.len() {
            for _ in 0..60 {
                let good = match place {
                    Place::Rq | Place::Ac => {
                        let mut plan = good_plan(if place == Place::Rq { 1 } else { 2 }, &mut random);
                        put_in_plan(&mut plan, edge, &mut random);
                        judge(&plan.bytes()).is_ok()
                    }
                    Place::Answer => answer_refused(&sheet_of(edge, false, &mut random).bytes()).is_none(),
                    _ => proposal_refused(&sheet_of(edge, true, &mut random).bytes()).is_none(),
                };
                assert_eq!(good, expects[edge] == Expect::Inside, "{}: {}", place.words(), names[edge]);
            }
        }
    }
}

#[test]
fn every_edge_is_generated() {
    for seed in [2, 1, 8] {
        let mut generator = Generator::new(seed);
        for _ in 0..6_000 {
            generator.next();
        }
        let missed: Vec<String> = id_marks().into_iter().filter(|mark| generator.marks.count(mark) == 0).collect();
        assert!(missed.is_empty(), "seed {}: {:#?}", seed, missed);
    }
}
