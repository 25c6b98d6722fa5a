//! Tests of the user information: each kind of sub-item by its rule, places and sheets, what is sent, twists, lines.

use crate::calls_user::user_marks;
use crate::fields::{kind, read_ac, read_rq, sheet_record, Fields, RECORD};
use crate::generate::{hex, user_words, Generator};
use crate::given::{good_said, role_of, Said, GIVEN};
use crate::judge::lines;
use crate::machine::{receive, Record};
use crate::make::{good_plan, Plan};
use crate::names::name_is_valid;
use crate::random::Random;
use crate::replay::{digest, fresh, Replay};
use crate::subitems::{role_body, ELSEWHERE, SUB_ITEMS};
use crate::tests::{check_twists, plain};
use crate::user::{Given, ROLE};
use crate::write::{self, item};

const EQUINE: &[u8] = b"STORE-EQUINE    ";
const EXOTIC: &[u8] = b"STORE-EXOTIC    ";
const MAXIMUM: [u8; 8] = [0x51, 0, 0, 4, 0, 0, 0x40, 0];

/// An RQ or AC with the items given between its fixed part and its end.
fn with_items(kind: u8, items: &[Vec<u8>]) -> Vec<u8> {
    write::pdu(kind, &[&[0, 1, 0, 0][..], EQUINE, EXOTIC, &[0; 32], &items.concat()].concat())
}

fn context(kind: u8, more: &[u8]) -> Vec<u8> {
    let names = if kind == 1 { [item(0x30, b"1.2"), item(0x40, b"1.2")].concat() } else { item(0x40, b"1.2") };
    item(0x1f + kind, &[&[1, 0, 0, 0], more, &names].concat())
}

/// An RQ or AC whose 50H holds these sub-items and no other.
fn holding(kind: u8, sub_items: &[Vec<u8>]) -> Vec<u8> {
    with_items(kind, &[item(0x10, b"1.2"), context(kind, b""), item(0x50, &sub_items.concat())])
}

/// An RQ or AC whose 50H holds a 51H and then these.
fn with_user(kind: u8, sub_items: &[Vec<u8>]) -> Vec<u8> {
    holding(kind, &[&[MAXIMUM.to_vec()], sub_items].concat())
}

/// Its fields and the bytes of its role sheet, None where it is invalid.
fn read(pdu: &[u8]) -> Option<(Fields, Vec<u8>)> {
    let lent = (vec![0xc3; RECORD], vec![0xc3; 2_000 * ROLE]);
    let found = if pdu[0] == 1 { read_rq(pdu, &lent.0, &lent.1) } else { read_ac(pdu, &lent.0, &lent.1) };
    assert_eq!(found.is_ok(), kind(pdu).kind == pdu[0]);
    let (fields, sheet, roles) = found.ok()?;
    let names: [&[u8]; 2] = if pdu[0] == 1 { [b"1.2", b"1.2"] } else { [b"", b"1.2"] };
    assert_eq!((fields.records, sheet), (1, sheet_record(1, 0, names[0], names[1])));
    assert!(roles[ROLE * fields.roles..].iter().all(|byte| *byte == 0xc3));
    Some((fields, roles[..ROLE * fields.roles].to_vec()))
}

/// Whether an RQ and an AC with these sub-items are valid; both or none.
fn taken(sub_items: &[Vec<u8>]) -> bool {
    let found = [1, 2].map(|kind| read(&with_user(kind, sub_items)).is_some());
    assert_eq!(found[0], found[1]);
    found[0]
}

fn role_item(uid: &[u8], scu: u8, scp: u8) -> Vec<u8> {
    item(0x54, &role_body(uid, scu, scp))
}

fn counts(invoked: u16, performed: u16) -> Vec<u8> {
    item(0x53, &[invoked.to_be_bytes(), performed.to_be_bytes()].concat())
}

// What is read.

#[test]
fn absent_sub_items() {
    for kind in [1, 2] {
        let (fields, roles) = read(&with_user(kind, &[])).unwrap();
        let places = (fields.class_at, fields.class_length, fields.version_name_at, fields.version_name_length);
        assert_eq!((places, fields.invoked, fields.performed), ((0, 0, 0, 0), 1, 1));
        assert_eq!((fields.roles, roles.len(), fields.maximum), (0, 0, 0x4000));
    }
}

#[test]
fn any_order_of_the_kinds() {
    let all = [
        MAXIMUM.to_vec(),
        item(0x52, b"1.2.3"),
        counts(7, 0x0102),
        role_item(b"1.5", 0, 1),
        role_item(b"1.4", 1, 0),
        item(0x55, b"V 1"),
    ];
    // The 720 orders, counted in factorials.
    for number in 0..720 {
        let (mut left, mut order, mut rest) = (all.to_vec(), Vec::new(), number);
        for count in (1..=6).rev() {
            order.push(left.remove(rest % count));
            rest /= count;
        }
        for kind in [1, 2] {
            let pdu = holding(kind, &order);
            let (fields, roles) = read(&pdu).unwrap();
            let part = |at: usize, length: usize| pdu[at..at + length].to_vec();
            assert_eq!(part(fields.class_at, fields.class_length), b"1.2.3");
            assert_eq!(part(fields.version_name_at, fields.version_name_length), b"V 1");
            assert_eq!(pdu[fields.class_at - 4..fields.class_at], [0x52, 0, 0, 5]);
            assert_eq!(pdu[fields.version_name_at - 4..fields.version_name_at], [0x55, 0, 0, 3]);
            assert_eq!((fields.invoked, fields.performed, fields.roles), (7, 0x0102, 2));
            let first = order.iter().find(|sub_item| sub_item[0] == 0x54).unwrap()[8];
            let records = [role_of(b"1.5", 0, 1), role_of(b"1.4", 1, 0)];
            let expected = if first == b'5' { records.concat() } else { [&records[1][..], &records[0]].concat() };
            assert_eq!(roles, expected);
        }
    }
}

#[test]
fn a_role_record() {
    let (_, roles) = read(&with_user(1, &[role_item(b"1.2.3", 1, 0)])).unwrap();
    assert_eq!(roles, [&[5, 1, 0, 0][..], b"1.2.3", &[0; 59]].concat());
    let (_, roles) = read(&with_user(2, &[role_item(&[b'1'; 64], 0, 1), role_item(b"0", 1, 1)])).unwrap();
    assert_eq!(roles, [&[64, 0, 1, 0][..], &[b'1'; 64], &[1, 1, 1, 0, b'0'], &[0; 63]].concat());
}

#[test]
fn the_class_uid_is_a_name() {
    for name in [&b""[..], b"1", b"0", b"1.2", b"1.02", b"1.2.", b"1.2\0", b"1.2 ", b"a", &[b'1'; 64], &[b'1'; 65]] {
        assert_eq!(taken(&[item(0x52, name)]), name_is_valid(name), "{:?}", name);
    }
}

#[test]
fn counts_have_length_4() {
    for length in 0..300 {
        assert_eq!(taken(&[item(0x53, &vec![0; length])]), length == 4, "{}", length);
    }
    for (one, other) in [(0, 0), (0, 1), (1, 0), (1, 1), (256, 1), (1, 256), (65_535, 0), (0, 65_535), (0x1234, 0x5678)]
    {
        let (fields, _) = read(&with_user(1, &[counts(one, other)])).unwrap();
        assert_eq!((fields.invoked, fields.performed), (one, other));
    }
}

#[test]
fn a_54h_is_filled_by_its_uid_and_two_roles() {
    let uid = name_64();
    for length in 0..=70 {
        for field in (0..=72).chain([256, 257, 259, 0x0300, 0x0500, 0x7fff, 0xfffd, 0xfffe, 0xffff]) {
            let text = [&uid[..], b"111111"].concat()[..length].to_vec();
            let body = [&(field as u16).to_be_bytes()[..], &text, &[1, 0]].concat();
            let good = length == field && name_is_valid(&text);
            assert_eq!(taken(&[item(0x54, &body)]), good, "{} {}", length, field);
        }
    }
    // Bodies of fewer than four bytes, also where the next sub-item begins with what is missing.
    for length in 0..4 {
        assert!(!taken(&[item(0x54, &[0, 1, b'1'][..length.min(3)]), vec![0, 1, 0, 0]]));
        assert!(!taken(&[item(0x54, &[0, 0, 1, 0][..length])]));
    }
    let cut = [0x54, 0, 0, 5, 0, 3, b'1', b'.', b'2'].to_vec();
    for next in [[0, 0, 0, 0], [0, 1, 0, 0], [1, 0, 0, 0], [1, 1, 0, 0]] {
        assert!(!taken(&[cut.clone(), next.to_vec()]));
    }
}

/// A name of 64 bytes of which each beginning that does not end with a dot is a name.
fn name_64() -> Vec<u8> {
    b"1.2.840.10008.5.1.4.1.1.2.840.10008.5.1.4.1.1.88.67.11.22.33.44.5"[..64].to_vec()
}

#[test]
fn roles_are_0_or_1() {
    for scu in 0..=255 {
        for scp in [0, 1, 2, 3, 127, 128, 254, 255] {
            assert_eq!(taken(&[role_item(b"1.2", scu, scp)]), scu < 2 && scp < 2, "{} {}", scu, scp);
            assert_eq!(taken(&[role_item(b"1.2", scp, scu)]), scu < 2 && scp < 2, "{} {}", scp, scu);
        }
    }
}

#[test]
fn a_54h_has_a_name() {
    for name in [&b""[..], b"1", b"0", b"1.2", b"1.02", b"1.2.", b"1.2\0", b"1.2 ", b"a", &[b'1'; 64], &[b'1'; 65]] {
        assert_eq!(taken(&[role_item(name, 1, 0)]), name_is_valid(name), "{:?}", name);
    }
}

#[test]
fn a_version_name_is_1_to_16_title_characters() {
    for byte in 0..=255u8 {
        let good = (32..127).contains(&byte) && byte != b'\\';
        assert_eq!(taken(&[item(0x55, &[byte])]), good);
        for place in 0..16 {
            let mut name = *b"ABCDEFGHIJKLMNOP";
            name[place] = byte;
            assert_eq!(taken(&[item(0x55, &name)]), good, "{:x} {}", byte, place);
        }
    }
    for length in 0..=100 {
        for byte in [b' ', b'A', b'~'] {
            assert_eq!(taken(&[item(0x55, &vec![byte; length])]), (1..=16).contains(&length), "{}", length);
        }
    }
}

#[test]
fn at_most_one_of_three_kinds() {
    let cases: [[Vec<u8>; 2]; 3] = [
        [item(0x52, b"1.2.3"), item(0x52, b"1.2")],
        [counts(1, 1), counts(2, 0)],
        [item(0x55, b"ONE"), item(0x55, b" ")],
    ];
    for [one, other] in &cases {
        for between in [vec![], vec![item(0x56, b"")], vec![role_item(b"1", 0, 0)]] {
            for again in [one, other] {
                assert!(!taken(&[&[one.clone()][..], &between, &[again.clone()]].concat()));
            }
            assert!(taken(&[&[one.clone()][..], &between].concat()));
        }
        assert!(!taken(&[one.clone(), one.clone(), other.clone()]));
    }
}

#[test]
fn once_per_uid() {
    let roles = [(0, 0), (0, 1), (1, 0), (1, 1)];
    for (scu, scp) in roles {
        for (scu_again, scp_again) in roles {
            let (one, again) = (role_item(b"1.2", scu, scp), role_item(b"1.2", scu_again, scp_again));
            let (other, third) = (role_item(b"1.3", scu, scp), role_item(b"1.25", 1, 1));
            assert!(!taken(&[one.clone(), again.clone()]));
            assert!(!taken(&[one.clone(), other.clone(), again.clone()]));
            assert!(!taken(&[other.clone(), one.clone(), item(0x55, b"V"), again.clone(), third.clone()]));
            assert!(taken(&[one, other, third]));
        }
    }
    // Names that differ in a byte, or in length alone.
    for pair in [["1.2", "1.3"], ["1.2", "2.2"], ["1.2", "1.22"], ["1.2", "1.2.1"], ["1", "11"], ["0", "1"]] {
        for [one, other] in [pair, [pair[1], pair[0]]] {
            assert!(taken(&[role_item(one.as_bytes(), 1, 0), role_item(other.as_bytes(), 1, 0)]));
        }
    }
    // The class UID is no UID of a role.
    assert!(taken(&[item(0x52, b"1.2"), role_item(b"1.2", 1, 1)]));
}

#[test]
fn hundreds_of_roles() {
    let many: Vec<Vec<u8>> = (0..1_300).map(|number| role_item(number.to_string().as_bytes(), 0, 1)).collect();
    let (fields, roles) = read(&with_user(1, &many)).unwrap();
    let expected: Vec<u8> = (0..1_300).flat_map(|number| role_of(number.to_string().as_bytes(), 0, 1)).collect();
    assert!(fields.roles == 1_300 && roles == expected);
    for (first, last) in [(0, 1_299), (1_298, 1_299), (0, 1), (255, 511), (600, 700)] {
        let mut again = many.clone();
        again[last] = again[first].clone();
        assert!(!taken(&again), "{} {}", first, last);
    }
}

#[test]
fn other_types_are_skipped() {
    for other in (0..=255).filter(|kind| !(0x51..=0x55).contains(kind)) {
        for body in [&b""[..], b"x", &[0; 5], &[0, 3, b'1', b'.', b'2', 2, 2], &[0x52, 0, 0, 9], &[b'\\'; 17]] {
            let sub_item = item(other, body);
            let (fields, roles) = read(&with_user(1, &[sub_item.clone(), sub_item.clone()])).unwrap();
            assert_eq!((fields.class_length, fields.version_name_length, roles.len()), (0, 0, 0));
            assert!(taken(&[sub_item, item(0x52, b"1.2"), item(other, body)]));
        }
    }
}

#[test]
fn exactly_one_51h() {
    for kind in [1, 2] {
        let others = [item(0x52, b"1.2"), counts(0, 0), role_item(b"1", 0, 0), item(0x55, b"V")];
        assert_eq!(read(&holding(kind, &others)), None);
        assert_eq!(read(&holding(kind, &[])), None);
        assert!(read(&with_user(kind, &others)).is_some());
        assert_eq!(read(&with_user(kind, &[MAXIMUM.to_vec()])), None);
        assert_eq!(read(&with_user(kind, &[item(0x51, b"")])), None);
    }
}

/// One malformed sub-item of each kind, and two good ones of each.
fn wrong_in_50h() -> Vec<Vec<Vec<u8>>> {
    vec![
        vec![item(0x52, b"")],
        vec![item(0x53, b"12345")],
        vec![item(0x54, b"")],
        vec![role_item(b"1", 2, 0)],
        vec![item(0x55, b"")],
        vec![item(0x55, b"\\")],
        vec![item(0x52, b"1"), item(0x52, b"1")],
        vec![counts(1, 1), counts(1, 1)],
        vec![role_item(b"1", 0, 0), role_item(b"1", 0, 0)],
        vec![item(0x55, b"V"), item(0x55, b"V")],
    ]
}

#[test]
fn outside_a_50h_they_are_skipped() {
    for wrong in wrong_in_50h() {
        assert!(!taken(&wrong));
        let wrong = wrong.concat();
        for kind in [1, 2] {
            let (name, user) = (item(0x10, b"1.2"), item(0x50, &MAXIMUM));
            let inside = with_items(kind, &[name.clone(), context(kind, &wrong), user.clone()]);
            let between =
                with_items(kind, &[name.clone(), wrong.clone(), context(kind, b""), wrong.clone(), user.clone()]);
            let around = with_items(kind, &[wrong.clone(), name, context(kind, b""), user, wrong.clone()]);
            let held = with_user(kind, &[item(0x56, &wrong), item(0x50, &wrong)]);
            for pdu in [inside, between, around, held] {
                let (fields, _) = read(&pdu).unwrap();
                assert_eq!((fields.class_at, fields.version_name_at, fields.roles), (0, 0, 0));
                assert_eq!((fields.invoked, fields.performed), (1, 1));
            }
        }
    }
}

#[test]
fn sub_items_fill_the_50h() {
    for sub_item in [item(0x52, b"1.2"), counts(3, 3), role_item(b"1.2", 1, 1), item(0x55, b"V")] {
        for length in 0..sub_item.len() {
            assert_eq!(taken(&[sub_item[..length].to_vec()]), length == 0, "{}", length);
        }
        for more in 1..4 {
            assert!(!taken(&[sub_item.clone(), vec![0; more]]));
        }
        let mut longer = sub_item.clone();
        longer[3] += 1;
        assert!(!taken(&[longer]));
    }
}

#[test]
fn reserved_bytes_are_not_tested() {
    for mut sub_item in [item(0x52, b"1.2"), counts(3, 3), role_item(b"1.2", 1, 1), item(0x55, b"V")] {
        sub_item[1] = 0xff;
        assert!(taken(&[sub_item]));
    }
}

#[test]
fn either_sheet_too_short_leaves_both() {
    let roles: Vec<Vec<u8>> = [&b"1"[..], b"2", b"3"].iter().map(|uid| role_item(uid, 1, 0)).collect();
    for (kind, call) in [(1, "Q"), (2, "A")] {
        let pdu = with_user(kind, &roles);
        let filled = |sheet: usize, roles: usize| {
            let answer = Replay::new().answer(&format!("{} {} {} {}", call, hex(&pdu), sheet, roles));
            let lent = [digest(&vec![0xc3; sheet]), digest(&vec![0xc3; roles])];
            let refused = format!("2 0 0 0 0 0 0 0 0 0 0 0 0 {} {}", lent[0], lent[1]);
            assert!(answer == refused || answer.starts_with("0 1 "));
            answer != refused
        };
        assert!(filled(RECORD, 3 * ROLE) && filled(RECORD + 1, 3 * ROLE + 1) && filled(66_000, 66_000));
        for short in [0, 1, RECORD - 1] {
            assert!(!filled(short, 3 * ROLE) && !filled(short, 66_000) && !filled(short, 0));
        }
        for short in [0, 1, ROLE, 2 * ROLE, 3 * ROLE - 1] {
            assert!(!filled(RECORD, short) && !filled(66_000, short));
        }
        // None are needed for none.
        let answer = Replay::new().answer(&format!("{} {} 132 0", call, hex(&with_user(kind, &[]))));
        assert!(answer.starts_with("0 1 78 3 16384 1 0 0 0 0 1 1 0 ") && answer.ends_with(" 1"), "{}", answer);
    }
}

#[test]
fn lines_of_q_and_a() {
    for (kind, call) in [(1, "Q"), (2, "A")] {
        let pdu = with_user(kind, &[item(0x52, b"1.2.3"), counts(2, 3), role_item(b"9", 0, 1), item(0x55, b"VER")]);
        // 9, 8, 9 and 7 bytes.
        let place = pdu.len() - 33;
        let names: [&[u8]; 2] = if kind == 1 { [b"1.2", b"1.2"] } else { [b"", b"1.2"] };
        let sheets = (sheet_record(1, 0, names[0], names[1]), role_of(b"9", 0, 1));
        let numbers = format!("0 1 78 3 16384 1 {} 5 {} 3 2 3 1", place + 4, pdu.len() - 3);
        let expected = format!("{} {} {}", numbers, digest(&sheets.0), digest(&sheets.1));
        assert_eq!(Replay::new().answer(&format!("{} {} 132 68", call, hex(&pdu))), expected);
        let refused = format!("7 0 0 0 0 0 0 0 0 0 0 0 0 {} {}", digest(&[0xc3; 132]), digest(&[0xc3; 68]));
        assert_eq!(Replay::new().answer(&format!("{} {}00 132 68", call, hex(&pdu))), refused);
        assert_eq!(Replay::new().answer(&format!("{} - 132 68", if call == "Q" { "A" } else { "Q" })), refused);
        for bad in ["", " 132", " 132 68 0", " 132 -", " 66001 0", " 0 66001", " 0 68 68"] {
            assert_eq!(Replay::new().answer(&format!("{} {}{}", call, hex(&pdu), bad)), "?", "{}", bad);
        }
    }
}

#[test]
fn received() {
    let mut wrong = wrong_in_50h();
    wrong.push(Vec::new());
    for sub_items in &wrong {
        let good = sub_items.is_empty();
        for (kind, state, action) in [(1, 2, if good { 6 } else { 21 }), (2, 5, if good { 3 } else { 28 }), (1, 6, 28)]
        {
            let mut lent = fresh();
            lent.record = Record { state, artim: state == 2, ..Record::default() };
            let pdu = with_user(kind, sub_items);
            let (answer, after) = receive(&lent, &pdu);
            assert_eq!((answer.action, answer.used), (action, pdu.len()));
            if state == 6 {
                assert_eq!(after.output[8..10], [2, if good { 2 } else { 6 }]);
            }
        }
    }
}

#[test]
fn the_judge_shows_the_user_information() {
    let pdu = with_user(1, &[item(0x55, b"V 1"), role_item(b"1.4", 0, 1), counts(0, 2), item(0x52, b"1.2.3")]);
    let text = lines(&pdu).concat();
    let shown = " maximum 16384 class 1.2.3 invoked 0 performed 2 role 1.4 0 1 version name \"V 1\" context 1 ";
    assert!(text.contains(shown), "{}", text);
    assert!(lines(&with_user(2, &[])).concat().contains(" maximum 16384 context 1 "));
}

// What is sent.

fn send_rq(user: &Given) -> Result<Vec<u8>, u8> {
    write::rq(
        EQUINE,
        EXOTIC,
        b"1.2.840.10008.3.1.1.1",
        user,
        &sheet_record(1, 0, b"1.2.840.10008.1.1", b"1.2.840.10008.1.2"),
    )
}

fn send_ac(user: &Given) -> Result<Vec<u8>, u8> {
    write::ac(&[7; 64], b"1.2.840.10008.3.1.1.1", user, &sheet_record(1, 0, b"", b"1.2.840.10008.1.2"))
}

/// The sub-items sent, the same in an RQ and an AC, or the refusal of both.
fn sent(user: &Given) -> Result<Vec<u8>, u8> {
    let (rq, ac) = (send_rq(user), send_ac(user));
    let behind = |pdu: Vec<u8>, place: usize| {
        assert_eq!(pdu[place..place + 2], [0x50, 0]);
        assert_eq!(u16::from_be_bytes([pdu[place + 2], pdu[place + 3]]) as usize, pdu.len() - place - 4);
        pdu[place + 4..].to_vec()
    };
    let found = (rq.map(|pdu| behind(pdu, 149)), ac.map(|pdu| behind(pdu, 128)));
    assert_eq!(found.0, found.1);
    found.0
}

#[test]
fn case_3_with_what_is_added() {
    for length in 1..=64 {
        let user = Given::class_alone(&vec![b'1'; length]);
        let (rq, ac) = (send_rq(&user).unwrap(), send_ac(&user).unwrap());
        assert_eq!((rq.len() - 6, ac.len() - 6), (155 + 4 + length, 134 + 4 + length));
    }
    let roles = [role_of(b"1.2", 1, 0), role_of(b"1.2.3", 0, 1)].concat();
    let user = Given { version_name: b"V 1".to_vec(), invoked: 0, roles, ..plain() };
    assert_eq!(send_rq(&user).unwrap().len() - 6, 155 + 7 + 8 + 11 + 13 + 7);
}

#[test]
fn the_written_form() {
    let roles = [role_of(b"9.1", 1, 0), role_of(b"1", 0, 0), role_of(b"1.2.3", 0, 1)].concat();
    let user = Given { version_name: b" V 1".to_vec(), invoked: 0x0102, performed: 3, roles, ..plain() };
    let expected = [
        vec![0x51, 0, 0, 4, 0, 0, 0x40, 0],
        vec![0x52, 0, 0, 3, b'1', b'.', b'2'],
        vec![0x53, 0, 0, 4, 1, 2, 0, 3],
        vec![0x54, 0, 0, 7, 0, 3, b'9', b'.', b'1', 1, 0],
        vec![0x54, 0, 0, 5, 0, 1, b'1', 0, 0],
        vec![0x54, 0, 0, 9, 0, 5, b'1', b'.', b'2', b'.', b'3', 0, 1],
        vec![0x55, 0, 0, 4, b' ', b'V', b' ', b'1'],
    ];
    assert_eq!(sent(&user), Ok(expected.concat()));
    assert_eq!(sent(&plain()), Ok(expected[..2].concat()));
}

#[test]
fn counts_are_sent_unless_1_and_1() {
    for invoked in [0, 1, 2, 255, 256, 257, 65_535] {
        for performed in [0, 1, 2, 255, 256, 257, 65_535] {
            let found = sent(&Given { invoked, performed, ..plain() }).unwrap();
            let expected = if (invoked, performed) == (1, 1) { Vec::new() } else { counts(invoked, performed) };
            assert_eq!(found[15..], expected);
        }
    }
}

#[test]
fn contents_that_are_refused() {
    for name in [&b""[..], b"1.02", b"1.2.", b"1.2\0", b"x", &[b'1'; 65], &[b'1'; 300]] {
        assert_eq!(sent(&Given::class_alone(name)), Err(4));
    }
    for length in 0..=300 {
        for byte in [b' ', b'A'] {
            let user = Given { version_name: vec![byte; length], ..plain() };
            assert_eq!(sent(&user).err(), if length <= 16 { None } else { Some(4) });
        }
    }
    for byte in 0..=255u8 {
        for place in 0..16 {
            let mut user = Given { version_name: b"ABCDEFGHIJKLMNOP".to_vec(), ..plain() };
            user.version_name[place] = byte;
            assert_eq!(sent(&user).is_ok(), (32..127).contains(&byte) && byte != b'\\');
        }
    }
}

/// What is answered for a role sheet.
fn with_sheet(sheet: &[u8]) -> Option<u8> {
    sent(&Given { roles: sheet.to_vec(), ..plain() }).err()
}

#[test]
fn role_sheets_that_are_refused() {
    let good = [role_of(b"1.4", 1, 0), role_of(b"1.2.3", 0, 1)].concat();
    assert_eq!((with_sheet(&good), with_sheet(&[])), (None, None));
    for length in 0..=2 * ROLE {
        assert_eq!(with_sheet(&good[..length]), if length % ROLE == 0 { None } else { Some(4) }, "{}", length);
    }
    // Each byte of the second record, with each value.
    for place in 0..ROLE {
        for value in 0..=255u8 {
            let mut sheet = good.clone();
            sheet[ROLE + place] = value;
            let digits = (b'0'..=b'9').contains(&value);
            let good = match place {
                0 => value == 5,
                1 | 2 => value < 2,
                3 => value == 0,
                4 | 6 | 8 => digits,
                5 | 7 => digits || value == b'.',
                _ => value == 0,
            };
            assert_eq!(with_sheet(&sheet).is_none(), good && name_is_valid(&sheet[ROLE + 4..ROLE + 9]), "{}", place);
        }
    }
    // A UID twice, whatever its roles, side by side or apart.
    for (scu, scp) in [(0, 0), (0, 1), (1, 0), (1, 1)] {
        let (again, other) = (role_of(b"1.4", scu, scp), role_of(b"1.44", 1, 0));
        assert_eq!(with_sheet(&[role_of(b"1.4", 1, 0), again.clone()].concat()), Some(4));
        assert_eq!(with_sheet(&[good.clone(), other.clone(), again.clone()].concat()), Some(4));
        assert_eq!(with_sheet(&[good.clone(), other].concat()), None);
    }
    assert_eq!(with_sheet(&[0; ROLE]), Some(4));
    for length in 65..=255 {
        assert_eq!(with_sheet(&[&[length, 0, 0, 0][..], &[b'1'; 64]].concat()), Some(4));
    }
    assert_eq!(with_sheet(&[&[64, 0, 0, 0][..], &[b'1'; 64]].concat()), None);
}

/// Roles that take 16 bytes each in a PDU.
fn roles_of_16(count: usize) -> Vec<u8> {
    (0..count).flat_map(|number| role_of(format!("1.2.{}", 1_000 + number).as_bytes(), 1, 0)).collect()
}

#[test]
fn four_then_five() {
    // 162, 16 for each role, 4 and its length for a version name.
    let full = |length: usize| Given { roles: roles_of_16(1_013), version_name: vec![b'V'; length], ..plain() };
    assert_eq!(send_rq(&full(10)).map(|pdu| pdu.len()), Ok(16_390));
    assert_eq!(send_rq(&full(11)), Err(5));
    assert_eq!(send_ac(&full(16)).map(|pdu| pdu.len()), Ok(16_390 - 21 + 6));
    assert_eq!(send_ac(&Given { roles: roles_of_16(1_014), ..full(15) }).map(|pdu| pdu.len()), Ok(16_390));
    assert_eq!(send_ac(&Given { roles: roles_of_16(1_014), ..full(16) }), Err(5));
    // Bad contents that are too long.
    let mut bad = roles_of_16(1_100);
    assert_eq!(with_sheet(&bad), Some(5));
    bad[1_099 * ROLE + 3] = 1;
    assert_eq!(with_sheet(&bad), Some(4));
    assert_eq!(with_sheet(&roles_of_16(1_100).repeat(2)), Some(4));
    assert_eq!(send_rq(&Given { class: Vec::new(), ..full(11) }), Err(4));
    assert_eq!(send_rq(&Given { version_name: vec![b'V'; 17], ..full(0) }), Err(4));
    // A 50H longer than its length field could say.
    let long = |number: usize| role_of(format!("{}{}", 1_000 + number, "1".repeat(60)).as_bytes(), 1, 0);
    assert_eq!(with_sheet(&(0..970).flat_map(long).collect::<Vec<u8>>()), Some(5));
}

#[test]
fn four_in_its_place_and_room_by_need() {
    let sheet = sheet_record(1, 0, b"", b"1.2");
    let words = |user: &Given| format!("{} 312e32 {} {}", hex(&[7; 64]), user_words(user), hex(&sheet));
    let (good, bad) = (words(&plain()), words(&Given::class_alone(b"")));
    let refusal = |line: String| Replay::new().answer(&line)[..1].to_string();
    let needed = write::ac(&[7; 64], b"1.2", &plain(), &sheet).unwrap().len();
    assert_eq!(refusal(format!("2 {} {}", good, needed - 1)), "2");
    assert_eq!(refusal(format!("2 {} {}", good, needed)), "0");
    assert_eq!(refusal(format!("2 {} 0", bad)), "4");
    assert_eq!(refusal(format!("a 3 0 0 1 0 0 0 - 0 {}", bad)), "6");
    assert_eq!(refusal(format!("a 3 1 0 0 0 0 0 - 0 {}", bad)), "3");
    assert_eq!(refusal(format!("a 6 0 0 0 0 0 0 - 0 {}", bad)), "1");
    assert_eq!(refusal(format!("a 3 0 0 0 0 0 0 - 0 {}", bad)), "4");
    assert_eq!(refusal(format!("a 3 0 0 0 0 0 0 - {} {}", needed - 1, good)), "2");
    assert_eq!(refusal(format!("a 3 0 0 0 0 0 0 - {} {}", needed, good)), "0");
}

#[test]
fn what_is_sent_reads_back() {
    let mut random = Random::new(17);
    for _ in 0..1_000 {
        let user = good_said(&mut random).given();
        for pdu in [send_rq(&user).unwrap(), send_ac(&user).unwrap()] {
            let lent = vec![0xc3; user.roles.len()];
            let filled = if pdu[0] == 1 { read_rq(&pdu, &[0; 132], &lent) } else { read_ac(&pdu, &[0; 132], &lent) };
            let (fields, _, roles) = filled.unwrap();
            let part = |at: usize, length: usize| pdu[at..at + length].to_vec();
            assert_eq!(part(fields.class_at, fields.class_length), user.class);
            assert_eq!(part(fields.version_name_at, fields.version_name_length), user.version_name);
            assert_eq!((fields.invoked, fields.performed), (user.invoked, user.performed));
            assert_eq!((fields.roles * ROLE, roles), (user.roles.len(), user.roles.clone()));
        }
    }
}

#[test]
fn what_is_read_can_be_sent() {
    let mut random = Random::new(18);
    let mut without = 0;
    for kind in [1, 2].repeat(1_000) {
        let pdu = good_plan(kind, &mut random).bytes();
        let lent = (vec![0; 66_000], vec![0; 66_000]);
        let filled = if kind == 1 { read_rq(&pdu, &lent.0, &lent.1) } else { read_ac(&pdu, &lent.0, &lent.1) };
        let (fields, sheet, roles) = filled.unwrap();
        without += (fields.class_length == 0) as u32;
        let class = if fields.class_length == 0 { b"1.2.3" } else { &pdu[fields.class_at..][..fields.class_length] };
        let user = Given {
            class: class.to_vec(),
            version_name: pdu[fields.version_name_at..][..fields.version_name_length].to_vec(),
            invoked: fields.invoked,
            performed: fields.performed,
            roles: roles[..ROLE * fields.roles].to_vec(),
        };
        let sheet = &sheet[..RECORD * fields.records];
        let again = if kind == 1 {
            write::rq(&pdu[10..26], &pdu[26..42], b"1.2", &user, sheet)
        } else {
            write::ac(&pdu[10..74], b"1.2", &user, sheet)
        };
        assert_eq!(kind_of(&again.unwrap()), kind);
    }
    assert!(without > 300);
}

fn kind_of(pdu: &[u8]) -> u8 {
    kind(pdu).kind
}

// Lines.

#[test]
fn lines_of_1_2_c_and_a() {
    let (rq, ac) = (hex(&sheet_record(1, 0, b"1.2", b"1.2")), hex(&sheet_record(1, 0, b"", b"1.2")));
    let role = role_of(b"1.2", 1, 0);
    let user = format!("312e32 562031 0 65535 {}", hex(&role));
    let given = Given { version_name: b"V 1".to_vec(), invoked: 0, performed: 65_535, roles: role, ..plain() };
    let titles = format!("{} {}", hex(EQUINE), hex(EXOTIC));
    let sent_rq = write::rq(EQUINE, EXOTIC, b"1.2", &given, &sheet_record(1, 0, b"1.2", b"1.2")).unwrap();
    let sent_ac = write::ac(&[7; 64], b"1.2", &given, &sheet_record(1, 0, b"", b"1.2")).unwrap();
    let cases = [
        ("1", "c 4 0 0 0 0 0 0 - ", "0 2 0", " 5 ", format!("{} 312e32", titles), rq, sent_rq),
        ("2", "a 3 0 0 0 0 0 0 - ", "0 7 0", " 6 ", format!("{} 312e32", hex(&[7; 64])), ac, sent_ac),
    ];
    for (call, record, action, state, before, sheet, pdu) in cases {
        let length = pdu.len();
        let by_value = Replay::new().answer(&format!("{} {} {} {} {}", call, before, user, sheet, length));
        assert_eq!(by_value, format!("0 {} {}", length, digest(&pdu)));
        let by_machine = Replay::new().answer(&format!("{}{} {} {} {}", record, length, before, user, sheet));
        assert_eq!(by_machine, format!("{} {} 0{}0 0 0 0 0 1 {}", action, length, state, digest(&pdu)));
        // Without it, with a word more or less, with counts above 65,535 or no numbers.
        for bad in [
            "".to_string(),
            "312e32 562031 0 65535".to_string(),
            format!("{} -", user),
            "312e32 562031 65536 1 -".to_string(),
            "312e32 562031 1 65536 -".to_string(),
            "312e32 562031 - 1 -".to_string(),
            "312e32 562031 1 -1 -".to_string(),
            "312E32 562031 1 1 -".to_string(),
        ] {
            assert_eq!(
                Replay::new().answer(&format!("{} {} {} {} {}", call, before, bad, sheet, length)),
                "?",
                "{}",
                bad
            );
            assert_eq!(
                Replay::new().answer(&format!("{}{} {} {} {}", record, length, before, bad, sheet)),
                "?",
                "{}",
                bad
            );
        }
    }
}

#[test]
fn limits_of_words_and_lines() {
    let mut replay = Replay::new();
    let mut first = |line: &str| replay.answer(line).split(' ').next().unwrap_or("").to_string();
    let line = |class: usize, name: usize, roles: usize| {
        let strings = [class, name, roles].map(|length| hex(&vec![0x31; length]));
        format!("2 - - {} {} 1 1 {} - 0", strings[0], strings[1], strings[2])
    };
    assert_eq!(first(&line(17_000, 17_000, 66_000)), "4");
    assert_eq!(first(&line(17_001, 0, 0)), "?");
    assert_eq!(first(&line(0, 17_001, 0)), "?");
    assert_eq!(first(&line(0, 0, 66_001)), "?");
    // The longest call within the other limits, and a line longer than any.
    let (string, sheet) = (hex(&[0; 17_000]), hex(&[0; 66_000]));
    let strings = [&string[..]; 5].join(" ");
    let longest = format!("c 4 0 0 0 0 0 17000 {} 17000 {} 65535 65535 {} {}", string, strings, sheet, sheet);
    assert!((460_000..480_000).contains(&longest.len()));
    assert_eq!(first(&longest), "4");
    let zeros = "0".repeat(480_000 - 6);
    assert_eq!(first(&format!("e = 0{}17", zeros)), "?");
    assert_eq!(first(&format!("e = {}17", zeros)), "0");
}

// The generator.

#[test]
fn twists_of_the_user_information() {
    let valid = |plan: &Plan| kind(&plan.bytes()).kind == plan.kind;
    for kind in [1, 2] {
        check_twists(&[ELSEWHERE], &mut |r| good_plan(kind, r), &valid);
        let inner = |r: &mut Random| good_plan(kind, r).items.pop().unwrap().inner;
        check_twists(&[SUB_ITEMS], &mut { inner }, &|inner| {
            taken_in(kind, &inner.iter().map(|node| node.bytes()).collect::<Vec<Vec<u8>>>())
        });
    }
    check_twists(&[GIVEN], &mut good_said, &|said: &Said| send_rq(&said.given()).is_ok());
    check_twists(&[GIVEN], &mut good_said, &|said: &Said| send_ac(&said.given()).is_ok());
}

fn taken_in(kind: u8, sub_items: &[Vec<u8>]) -> bool {
    kind_of(&holding(kind, sub_items)) == kind
}

#[test]
fn every_edge_is_generated() {
    for seed in [2, 1, 8] {
        let mut generator = Generator::new(seed);
        (0..6_000).for_each(|_| drop(generator.next()));
        for mark in user_marks() {
            assert!(generator.marks.count(&mark) > 0, "seed {}: {}", seed, mark);
        }
    }
}
