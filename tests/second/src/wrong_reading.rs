//! An RQ or AC read once more from its bytes, by the papers but for one rule, by its name, of its user information or of
//! IDs that come twice; "" is no such rule.

use std::collections::BTreeSet;

use crate::fields::{sheet_record, RECORD};
use crate::names::{name_is_valid, title_is_valid};
use crate::replay::digest;
use crate::user::ROLE;

pub fn number(bytes: &[u8]) -> usize {
    bytes.iter().fold(0, |sum, byte| 256 * sum + *byte as usize)
}

/// Type, place of the body and its end, of the items between two places; None where they don't fill it.
pub fn items(pdu: &[u8], from: usize, to: usize) -> Option<Vec<(u8, usize, usize)>> {
    let (mut found, mut at) = (Vec::new(), from);
    while at < to {
        if at + 4 > to {
            return None;
        }
        let end = at + 4 + number(&pdu[at + 2..at + 4]);
        if end > to {
            return None;
        }
        found.push((pdu[at], at + 4, end));
        at = end;
    }
    Some(found)
}

fn name_in(pdu: &[u8], item: &(u8, usize, usize)) -> Option<Vec<u8>> {
    Some(pdu[item.1..item.2].to_vec()).filter(|name| name_is_valid(name))
}

pub fn is_name_of_any_length(name: &[u8]) -> bool {
    name.split(|byte| *byte == b'.').all(name_is_valid)
}

/// A UID with its roles.
pub type Role = (Vec<u8>, u8, u8);

/// What a 50H says: places with lengths, counts, roles.
#[derive(Clone, Default)]
struct User {
    from: usize,
    maximum: Option<usize>,
    class: Option<(usize, usize)>,
    counts: Option<(usize, usize)>,
    roles: Vec<Role>,
    version_name: Option<(usize, usize)>,
}

/// What an RQ or AC says.
struct Found {
    version: usize,
    application: (usize, usize),
    sheet: Vec<u8>,
    user: User,
}

/// Title characters, and what a wrong rule takes for them; `what` is "55H" or "version name".
pub fn characters_are_good(name: &[u8], what: &str, wrong: &str) -> bool {
    let is = |rule: &str| wrong == format!("a {} {}", what, rule);
    let mut text = name;
    if wrong == format!("a {}'s first byte is not tested", what) && !name.is_empty() {
        text = &text[1..];
    }
    if wrong == format!("a {}'s last byte is not tested", what) && !name.is_empty() {
        text = &text[..text.len() - 1];
    }
    if is("with a NUL behind is taken") && name.len() > 1 && name.ends_with(&[0]) {
        text = &text[..text.len() - 1];
    }
    if is("of spaces is refused") && !name.is_empty() && name.iter().all(|byte| *byte == 0x20)
        || is("of 16 spaces is refused") && name == [0x20; 16]
        || is("with a space first is refused") && name.starts_with(b" ")
    {
        return false;
    }
    text.iter().all(|byte| match byte {
        0x5c => is("with 5CH is taken"),
        0x20..=0x7e => true,
        0x7f => is("with 7FH is taken"),
        0x1f => is("with 1FH is taken"),
        0x80..=0xff => is("with bytes above 7FH is taken"),
        _ => false,
    })
}

fn is_class(body: &[u8], wrong: &str) -> bool {
    let length = body.len();
    match wrong {
        "an empty 52H is taken" if body.is_empty() => true,
        "a 52H of 65 bytes is taken" if length == 65 => is_name_of_any_length(body),
        "a 52H of 64 bytes is refused" if length == 64 => false,
        "a 52H with a NUL behind is taken" if body.ends_with(&[0]) => name_is_valid(&body[..length - 1]),
        "a 52H of any bytes is taken" => true,
        _ => name_is_valid(body),
    }
}

/// The counts of a 53H.
fn counts_in(body: &[u8], wrong: &str) -> Option<(usize, usize)> {
    let whole = [body, &[0; 4]].concat();
    let counts = (number(&whole[..2]), number(&whole[2..4]));
    let refused = wrong == "a 53H of 0 and 0 is refused" && counts == (0, 0)
        || wrong == "a 53H of 1 and 1 is refused" && counts == (1, 1);
    if refused || (body.len() != 4 && wrong != format!("a 53H of length {} is taken", body.len())) {
        return None;
    }
    Some(counts)
}

/// The UID and roles of a 54H whose body stands between two places; the 50H ends at the third.
fn role_in(pdu: &[u8], at: usize, end: usize, last: usize, wrong: &str) -> Option<Role> {
    let body = &pdu[at..end];
    if body.len() < 2 {
        return None;
    }
    let mut count = number(&body[..2]);
    match wrong {
        "the UID's length is not looked at" => count = body.len().max(4) - 4,
        "the UID's length is its low byte" => count = body[1] as usize,
        "the UID's length has its low byte first" => count = 256 * body[1] as usize + body[0] as usize,
        "a 54H whose UID runs past it is taken" if count + 4 > body.len() => count = body.len().max(4) - 4,
        _ => {}
    }
    let behind = match wrong {
        "a 54H not filled is taken" => body.get(2 + count..)?.get(..2)?.to_vec(),
        "a byte behind the roles is taken" if body.len() == 5 + count => body[2 + count..4 + count].to_vec(),
        "a 54H may run into what follows" if at + 4 + count <= last => pdu[at + 2 + count..at + 4 + count].to_vec(),
        "roles beyond the 54H are taken" if body.len() == 2 + count && end + 2 <= last => pdu[end..end + 2].to_vec(),
        "one role is enough" if body.len() == 3 + count => vec![body[2 + count], 0],
        "no role is enough" if body.len() == 2 + count => vec![0, 0],
        _ if body.len() == 4 + count => body[2 + count..].to_vec(),
        _ => return None,
    };
    let uid = pdu.get(at + 2..at + 2 + count)?;
    let uid_is_good = match wrong {
        "a 54H with an empty UID is taken" if uid.is_empty() => true,
        "a 54H with a UID of 65 bytes is taken" if count == 65 => is_name_of_any_length(uid),
        "a 54H with a UID of 64 bytes is refused" if count == 64 => false,
        "a 54H with a NUL counted in its UID is taken" if uid.ends_with(&[0]) => name_is_valid(&uid[..count - 1]),
        "a 54H with any UID is taken" => true,
        _ => name_is_valid(uid),
    };
    let role_is_good = |role: u8, of: &str| {
        role < 2
            || role == 2 && wrong == format!("{} role 2 is taken", of)
            || wrong == format!("any {} role is taken", of)
    };
    let refused = wrong == "roles 0 and 0 are refused" && behind == [0, 0]
        || wrong == "roles 1 and 1 are refused" && behind == [1, 1];
    if !uid_is_good || !role_is_good(behind[0], "SCU") || !role_is_good(behind[1], "SCP") || refused {
        return None;
    }
    Some((uid.to_vec(), behind[0], behind[1]))
}

fn is_version_name(body: &[u8], wrong: &str) -> bool {
    let length_is_good = match body.len() {
        0 => wrong == "an empty 55H is taken" || wrong == "a 55H of any length is taken",
        1 => wrong != "a 55H of 1 is refused",
        16 => wrong != "a 55H of 16 is refused",
        17 => wrong == "a 55H of 17 is taken" || wrong == "a 55H of any length is taken",
        length => length < 17 || wrong == "a 55H of any length is taken",
    };
    length_is_good && characters_are_good(body, "55H", wrong)
}

/// Whether two UIDs count as equal.
fn equal(one: &[u8], other: &[u8], wrong: &str) -> bool {
    let but = |from: usize, less: usize| {
        one.len() == other.len() && one[from..one.len() - less] == other[from..one.len() - less]
    };
    match wrong {
        "UIDs other in their first byte are equal" => but(1, 0),
        "UIDs other in their last byte are equal" | "UIDs of a sheet other in their last byte are equal" => but(0, 1),
        "UIDs other in length are equal" | "UIDs of a sheet other in length are equal" => {
            one.starts_with(other) || other.starts_with(one)
        }
        "UIDs of one length are equal" => one.len() == other.len(),
        _ => one == other,
    }
}

/// Whether a UID comes twice; `rules` are the names that the wrong rules have here.
pub fn repeats(roles: &[Role], rules: [&str; 7], wrong: &str) -> bool {
    let [all, beside, apart, other_roles, equal_roles, last, first] = rules;
    if wrong == all {
        return false;
    }
    if !rules.contains(&wrong) && !wrong.starts_with("UIDs ") {
        let uids: BTreeSet<&[u8]> = roles.iter().map(|role| &role.0[..]).collect();
        return uids.len() < roles.len();
    }
    let twice = |i: usize, j: usize| {
        let same_roles = (roles[i].1, roles[i].2) == (roles[j].1, roles[j].2);
        equal(&roles[i].0, &roles[j].0, wrong)
            && (wrong != beside || j != i + 1)
            && (wrong != apart || j == i + 1)
            && (wrong != other_roles || same_roles)
            && (wrong != equal_roles || !same_roles)
            && (wrong != last || j + 1 < roles.len())
            && (wrong != first || i > 0)
    };
    (0..roles.len()).any(|j| (0..j).any(|i| twice(i, j)))
}

/// Rules of UIDs that come twice, each as it would be wrong.
pub const RECEIVED_REPEATS: [&str; 7] = [
    "equal UIDs are taken",
    "equal UIDs side by side are taken",
    "equal UIDs apart are taken",
    "equal UIDs with other roles are taken",
    "equal UIDs with equal roles are taken",
    "the last UID is not compared",
    "the first UID is not compared",
];

/// A sub-item of a kind that comes once; the places of both bodies are compared by their bytes.
fn take_once<T>(seen: &mut Option<T>, new: T, same: bool, kind: u8, wrong: &str) -> Option<()> {
    if seen.is_none() || wrong == format!("a second {:X}H is taken, the last counts", kind) {
        *seen = Some(new);
        return Some(());
    }
    let taken = wrong == format!("a second {:X}H is taken, the first counts", kind)
        || same && wrong == format!("an equal second {:X}H is taken", kind);
    Some(()).filter(|_| taken)
}

/// Takes one sub-item; None where it is malformed or comes twice.
fn take(user: &mut User, pdu: &[u8], item: (u8, usize, usize), last: usize, wrong: &str) -> Option<()> {
    let (kind, at, end) = item;
    let body = &pdu[at..end];
    let part = |place: Option<(usize, usize)>| place.map(|(at, length)| pdu[at..at + length].to_vec());
    let same = |place: Option<(usize, usize)>| part(place) == Some(body.to_vec());
    match kind {
        0x51 if user.maximum.is_none() && body.len() == 4 => user.maximum = Some(number(body)),
        0x51 => return None,
        0x52 if is_class(body, wrong) => {
            let same = same(user.class);
            take_once(&mut user.class, (at, body.len()), same, kind, wrong)?;
        }
        0x53 => {
            let counts = counts_in(body, wrong)?;
            let same = user.counts == Some(counts);
            take_once(&mut user.counts, counts, same, kind, wrong)?;
        }
        0x54 => user.roles.push(role_in(pdu, at, end, last, wrong)?),
        0x55 if is_version_name(body, wrong) => {
            let same = same(user.version_name);
            take_once(&mut user.version_name, (at, body.len()), same, kind, wrong)?;
        }
        0x52 | 0x55 => return None,
        _ => {}
    }
    Some(())
}

/// The type that a wrong rule takes a sub-item for.
fn told(kind: u8, wrong: &str) -> u8 {
    match wrong {
        "56H to 59H are tested as 52H to 55H" if (0x56..=0x59).contains(&kind) => kind - 4,
        "types are told by their low seven bits" => kind & 0x7f,
        "types are told by their low four bits" if (0x01..=0x05).contains(&(kind & 15)) => 0x50 + (kind & 15),
        _ => kind,
    }
}

fn user_in(pdu: &[u8], from: usize, to: usize, more: &[(u8, usize, usize)], wrong: &str) -> Option<User> {
    let called = if pdu[0] == 1 { "an RQ" } else { "an AC" };
    let left_untested = |kind: u8| wrong == format!("a {:X}H in {} is not tested", kind, called);
    let mut user = User { from, ..User::default() };
    let inner = items(pdu, from, to)?;
    let mut others = Vec::new();
    for (place, item) in inner.iter().chain(more).enumerate() {
        let kind = told(item.0, wrong);
        let refused = wrong == "sub-items must rise" && place > 0 && inner[place - 1].0 > kind
            || wrong == "51H must come first" && place == 0 && kind != 0x51
            || wrong == "reserved bytes are tested" && pdu[item.1 - 3] != 0
            || wrong == "56H to 59H are refused" && (0x56..=0x59).contains(&kind)
            || wrong == "other types may come once" && others.contains(&kind);
        if refused {
            return None;
        }
        if !(0x51..=0x55).contains(&kind) {
            others.push(kind);
        }
        if take(&mut user, pdu, (kind, item.1, item.2), to, wrong).is_none() {
            let skipped = wrong == format!("a malformed {:X}H is skipped", kind) && !is_second(&user, kind);
            if !skipped && !left_untested(kind) {
                return None;
            }
        }
    }
    let class_among = || user.class.is_some_and(|(at, n)| user.roles.iter().any(|role| role.0 == pdu[at..at + n]));
    let refused = user.maximum.is_none() && wrong != "51H may be left out"
        || wrong == "an absent 52H is refused" && user.class.is_none()
        || wrong == "an absent 53H is refused" && user.counts.is_none()
        || wrong == "an absent 54H is refused" && user.roles.is_empty()
        || wrong == "an absent 55H is refused" && user.version_name.is_none()
        || wrong == "the class UID counts as a UID" && class_among()
        || wrong == "two 54H are refused" && user.roles.len() > 1
        || !left_untested(0x54) && repeats(&user.roles, RECEIVED_REPEATS, wrong);
    Some(user).filter(|_| !refused)
}

/// Whether a kind that may come once has come.
fn is_second(user: &User, kind: u8) -> bool {
    match kind {
        0x52 => user.class.is_some(),
        0x53 => user.counts.is_some(),
        0x55 => user.version_name.is_some(),
        _ => false,
    }
}

/// Whether a sub-item that stands elsewhere would be good in a 50H.
fn is_good_by_itself(pdu: &[u8], item: &(u8, usize, usize)) -> bool {
    take(&mut User::default(), pdu, *item, pdu.len(), "").is_some()
}

/// The records of a context.
fn context_in(pdu: &[u8], item: &(u8, usize, usize), wrong: &str) -> Option<Vec<u8>> {
    let (kind, at, end) = *item;
    if end < at + 4 || pdu[at] % 2 == 0 {
        return None;
    }
    let (id, result) = (pdu[at], pdu[at + 2]);
    if kind == 0x21 && result != 0 {
        return Some(sheet_record(id, result, b"", b"")).filter(|_| result < 5);
    }
    let inner = items(pdu, at + 4, end)?;
    if wrong == "the four kinds are tested in a context"
        && inner.iter().any(|item| (0x52..=0x55).contains(&item.0) && !is_good_by_itself(pdu, item))
    {
        return None;
    }
    let wanted: &[u8] = if kind == 0x20 { &[0x30, 0x40] } else { &[0x40] };
    let known: Vec<(u8, usize, usize)> = inner.into_iter().filter(|item| wanted.contains(&item.0)).collect();
    let abstracts = known.iter().take_while(|item| item.0 == 0x30).count();
    let transfers = known.iter().filter(|item| item.0 == 0x40).count();
    let in_order = abstracts + transfers == known.len() && transfers > 0;
    if !in_order || (kind == 0x20 && abstracts != 1) || (kind == 0x21 && transfers != 1) {
        return None;
    }
    let names: Option<Vec<Vec<u8>>> = known.iter().map(|item| name_in(pdu, item)).collect();
    let names = names?;
    let abstract_name: &[u8] = if kind == 0x20 { &names[0] } else { b"" };
    Some(names[abstracts..].iter().flat_map(|transfer| sheet_record(id, 0, abstract_name, transfer)).collect())
}

/// An RQ or AC with one rule wrong, or none by the name ""; None where it is invalid.
fn found_in(pdu: &[u8], wrong: &str) -> Option<Found> {
    let length = pdu.len().checked_sub(6)?;
    let kind = pdu[0];
    if !(1..=2).contains(&kind) || !(68..=16_384).contains(&length) || number(&pdu[2..6]) != length {
        return None;
    }
    let titles_are_good = title_is_valid(&pdu[10..26]) && title_is_valid(&pdu[26..42]);
    if (kind == 1 && !titles_are_good) || (kind == 2 && pdu[7] % 2 == 0) {
        return None;
    }
    let top = items(pdu, 74, pdu.len())?;
    let strangers: Vec<(u8, usize, usize)> =
        top.iter().copied().filter(|item| (0x52..=0x55).contains(&item.0)).collect();
    for item in &strangers {
        if wrong == format!("a {:X}H at the top is tested", item.0) && !is_good_by_itself(pdu, item) {
            return None;
        }
    }
    let known: Vec<&(u8, usize, usize)> =
        top.iter().filter(|item| [0x10, 0x1f + kind, 0x50].contains(&item.0)).collect();
    let (first, last) = (known.first()?, known.last()?);
    let contexts = known.get(1..known.len() - 1)?;
    if first.0 != 0x10 || last.0 != 0x50 || contexts.is_empty() || contexts.iter().any(|item| item.0 != 0x1f + kind) {
        return None;
    }
    name_in(pdu, first)?;
    let mut sheet = Vec::new();
    let mut ids = Vec::new();
    for item in contexts {
        sheet.extend(context_in(pdu, item, wrong)?);
        if ids.contains(&pdu[item.1]) && wrong != "equal IDs are taken" {
            return None;
        }
        ids.push(pdu[item.1]);
    }
    let counted: &[(u8, usize, usize)] =
        if wrong == "the four kinds are counted at the top too" { &strangers } else { &[] };
    let mut user = user_in(pdu, last.1, last.2, counted, wrong)?;
    read_from_top(&mut user, pdu, &strangers, wrong);
    Some(Found { version: number(&pdu[6..8]), application: (first.1, first.2 - first.1), sheet, user })
}

/// What a wrong rule finds at the top where a 50H has none.
fn read_from_top(user: &mut User, pdu: &[u8], strangers: &[(u8, usize, usize)], wrong: &str) {
    let wanted = match wrong {
        "a class UID is read from the top" if user.class.is_none() => 0x52,
        "counts are read from the top" if user.counts.is_none() => 0x53,
        "roles are read from the top" if user.roles.is_empty() => 0x54,
        "a version name is read from the top" if user.version_name.is_none() => 0x55,
        _ => return,
    };
    for item in strangers.iter().filter(|item| item.0 == wanted) {
        take(user, pdu, *item, pdu.len(), "");
    }
}

// What is answered to the calls that read.

/// The records of the role sheet, over what was lent.
fn role_records(user: &User, wrong: &str) -> Vec<Vec<u8>> {
    let mut roles = user.roles.clone();
    match wrong {
        "the last role is dropped on reading" => drop(roles.pop()),
        "the first role is dropped on reading" => drop(roles.drain(..1.min(user.roles.len()))),
        "roles are read from the last to the first" => roles.reverse(),
        "roles are sorted on reading" => roles.sort(),
        _ => {}
    }
    let record = |(uid, scu, scp): &Role| {
        let (scu, scp) = match wrong {
            "the roles are exchanged on reading" => (*scp, *scu),
            "the SCU role is given twice on reading" => (*scu, *scu),
            _ => (*scu, *scp),
        };
        let fourth = if wrong == "the fourth byte stays as it was" { 0xc3 } else { 0 };
        let head = match wrong {
            "a UID's length is written in two bytes on reading" => vec![0, uid.len() as u8, scu, scp],
            _ => vec![uid.len() as u8, scu, scp, fourth],
        };
        let mut record = [&head[..], uid].concat();
        record.resize(ROLE, if wrong == "unused bytes stay as they were" { 0xc3 } else { 0 });
        record
    };
    roles.iter().map(record).collect()
}

/// The twelve numbers behind the refusal, from VERSION to ROLES.
fn numbers(pdu: &[u8], found: &Found, wrong: &str) -> [usize; 12] {
    let user = &found.user;
    let mut class = user.class.unwrap_or((0, 0));
    let mut name = user.version_name.unwrap_or((0, 0));
    let mut counts = user.counts.unwrap_or((1, 1));
    let there = (user.class.is_some() as usize, user.version_name.is_some() as usize);
    match wrong {
        "a class UID's place is one too high" => class.0 += there.0,
        "a class UID's place is one too low" => class.0 -= there.0,
        "a class UID's place is its header's" => class.0 -= 4 * there.0,
        "a class UID's place counts from the 50H" => class.0 -= user.from * there.0,
        "a class UID's place counts behind the PDU's header" => class.0 -= 6 * there.0,
        "a place is given for an absent class UID" if there.0 == 0 => class.0 = user.from,
        "a class UID's length takes in its header" => class.1 += 4 * there.0,
        "a version name's place is one too high" => name.0 += there.1,
        "a version name's place is its header's" => name.0 -= 4 * there.1,
        "a place is given for an absent version name" if there.1 == 0 => name.0 = pdu.len(),
        "a version name is read without its outer spaces" => {
            let text: Vec<u8> = pdu[name.0..name.0 + name.1].to_vec();
            let before = text.iter().take_while(|byte| **byte == 0x20).count();
            let behind = text[before..].iter().rev().take_while(|byte| **byte == 0x20).count();
            name = (name.0 + before, name.1 - before - behind);
        }
        "class UID and version name are exchanged on reading" => (class, name) = (name, class),
        "an absent 53H reads as 0 and 0" if user.counts.is_none() => counts = (0, 0),
        "the counts are exchanged on reading" => counts = (counts.1, counts.0),
        "invoked is given twice on reading" => counts.1 = counts.0,
        "the counts have their low byte first on reading" if user.counts.is_some() => {
            let swap = |count: usize| (count as u16).swap_bytes() as usize;
            counts = (swap(counts.0), swap(counts.1));
        }
        _ => {}
    }
    let roles = match wrong {
        "roles are counted in a byte" => user.roles.len() % 256,
        "roles are counted in bytes" => ROLE * user.roles.len(),
        _ => role_records(user, wrong).len(),
    };
    let maximum = user.maximum.unwrap_or(0);
    let (application, records) = (found.application, found.sheet.len() / RECORD);
    [
        found.version,
        application.0,
        application.1,
        maximum,
        records,
        class.0,
        class.1,
        name.0,
        name.1,
        counts.0,
        counts.1,
        roles,
    ]
}

/// Puts bytes at the start of a lent sheet, as far as it goes.
pub fn fill(lent: &mut [u8], bytes: &[u8]) {
    let length = lent.len().min(bytes.len());
    lent[..length].copy_from_slice(&bytes[..length]);
}

/// The rooms that one would count before the PDU is judged: a record for each context and each 54H.
fn least_rooms(pdu: &[u8]) -> Option<(usize, usize)> {
    let top = items(pdu, 74, pdu.len())?;
    let contexts = top.iter().filter(|item| item.0 == 0x20 || item.0 == 0x21).count();
    let user = top.iter().find(|item| item.0 == 0x50)?;
    let roles = items(pdu, user.1, user.2)?.iter().filter(|item| item.0 == 0x54).count();
    Some((RECORD * contexts, ROLE * roles))
}

/// The answer to Q or A.
pub fn read_answer(asked: u8, pdu: &[u8], rooms: (usize, usize), wrong: &str) -> String {
    let (mut sheet, mut lent) = (vec![0xc3; rooms.0], vec![0xc3; rooms.1]);
    let found = if pdu.first() == Some(&asked) { found_in(pdu, wrong) } else { None };
    let least = least_rooms(pdu).unwrap_or((0, 0));
    let mut zeros = [0; 12];
    if wrong == "counts 1 and 1 are given where refused" {
        (zeros[9], zeros[10]) = (1, 1);
    }
    let (refusal, numbers) = match found {
        None if wrong == "2 before 7, by the contexts" && rooms.0 < least.0 => (2, zeros),
        None if wrong == "2 before 7, by the roles" && rooms.1 < least.1 => (2, zeros),
        None => (7, zeros),
        Some(found) => {
            let roles = role_records(&found.user, wrong).concat();
            let mut needed = (found.sheet.len(), ROLE * found.user.roles.len());
            match wrong {
                "a role needs a context's room" => needed.1 = RECORD * found.user.roles.len(),
                "the role sheet must be longer than it needs" => needed.1 += 1,
                "the context sheet must be longer than it needs" => needed.0 += 1,
                "the role sheet may be a byte short" => needed.1 = needed.1.saturating_sub(1),
                "the rooms are added" if needed.0 + needed.1 <= rooms.0 + rooms.1 => needed = (0, 0),
                "a short role sheet is filled as far as it goes" => needed.1 = 0,
                "a short role sheet is not refused, nothing is written there" => needed.1 = 0,
                _ => {}
            }
            let short = (rooms.0 < needed.0, rooms.1 < needed.1);
            let nothing =
                wrong == "a short role sheet is not refused, nothing is written there" && rooms.1 < roles.len();
            if !short.0 && (!short.1 || wrong == "the context sheet is filled though the role sheet is short") {
                fill(&mut sheet, &found.sheet);
            }
            if !short.1
                && !nothing
                && (!short.0 || wrong == "the role sheet is filled though the context sheet is short")
            {
                fill(&mut lent, &roles);
                if wrong == "the rest of the role sheet is cleared" && !short.0 {
                    lent[roles.len()..].fill(0);
                }
            }
            let refused = short.0 || short.1;
            let given = !refused || wrong == "the fields are given though refused with 2";
            (if refused { 2 } else { 0 }, if given { numbers(pdu, &found, wrong) } else { zeros })
        }
    };
    let words: Vec<String> = numbers.iter().map(|number| number.to_string()).collect();
    format!("{} {} {} {}", refusal, words.join(" "), digest(&sheet), digest(&lent))
}

/// Whether an RQ or AC is valid.
pub fn is_valid(pdu: &[u8], wrong: &str) -> bool {
    found_in(pdu, wrong).is_some()
}

/// The answer to K for an RQ or AC.
pub fn kind_answer(pdu: &[u8], wrong: &str) -> String {
    match found_in(pdu, wrong) {
        None => "0 0 0".to_string(),
        Some(found) => {
            let acceptable = pdu[0] == 1 && found.version % 2 == 1;
            format!("{} {} {}", pdu[0], acceptable as u8, found.user.maximum.unwrap_or(0))
        }
    }
}
