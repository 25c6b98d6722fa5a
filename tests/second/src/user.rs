//! The user information (request E4 of document 02): the sub-items of a 50H as judged and as sent, and the role sheet.

use std::collections::BTreeSet;

use crate::items::{four_bytes, split_items, two_bytes, Fault, Item};
use crate::names::{name_is_valid, version_name_is_valid};
use crate::write::{item, name_field};

/// Bytes of one record of the role sheet.
pub const ROLE: usize = 68;

/// The maximum length we send.
const OUR_MAXIMUM: u32 = 16_384;

/// The roles for one UID, 0 or 1 each.
#[derive(Clone, Debug, PartialEq)]
pub struct Role<'a> {
    pub uid: &'a [u8],
    pub scu: u8,
    pub scp: u8,
}

/// What a valid 50H says; the class UID and the version name are whole sub-items, for their places in the PDU.
#[derive(Clone, Debug, PartialEq)]
pub struct User<'a> {
    pub maximum: u32,
    pub class: Option<Item<'a>>,
    pub counts: Option<(u16, u16)>,
    pub roles: Vec<Role<'a>>,
    pub version_name: Option<Item<'a>>,
}

impl<'a> User<'a> {
    /// Operations invoked and performed; "absent means 1 and 1".
    pub fn operations(&self) -> (u16, u16) {
        self.counts.unwrap_or((1, 1))
    }
}

/// 50H: exactly one 51H, at most one 52H, 53H and 55H, 54H at most once per UID. Any other type is skipped.
pub fn judge_user<'a>(user: &Item<'a>) -> Result<User<'a>, Fault> {
    let inner = split_items(user.body, user.at)?;
    Ok(User {
        maximum: judge_maximum(&inner)?,
        class: judge_class(&inner)?,
        counts: judge_counts(&inner)?,
        roles: judge_roles(&inner)?,
        version_name: judge_version_name(&inner)?,
    })
}

/// The sub-item of a kind that may come once at most.
fn one_of<'a>(inner: &[Item<'a>], kind: u8, fault: Fault) -> Result<Option<Item<'a>>, Fault> {
    let mut found = inner.iter().filter(|sub_item| sub_item.kind == kind);
    let first = found.next().cloned();
    match found.next() {
        None => Ok(first),
        Some(_) => Err(fault),
    }
}

/// 51H: length 4.
fn judge_maximum(inner: &[Item]) -> Result<u32, Fault> {
    let fault = "a 50H without exactly one 51H of length 4";
    match one_of(inner, 0x51, fault)? {
        Some(found) if found.body.len() == 4 => Ok(four_bytes(found.body) as u32),
        _ => Err(fault),
    }
}

/// 52H: a name.
fn judge_class<'a>(inner: &[Item<'a>]) -> Result<Option<Item<'a>>, Fault> {
    match one_of(inner, 0x52, "two 52H in a 50H")? {
        Some(found) if !name_is_valid(found.body) => Err("a bad implementation class UID"),
        found => Ok(found),
    }
}

/// 53H: length 4, two counts.
fn judge_counts(inner: &[Item]) -> Result<Option<(u16, u16)>, Fault> {
    match one_of(inner, 0x53, "two 53H in a 50H")? {
        None => Ok(None),
        Some(found) if found.body.len() != 4 => Err("a 53H of another length than 4"),
        Some(found) => Ok(Some((two_bytes(found.body) as u16, two_bytes(&found.body[2..]) as u16))),
    }
}

fn judge_roles<'a>(inner: &[Item<'a>]) -> Result<Vec<Role<'a>>, Fault> {
    let mut uids = BTreeSet::new();
    let mut roles = Vec::new();
    for sub_item in inner.iter().filter(|sub_item| sub_item.kind == 0x54) {
        let role = judge_role(sub_item.body)?;
        if !uids.insert(role.uid) {
            return Err("a UID with two 54H");
        }
        roles.push(role);
    }
    Ok(roles)
}

/// 54H: the UID's length in two bytes, the UID, two roles, and nothing else.
fn judge_role(body: &[u8]) -> Result<Role<'_>, Fault> {
    if body.len() < 4 || body.len() != 2 + two_bytes(body) + 2 {
        return Err("a 54H that its UID and two roles don't fill");
    }
    let (uid, roles) = body[2..].split_at(body.len() - 4);
    if !name_is_valid(uid) {
        return Err("a bad UID in a 54H");
    }
    if roles.iter().any(|role| *role > 1) {
        return Err("a role that is neither 0 nor 1");
    }
    Ok(Role { uid, scu: roles[0], scp: roles[1] })
}

/// 55H: 1 to 16 title characters.
fn judge_version_name<'a>(inner: &[Item<'a>]) -> Result<Option<Item<'a>>, Fault> {
    match one_of(inner, 0x55, "two 55H in a 50H")? {
        Some(found) if !version_name_is_valid(found.body) => Err("a bad version name"),
        found => Ok(found),
    }
}

/// One record of the role sheet; unused bytes of the name are zero.
pub fn role_record(role: &Role) -> Vec<u8> {
    let mut record = vec![role.uid.len() as u8, role.scu, role.scp, 0];
    record.extend_from_slice(role.uid);
    record.resize(ROLE, 0);
    record
}

/// The user information to be sent, as it is given; an empty version name means that none is sent.
#[derive(Clone, Debug)]
pub struct Given {
    pub class: Vec<u8>,
    pub version_name: Vec<u8>,
    pub invoked: u16,
    pub performed: u16,
    pub roles: Vec<u8>,
}

impl Given {
    /// A class UID and nothing else.
    pub fn class_alone(class: &[u8]) -> Given {
        Given { class: class.to_vec(), version_name: Vec::new(), invoked: 1, performed: 1, roles: Vec::new() }
    }
}

/// The 50H to be sent, its sub-items in rising order of their types; 4 for bad contents.
pub fn user_item(given: &Given) -> Result<Vec<u8>, u8> {
    let mut sub_items = item(0x51, &OUR_MAXIMUM.to_be_bytes());
    if !name_is_valid(&given.class) {
        return Err(4);
    }
    sub_items.extend(item(0x52, &given.class));
    if (given.invoked, given.performed) != (1, 1) {
        sub_items.extend(item(0x53, &[given.invoked.to_be_bytes(), given.performed.to_be_bytes()].concat()));
    }
    for role in given_roles(&given.roles)? {
        let length = (role.uid.len() as u16).to_be_bytes();
        sub_items.extend(item(0x54, &[&length, role.uid, &[role.scu, role.scp]].concat()));
    }
    if !given.version_name.is_empty() {
        if !version_name_is_valid(&given.version_name) {
            return Err(4);
        }
        sub_items.extend(item(0x55, &given.version_name));
    }
    Ok(item(0x50, &sub_items))
}

/// The records of a role sheet to be sent: none or more, no part record, no UID twice.
fn given_roles(sheet: &[u8]) -> Result<Vec<Role<'_>>, u8> {
    if !sheet.chunks_exact(ROLE).remainder().is_empty() {
        return Err(4);
    }
    let roles: Result<Vec<Role>, u8> = sheet.chunks(ROLE).map(given_role).collect();
    let roles = roles?;
    let uids: BTreeSet<&[u8]> = roles.iter().map(|role| role.uid).collect();
    if uids.len() == roles.len() {
        Ok(roles)
    } else {
        Err(4)
    }
}

fn given_role(record: &[u8]) -> Result<Role<'_>, u8> {
    let uid = name_field(&record[4..], record[0])?;
    let (scu, scp) = (record[1], record[2]);
    if name_is_valid(uid) && scu <= 1 && scp <= 1 && record[3] == 0 {
        Ok(Role { uid, scu, scp })
    } else {
        Err(4)
    }
}
