//! User information sent once more from contents, by the papers but for one rule, by its name; "" is no such rule.

use crate::fields::RECORD;
use crate::names::name_is_valid;
use crate::replay::digest;
use crate::user::{Given, ROLE};
use crate::write;
use crate::wrong_reading::{characters_are_good, fill, is_name_of_any_length, repeats, Role};

/// Contents of an RQ (kind 1, both titles as the middle) or an AC (kind 2, its 64 bytes).
pub struct Contents {
    pub kind: u8,
    pub middle: [Vec<u8>; 2],
    pub application: Vec<u8>,
    pub user: Given,
    pub sheet: Vec<u8>,
}

fn sub_item(kind: u8, body: &[u8]) -> Vec<u8> {
    [&[kind, 0][..], &(body.len() as u16).to_be_bytes(), body].concat()
}

/// The class UID as it is sent, None for none; Err where it is refused.
fn sent_class(user: &Given, wrong: &str) -> Result<Option<Vec<u8>>, u8> {
    let class = &user.class;
    let taken = match wrong {
        "an empty class UID is sent as no 52H" if class.is_empty() => return Ok(None),
        "an empty class UID is sent as an empty 52H" if class.is_empty() => true,
        "any class UID is taken" => true,
        "a class UID of 65 bytes is taken" if class.len() == 65 => is_name_of_any_length(class),
        "a class UID with a NUL behind is taken" if class.ends_with(&[0]) => name_is_valid(&class[..class.len() - 1]),
        _ => name_is_valid(class),
    };
    let mut sent = class.clone();
    if wrong == "a class UID is sent with an even length" && sent.len() % 2 == 1 {
        sent.push(0);
    }
    Some(Some(sent)).filter(|_| taken).ok_or(4)
}

fn sent_version_name(user: &Given, wrong: &str) -> Result<Option<Vec<u8>>, u8> {
    let name = &user.version_name;
    if name.is_empty() {
        return match wrong {
            "an empty version name is refused" => Err(4),
            "an empty version name is sent as an empty 55H" => Ok(Some(Vec::new())),
            "a version name is sent with 16 characters" => Ok(Some(vec![0x20; 16])),
            _ => Ok(None),
        };
    }
    let mut sent = name.clone();
    let length = if wrong == "a version name's length is counted in a byte" { name.len() % 256 } else { name.len() };
    let length_is_good = match length {
        0..=15 => true,
        16 => wrong != "a version name of 16 is refused",
        17 => wrong == "a version name of 17 is taken" || wrong == "a version name is cut to 16",
        _ => wrong == "a version name is cut to 16",
    };
    if wrong == "a version name is cut to 16" {
        sent.truncate(16);
    }
    if !length_is_good || !characters_are_good(&sent, "version name", wrong) {
        return Err(4);
    }
    match wrong {
        "a version name is sent without its outer spaces" => {
            let text: String = sent.iter().map(|byte| *byte as char).collect();
            sent = text.trim_matches(' ').bytes().collect();
        }
        "a version name is sent with 16 characters" => sent.resize(16, 0x20),
        _ => {}
    }
    Ok(Some(sent))
}

/// The role of one record.
fn role_of_record(record: &[u8], wrong: &str) -> Result<Option<Role>, u8> {
    if wrong == "a record of zeros is left out" && record.iter().all(|byte| *byte == 0) {
        return Ok(None);
    }
    let mut length = record[0] as usize;
    if wrong == "a UID length above 64 is cut to 64" {
        length = length.min(64);
    }
    if length > 64 {
        return Err(4);
    }
    let (uid, unused) = record[4..].split_at(length);
    let tested = match wrong {
        "unused bytes are not tested" => &[],
        "the first unused byte is not tested" => &unused[1.min(unused.len())..],
        "the last unused byte is not tested" => &unused[..unused.len().saturating_sub(1)],
        _ => unused,
    };
    let uid_is_good =
        name_is_valid(uid) || wrong == "any UID is sent" || (wrong == "a UID of length 0 is sent" && uid.is_empty());
    let role = |role: u8, of: &str| match role {
        0 | 1 => Ok(role),
        2 if wrong == format!("{} role 2 is sent", of) => Ok(2),
        _ if wrong == "any role is sent" => Ok(role),
        _ if wrong == "a role above 1 is sent as 1" => Ok(1),
        _ => Err(4),
    };
    let fourth_is_good = record[3] == 0 || wrong == "the fourth byte is not tested";
    if !uid_is_good || !fourth_is_good || tested.iter().any(|byte| *byte != 0) {
        return Err(4);
    }
    let (scu, scp) = (role(record[1], "SCU")?, role(record[2], "SCP")?);
    if wrong == "roles 0 and 0 are not sent" && (scu, scp) == (0, 0) {
        return Ok(None);
    }
    Ok(Some((uid.to_vec(), scu, scp)))
}

/// Rules of UIDs that come twice in a sheet, each as it would be wrong.
pub const SENT_REPEATS: [&str; 7] = [
    "equal UIDs are sent",
    "equal UIDs side by side are sent",
    "equal UIDs apart are sent",
    "equal UIDs with other roles are sent",
    "equal UIDs with equal roles are sent",
    "the last UID of a sheet is not compared",
    "the first UID of a sheet is not compared",
];

/// The roles as they are sent.
fn sent_roles(user: &Given, wrong: &str) -> Result<Vec<Role>, u8> {
    let sheet = &user.roles;
    let part = sheet.len() % ROLE;
    let left_out = wrong == "a part record is left out"
        || wrong == "a part record alone is left out" && sheet.len() < ROLE
        || wrong == "a role sheet is tested for part contexts" && sheet.len() % RECORD == 0;
    if (part != 0 && !left_out) || (wrong == "an empty role sheet is refused" && sheet.is_empty()) {
        return Err(4);
    }
    let mut roles: Vec<Role> = Vec::new();
    for record in sheet[..sheet.len() - part].chunks(ROLE) {
        if let Some(role) = role_of_record(record, wrong)? {
            if wrong != "equal records are sent once" || !roles.contains(&role) {
                roles.push(role);
            }
        }
    }
    let class_among = wrong == "the class UID counts as a UID of the sheet" && roles.iter().any(|r| r.0 == user.class);
    if class_among || repeats(&roles, SENT_REPEATS, wrong) {
        return Err(4);
    }
    match wrong {
        "54Hs sorted" => roles.sort(),
        "54Hs from the last to the first" => roles.reverse(),
        "the last role is not sent" => drop(roles.pop()),
        "the first role is not sent" => drop(roles.drain(..1.min(roles.len()))),
        _ => {}
    }
    Ok(roles)
}

/// The body of a 54H.
fn sent_role(role: &Role, wrong: &str) -> Vec<u8> {
    let (uid, scu, scp) = (&role.0, role.1, role.2);
    let length = uid.len() as u16;
    let head = match wrong {
        "a UID's length is sent in one byte" => vec![length as u8],
        "a UID's length is sent low byte first" => length.to_le_bytes().to_vec(),
        "a UID is sent with an even length" => (length + length % 2).to_be_bytes().to_vec(),
        _ => length.to_be_bytes().to_vec(),
    };
    let mut uid = uid.clone();
    if wrong == "a UID is sent with an even length" && length % 2 == 1 {
        uid.push(0);
    }
    let roles = match wrong {
        "the roles are exchanged on writing" => [scp, scu],
        "the SCU role is sent twice" => [scu, scu],
        _ => [scu, scp],
    };
    [&head[..], &uid, &roles].concat()
}

/// The 53H, where one is sent.
fn sent_counts(user: &Given, wrong: &str) -> Vec<Vec<u8>> {
    let (invoked, performed) = (user.invoked, user.performed);
    let sends = match wrong {
        "53H is sent for 1 and 1" => true,
        "53H is left out" => false,
        "53H is left out for 0 and 0" if (invoked, performed) == (0, 0) => false,
        "53H is left out where 1 is invoked" if invoked == 1 => false,
        "53H is left out where 1 is performed" if performed == 1 => false,
        "53H is left out for equal counts" if invoked == performed => false,
        _ => (invoked, performed) != (1, 1),
    };
    let body = match wrong {
        "the counts are exchanged on writing" => [performed.to_be_bytes(), invoked.to_be_bytes()],
        "the counts have their low byte first on writing" => [invoked.to_le_bytes(), performed.to_le_bytes()],
        _ => [invoked.to_be_bytes(), performed.to_be_bytes()],
    };
    Some(sub_item(0x53, &body.concat())).filter(|_| sends).into_iter().collect()
}

/// The user information as it is sent, or 4.
fn sent_user(kind: u8, user: &Given, wrong: &str) -> Result<Vec<u8>, u8> {
    let is = |rule: &str| wrong == format!("{} of {} is not tested", rule, if kind == 1 { "an RQ" } else { "an AC" });
    let left_out = |sub_item: u8| kind == 2 && wrong == format!("{:X}H is not sent in an AC", sub_item);
    if wrong == "counts of 0 are refused" && (user.invoked == 0 || user.performed == 0) {
        return Err(4);
    }
    let class = sent_class(user, wrong).or_else(|no| if is("the class UID") { Ok(None) } else { Err(no) })?;
    let name = sent_version_name(user, wrong).or_else(|no| if is("the version name") { Ok(None) } else { Err(no) })?;
    let roles = sent_roles(user, wrong).or_else(|no| if is("the role sheet") { Ok(Vec::new()) } else { Err(no) })?;
    let of = |kind: u8, bodies: Vec<Vec<u8>>| -> Vec<Vec<u8>> {
        bodies.iter().filter(|_| !left_out(kind)).map(|body| sub_item(kind, body)).collect()
    };
    let maximum = vec![sub_item(0x51, &[0, 0, 0x40, 0])];
    let class = of(0x52, class.into_iter().collect());
    let counts = if left_out(0x53) { Vec::new() } else { sent_counts(user, wrong) };
    let mut roles = of(0x54, roles.iter().map(|role| sent_role(role, wrong)).collect());
    if wrong == "a 54H's length takes in its header" {
        roles.iter_mut().for_each(|role| role[3] += 4);
    }
    let name = of(0x55, name.into_iter().collect());
    let order = match wrong {
        "52H behind 53H" => [maximum, counts, class, roles, name],
        "52H before 51H" => [class, maximum, counts, roles, name],
        "54Hs before 53H" => [maximum, class, roles, counts, name],
        "55H before the 54Hs" => [maximum, class, counts, name, roles],
        "55H before 53H" => [maximum, class, name, counts, roles],
        _ => [maximum, class, counts, roles, name],
    };
    Ok(order.concat().concat())
}

/// Refusal, count of bytes sent and digest of an output of so many bytes.
pub fn sent_answer(contents: &Contents, room: usize, wrong: &str) -> String {
    let output = vec![0x5a; room];
    // All but the user information is as it was: written with a class UID of one byte, which is then taken off.
    let one = Given::class_alone(b"1");
    let [middle, more] = &contents.middle;
    let bare = match contents.kind {
        1 => write::rq(middle, more, &contents.application, &one, &contents.sheet),
        _ => write::ac(middle, &contents.application, &one, &contents.sheet),
    };
    let refused = |refusal: u8| format!("{} 0 {}", refusal, digest(&output));
    let user = sent_user(contents.kind, &contents.user, wrong);
    let (mut bytes, measured) = match (bare, &user) {
        (Ok(bare), Ok(user)) => {
            let sub_items = sub_item(0x50, user);
            let bytes = [&bare[..bare.len() - 17], &sub_items].concat();
            let without = Given { roles: Vec::new(), ..contents.user.clone() };
            let short = sent_user(contents.kind, &without, wrong).map_or(0, |user| user.len());
            let length = bytes.len() - 6;
            let measured = if wrong == "roles are not measured" { length + short - user.len() } else { length };
            (bytes, measured)
        }
        (Ok(bare), Err(_)) => {
            // What would be measured and need room before it is refused with 4.
            let given = &contents.user;
            let roles: usize = given.roles.chunks(ROLE).map(|record| 8 + record[0] as usize).sum();
            let others = sent_counts(given, "").concat().len() + 4 + given.class.len();
            let name = if given.version_name.is_empty() { 0 } else { 4 + given.version_name.len() };
            let longest = bare.len() - 11 + others + roles + name;
            return match wrong {
                "5 before 4" if longest > 16_384 => refused(5),
                "2 before 4" if room < 100 => refused(2),
                _ => refused(4),
            };
        }
        (Err(refusal), Ok(_)) => return refused(refusal),
        (Err(_), Err(_)) => return refused(4),
    };
    let most = match wrong {
        "a PDU-length of 16,384 is too long" => 16_383,
        "a PDU-length of 16,385 is sent" => 16_385,
        "an AC is never too long" if contents.kind == 2 => 100_000,
        _ => 16_384,
    };
    let needed = match wrong {
        "room for the header is not asked" => bytes.len() - 6,
        "a byte more room is asked" => bytes.len() + 1,
        _ => bytes.len(),
    };
    let too_long = measured > most;
    if wrong == "2 before 5" && room < needed {
        return refused(2);
    }
    if too_long {
        return refused(5);
    }
    if room < needed {
        return refused(2);
    }
    let length = (bytes.len() - 6) as u32;
    bytes[2..6].copy_from_slice(&length.to_be_bytes());
    let mut after = output.clone();
    fill(&mut after, &bytes);
    format!("0 {} {}", bytes.len(), digest(&after))
}
