//! User information to be sent, for the generator: good contents, and each rule of theirs just kept or just broken.

use crate::fields::RECORD;
use crate::make::{bad_name, good_name, name_of_length};
use crate::marks::Marks;
use crate::random::Random;
use crate::subitems::{
    good_version_name, long_version_name, names_alike, names_apart, some_count, version_name_of, version_name_with,
};
use crate::twists::{inside, outside, seldom_used, Expect, Twist};
use crate::user::{role_record, Given, Role, ROLE};

/// Contents to be sent, the role sheet in records with bytes behind them.
#[derive(Clone, Debug)]
pub struct Said {
    pub class: Vec<u8>,
    pub version_name: Vec<u8>,
    pub counts: (u16, u16),
    pub roles: Vec<Vec<u8>>,
    pub tail: Vec<u8>,
}

impl Said {
    pub fn given(&self) -> Given {
        Given {
            class: self.class.clone(),
            version_name: self.version_name.clone(),
            invoked: self.counts.0,
            performed: self.counts.1,
            roles: [self.roles.concat(), self.tail.clone()].concat(),
        }
    }

    /// Edits one role record, often the last; where there is none, one is made.
    fn with_role(&mut self, random: &mut Random, edit: impl FnOnce(&mut Vec<u8>, &mut Random)) {
        if self.roles.is_empty() {
            self.roles.push(some_role(b"1.2.3", random));
        }
        let last = self.roles.len() - 1;
        let place = if random.chance(50) { last } else { random.below(last + 1) };
        edit(&mut self.roles[place], random);
    }

    /// Edits one record after its UID is made a short one that no other record has.
    fn with_short(&mut self, random: &mut Random, edit: impl FnOnce(&mut Vec<u8>, &mut Random)) {
        self.with_role(random, |record, random| {
            *record = role_of(b"3.3.3", record[1], record[2]);
            edit(record, random);
        });
    }

    /// One record, and with it the same UID again, side by side or with others between; its roles as given.
    fn repeat(&mut self, again: [u8; 2], apart: bool, random: &mut Random) {
        let uid = good_name(random);
        let others = if apart { random.between(1, 3) } else { 0 };
        let between: Vec<Vec<u8>> = (0..others).map(|number| role_of(&numbered(number), 1, 0)).collect();
        let two = [role_of(&uid, 0, 1), role_of(&uid, again[0], again[1])];
        self.roles = [&two[..1], &between, &two[1..]].concat();
    }
}

fn numbered(number: usize) -> Vec<u8> {
    format!("1.2.840.99999.{}", number).into_bytes()
}

/// A record of the role sheet.
pub fn role_of(uid: &[u8], scu: u8, scp: u8) -> Vec<u8> {
    role_record(&Role { uid, scu, scp })
}

/// A record with any roles.
pub fn some_role(uid: &[u8], random: &mut Random) -> Vec<u8> {
    role_of(uid, random.below(2) as u8, random.below(2) as u8)
}

/// A record with a UID in its field that may break the rules.
fn role_naming(uid: &[u8]) -> Vec<u8> {
    let mut record = vec![uid.len() as u8, 1, 0, 0];
    record.extend_from_slice(uid);
    record.resize(ROLE, 0);
    record
}

fn some_roles(uids: &[Vec<u8>], random: &mut Random) -> Vec<Vec<u8>> {
    uids.iter().map(|uid| some_role(uid, random)).collect()
}

/// Good contents: a class UID, and more often than not more.
pub fn good_said(random: &mut Random) -> Said {
    let version_name = if random.chance(50) { good_version_name(random) } else { Vec::new() };
    let counts = if random.chance(35) { (some_count(random), some_count(random)) } else { (1, 1) };
    let uids = random.pick(&[0, 0, 0, 1, 2, 3]);
    let roles = some_roles(&names_apart(uids, random), random);
    Said { class: good_name(random), version_name, counts, roles, tail: Vec::new() }
}

/// A bad name that fits a field of 64 bytes.
fn bad_uid(random: &mut Random) -> Vec<u8> {
    loop {
        let name = bad_name(random);
        if (1..=64).contains(&name.len()) {
            return name;
        }
    }
}

/// Contents to be sent, each rule kept or broken.
pub static GIVEN: &[Twist<Said>] = &[
    inside("a class UID alone", |s, _| {
        *s = Said { version_name: Vec::new(), counts: (1, 1), roles: Vec::new(), ..s.clone() };
    }),
    inside("all of it", |s, r| {
        let uids = r.between(2, 4);
        s.roles = some_roles(&names_apart(uids, r), r);
        s.version_name = good_version_name(r);
        s.counts = (some_count(r), 2);
    }),
    // The class UID.
    inside("class UID of 64 bytes", |s, r| s.class = name_of_length(64, r)),
    inside("class UID of 1 byte", |s, _| s.class = b"0".to_vec()),
    outside("class UID of 65 bytes", |s, r| s.class = name_of_length(65, r)),
    outside("class UID empty", |s, _| s.class.clear()),
    outside("class UID empty, all else too", |s, _| {
        *s = Said { class: Vec::new(), version_name: Vec::new(), counts: (1, 1), roles: Vec::new(), tail: Vec::new() };
    }),
    outside("class UID with a NUL behind", |s, _| s.class.push(0)),
    outside("class UID bad", |s, r| s.class = bad_uid(r)),
    outside("class UID far too long", |s, r| {
        let length = r.pick(&[66, 128, 256, 257, 300]);
        s.class = name_of_length(length, r);
    }),
    // The version name.
    inside("version name empty", |s, _| s.version_name.clear()),
    inside("version name of 1 character", |s, r| s.version_name = vec![r.pick(b"!A[]~")]),
    inside("version name of 16 characters", |s, r| s.version_name = version_name_of(16, r)),
    inside("version name of one space", |s, _| s.version_name = b" ".to_vec()),
    inside("version name of 16 spaces", |s, _| s.version_name = vec![0x20; 16]),
    inside("version name with spaces at both ends", |s, _| s.version_name = b" OLD  ONE ".to_vec()),
    outside("version name of 17 characters", |s, r| s.version_name = version_name_of(17, r)),
    outside("version name of 17 spaces", |s, _| s.version_name = vec![0x20; 17]),
    outside("version name of more characters", |s, r| s.version_name = long_version_name(r)),
    outside("version name of 256 or 257 characters", |s, r| {
        let length = r.pick(&[256, 257, 272]);
        s.version_name = version_name_of(length, r);
    }),
    outside("version name with 5CH", |s, r| s.version_name = version_name_with(0x5c, r)),
    outside("version name with 7FH", |s, r| s.version_name = version_name_with(0x7f, r)),
    outside("version name with 1FH", |s, r| s.version_name = version_name_with(0x1f, r)),
    outside("version name with a NUL behind", |s, r| {
        let length = r.pick(&[1, 8, 15]);
        s.version_name = [version_name_of(length, r), vec![0]].concat();
    }),
    outside("version name with bytes above 7FH", |s, r| {
        let byte = r.pick(&[0x80, 0xa0, 0xc1, 0xff]);
        s.version_name = version_name_with(byte, r);
    }),
    outside("version name with a bad first byte", |s, r| {
        s.version_name = [&[r.pick(&[0x1f, 0x5c, 0x7f])][..], b"ONE"].concat();
    }),
    outside("version name with a bad last byte", |s, r| {
        s.version_name = [&b"ONE"[..], &[r.pick(&[0x1f, 0x5c, 0x7f])]].concat();
    }),
    // The counts.
    inside("counts 1 and 1", |s, _| s.counts = (1, 1)),
    inside("counts 0 and 0", |s, _| s.counts = (0, 0)),
    inside("counts 0 and 1", |s, _| s.counts = (0, 1)),
    inside("counts 1 and 0", |s, _| s.counts = (1, 0)),
    inside("counts 1 and 2", |s, _| s.counts = (1, 2)),
    inside("counts 2 and 1", |s, _| s.counts = (2, 1)),
    inside("counts 2 and 2", |s, _| s.counts = (2, 2)),
    inside("counts 65,535 and 65,535", |s, _| s.counts = (65_535, 65_535)),
    inside("counts 1 and 65,535", |s, _| s.counts = (1, 65_535)),
    inside("counts 256 and 1", |s, _| s.counts = (256, 1)),
    inside("counts 257 and 257", |s, _| s.counts = (257, 257)),
    // The role sheet.
    inside("no role", |s, _| s.roles.clear()),
    inside("one role", |s, r| s.roles = some_roles(&names_apart(1, r), r)),
    inside("roles of each pair", |s, r| {
        let pairs = [[0, 0], [0, 1], [1, 0], [1, 1]];
        let uids = names_apart(4, r);
        s.roles = (0..4).map(|place| role_of(&uids[place], pairs[place][0], pairs[place][1])).collect();
        r.shuffle(&mut s.roles);
    }),
    inside("roles, UIDs falling", |s, r| {
        s.roles = some_roles(&[b"1.9".to_vec(), b"1.5.1".to_vec(), b"1.5".to_vec(), b"1.2.840".to_vec()], r);
    }),
    inside("roles, UIDs rising", |s, r| {
        s.roles = some_roles(&[b"1.2.840".to_vec(), b"1.5".to_vec(), b"1.5.1".to_vec(), b"1.9".to_vec()], r);
    }),
    inside("roles, a UID of 64 bytes", |s, r| {
        s.with_role(r, |record, r| *record = some_role(&name_of_length(64, r), r))
    }),
    inside("roles, a UID of 1 byte", |s, r| {
        s.roles = some_roles(&[b"0".to_vec(), b"9".to_vec(), b"10".to_vec()], r);
    }),
    inside("roles, UIDs other in their first byte", |s, r| s.roles = some_roles(&names_alike(0, r), r)),
    inside("roles, UIDs other in their last byte", |s, r| s.roles = some_roles(&names_alike(1, r), r)),
    inside("roles, UIDs other in one byte", |s, r| s.roles = some_roles(&names_alike(2, r), r)),
    inside("roles, UIDs other in length", |s, r| s.roles = some_roles(&names_alike(3, r), r)),
    inside("roles, the class UID among them", |s, r| s.roles = some_roles(&[s.class.clone()], r)),
    inside("roles, ten to twenty", |s, r| {
        let count = r.between(10, 20);
        s.roles = some_roles(&names_apart(count, r), r);
    }),
    outside("roles, bytes behind", |s, r| {
        let length = r.pick(&[1, 2, 4, 34, 67]);
        s.tail = vec![0; length];
    }),
    outside("roles, the last record cut", |s, r| {
        s.tail = some_role(b"3.3.3", r);
        s.tail.truncate(r.pick(&[1, 4, 9, 66, 67]));
    }),
    outside("roles, a part record alone", |s, r| {
        s.roles.clear();
        s.tail = some_role(b"1.2.3", r)[..r.pick(&[1, 9, 67])].to_vec();
    }),
    outside("roles, as many bytes as a context", |s, r| {
        s.roles = some_roles(&names_apart(1, r), r);
        s.tail = vec![0; RECORD - ROLE];
    }),
    outside("roles, UID length 0, field zero", |s, r| s.with_role(r, |record, _| *record = role_naming(b""))),
    outside("roles, UID length 0, a UID in the field", |s, r| s.with_short(r, |record, _| record[0] = 0)),
    outside("roles, a record of zeros", |s, _| s.roles.push(vec![0; ROLE])),
    outside("roles, UID length above 64", |s, r| {
        s.with_role(r, |record, r| {
            *record = some_role(&name_of_length(64, r), r);
            record[0] = r.pick(&[65, 65, 66, 128, 255]);
        });
    }),
    outside("roles, UID length two less", |s, r| s.with_short(r, |record, _| record[0] -= 2)),
    outside("roles, UID length one more", |s, r| s.with_short(r, |record, _| record[0] += 1)),
    outside("roles, a bad UID", |s, r| s.with_role(r, |record, r| *record = role_naming(&bad_uid(r)))),
    outside("roles, first unused byte not zero", |s, r| {
        s.with_short(r, |record, r| record[9] = r.pick(&[1, 0x20, 0x31, 0xff]));
    }),
    outside("roles, last unused byte not zero", |s, r| {
        s.with_short(r, |record, r| record[ROLE - 1] = r.pick(&[1, 0x20, 0x31, 0xff]));
    }),
    outside("roles, an unused byte not zero", |s, r| {
        s.with_short(r, |record, r| record[r.between(10, ROLE - 2)] = r.pick(&[1, 0x20, 0x31, 0xff]));
    }),
    outside("roles, the last unused byte of 63", |s, r| {
        s.with_role(r, |record, r| {
            *record = some_role(&name_of_length(63, r), r);
            record[ROLE - 1] = r.pick(&[1, 0x20, 0xff]);
        });
    }),
    outside("roles, SCU role 2", |s, r| s.with_role(r, |record, _| record[1] = 2)),
    outside("roles, SCP role 2", |s, r| s.with_role(r, |record, _| record[2] = 2)),
    outside("roles, another SCU role", |s, r| s.with_role(r, |record, r| record[1] = r.pick(&[3, 0x31, 0x80, 0xff]))),
    outside("roles, another SCP role", |s, r| s.with_role(r, |record, r| record[2] = r.pick(&[3, 0x31, 0x80, 0xff]))),
    outside("roles, fourth byte 1", |s, r| s.with_role(r, |record, _| record[3] = 1)),
    outside("roles, another fourth byte", |s, r| {
        s.with_role(r, |record, r| record[3] = r.pick(&[2, 0x31, 0x80, 0xff]))
    }),
    outside("roles, equal records side by side", |s, r| s.repeat([0, 1], false, r)),
    outside("roles, equal records apart", |s, r| s.repeat([0, 1], true, r)),
    outside("roles, a UID twice side by side", |s, r| s.repeat([1, 0], false, r)),
    outside("roles, a UID twice apart", |s, r| s.repeat([1, 1], true, r)),
    outside("roles, the last UID twice", |s, r| {
        let mut uids = names_apart(4, r);
        uids[3] = uids[2].clone();
        s.roles = some_roles(&uids, r);
    }),
    outside("roles, the first UID twice", |s, r| {
        let mut uids = names_apart(4, r);
        uids[1] = uids[0].clone();
        s.roles = some_roles(&uids, r);
    }),
];

/// User information for a local request, within the rules or, unless `good`, beyond one of them.
pub fn some_given(good: bool, random: &mut Random, marks: &mut Marks) -> Given {
    let mut said = good_said(random);
    if !good {
        let broken: Vec<&Twist<Said>> = GIVEN.iter().filter(|twist| twist.expect == Expect::Outside).collect();
        if let Some(twist) = seldom_used(&broken, "given", random, marks) {
            (twist.edit)(&mut said, random);
        }
    }
    said.given()
}
