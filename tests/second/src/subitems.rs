//! Sub-items of a 50H for the generator: good ones of each kind, and each rule of theirs just kept or just broken.

use crate::make::{
    bad_name, good_name, insert_anywhere, known_inside, name_of_length, skipped, some_maximum, Node, Plan,
};
use crate::random::Random;
use crate::twists::{inside, outside, Twist};

/// What stands in a 50H.
pub type Inner = Vec<Node>;

/// The kinds beside 51H.
const KINDS: [u8; 4] = [0x52, 0x53, 0x54, 0x55];

/// The body of a 54H.
pub fn role_body(uid: &[u8], scu: u8, scp: u8) -> Vec<u8> {
    [&(uid.len() as u16).to_be_bytes()[..], uid, &[scu, scp]].concat()
}

/// A 54H with any roles that keep the rules.
pub fn role(uid: &[u8], random: &mut Random) -> Node {
    Node::leaf(0x54, &role_body(uid, random.below(2) as u8, random.below(2) as u8))
}

/// So many good names, no two equal.
pub fn names_apart(count: usize, random: &mut Random) -> Vec<Vec<u8>> {
    let mut names: Vec<Vec<u8>> = Vec::new();
    while names.len() < count {
        let length = random.between(5, 30);
        let name = if random.chance(60) { good_name(random) } else { name_of_length(length, random) };
        if !names.contains(&name) {
            names.push(name);
        }
    }
    names
}

/// Two names that differ in one byte, the first, the last or any, or in that one has a byte more.
pub fn names_alike(difference: usize, random: &mut Random) -> [Vec<u8>; 2] {
    let length = random.pick(&[2, 3, 9, 17, 40, 63]);
    let one = name_of_length(length, random);
    let mut other = one.clone();
    let digits: Vec<usize> = (0..length).filter(|place| one[*place] != b'.').collect();
    let place = match difference {
        0 => 0,
        1 => length - 1,
        2 => random.pick(&digits),
        _ => {
            other.push(b'1' + random.below(9) as u8);
            return [one, other];
        }
    };
    other[place] = if one[place] == b'9' { b'1' } else { one[place] + 1 };
    [one, other]
}

/// Counts of operations, often near 1 and 1.
pub fn some_count(random: &mut Random) -> u16 {
    random.pick(&[0, 0, 1, 1, 2, 3, 16, 255, 256, 257, 32_768, 65_534, 65_535])
}

fn counts_body(invoked: u16, performed: u16) -> Vec<u8> {
    [invoked.to_be_bytes(), performed.to_be_bytes()].concat()
}

/// Title characters, also those just inside.
pub fn version_name_of(length: usize, random: &mut Random) -> Vec<u8> {
    (0..length).map(|_| random.pick(b" !09AZ[]az~")).collect()
}

pub fn good_version_name(random: &mut Random) -> Vec<u8> {
    let listed: [&[u8]; 8] =
        [b"FEOHANNA_0.8", b"OFFIS_DCMTK_367", b"box 1.0 beta", b"A", b" ", b" OLD  ONE ", b"ABCDEFGHIJKLMNOP", b"[~]"];
    if random.chance(25) {
        let length = random.between(1, 16);
        return version_name_of(length, random);
    }
    random.pick(&listed).to_vec()
}

/// A version name with one byte that is no title character: its first, its last or any.
pub fn version_name_with(byte: u8, random: &mut Random) -> Vec<u8> {
    let length = random.pick(&[1, 2, 8, 15, 16]);
    let mut name = version_name_of(length, random);
    let any = random.below(length);
    name[random.pick(&[0, length - 1, any])] = byte;
    name
}

/// A version name of more than 16 title characters.
pub fn long_version_name(random: &mut Random) -> Vec<u8> {
    let length = random.pick(&[18, 20, 32, 64, 200]);
    version_name_of(length, random)
}

/// The sub-items of a good 50H: 51H and, more often than not, others.
pub fn good_sub_items(random: &mut Random) -> Inner {
    let mut inner = vec![Node::leaf(0x51, &some_maximum(random).to_be_bytes())];
    if random.chance(60) {
        inner.push(Node::leaf(0x52, &good_name(random)));
    }
    if random.chance(25) {
        inner.push(Node::leaf(0x53, &counts_body(some_count(random), some_count(random))));
    }
    let roles = random.pick(&[0, 0, 0, 0, 0, 1, 1, 2, 3]);
    inner.extend(names_apart(roles, random).iter().map(|uid| role(uid, random)).collect::<Inner>());
    if random.chance(50) {
        inner.push(Node::leaf(0x55, &good_version_name(random)));
    }
    if random.chance(30) {
        random.shuffle(&mut inner);
    }
    inner
}

/// Each kind, in rising order.
fn all_kinds(random: &mut Random) -> Inner {
    let mut inner = vec![Node::leaf(0x51, &some_maximum(random).to_be_bytes())];
    inner.push(Node::leaf(0x52, &good_name(random)));
    inner.push(Node::leaf(0x53, &counts_body(some_count(random), some_count(random))));
    let roles = random.between(1, 4);
    inner.extend(names_apart(roles, random).iter().map(|uid| role(uid, random)).collect::<Inner>());
    inner.push(Node::leaf(0x55, &good_version_name(random)));
    inner
}

/// 51H and the sub-items of one kind.
fn only(inner: &mut Inner, kind: u8, random: &mut Random) {
    *inner = all_kinds(random);
    inner.retain(|node| node.kind == 0x51 || node.kind == kind);
}

fn all_but(inner: &mut Inner, kind: u8, random: &mut Random) {
    *inner = all_kinds(random);
    inner.retain(|node| node.kind != kind);
}

/// One sub-item of a kind, at any place.
fn put(inner: &mut Inner, kind: u8, body: &[u8], random: &mut Random) {
    inner.retain(|node| node.kind != kind);
    insert_anywhere(inner, Node::leaf(kind, body), random);
}

fn put_counts(inner: &mut Inner, invoked: u16, performed: u16, random: &mut Random) {
    put(inner, 0x53, &counts_body(invoked, performed), random);
}

/// A 53H of a length.
fn put_counts_of(inner: &mut Inner, length: usize, random: &mut Random) {
    let body: Vec<u8> = (0..length).map(|_| random.pick(&[0, 0, 1, 2])).collect();
    put(inner, 0x53, &body, random);
}

fn put_roles(inner: &mut Inner, uids: &[Vec<u8>], random: &mut Random) {
    inner.retain(|node| node.kind != 0x54);
    for uid in uids {
        inner.push(role(uid, random));
    }
    if random.chance(40) {
        random.shuffle(inner);
    }
}

/// A 54H with this body, often among good ones.
fn put_role_body(inner: &mut Inner, body: &[u8], random: &mut Random) {
    inner.retain(|node| node.kind != 0x54);
    for number in 0..random.pick(&[0, 0, 1, 2]) {
        let uid = format!("1.2.840.99999.{}", number);
        insert_anywhere(inner, role(uid.as_bytes(), random), random);
    }
    insert_anywhere(inner, Node::leaf(0x54, body), random);
}

/// A short UID and two roles.
fn some_role(random: &mut Random) -> (Vec<u8>, u8, u8) {
    let uid: &[u8] = random.pick(&[&b"1.2"[..], b"1.2.840.10008.1.1", b"9", b"1.2.840.10008.5.1.4.1.1.2"]);
    (uid.to_vec(), random.below(2) as u8, random.below(2) as u8)
}

/// A 54H whose field of the UID's length is off, else as it should be.
fn put_role_counting(inner: &mut Inner, count: impl Fn(u16) -> u16, random: &mut Random) {
    let (uid, scu, scp) = some_role(random);
    let mut body = role_body(&uid, scu, scp);
    body[..2].copy_from_slice(&count(uid.len() as u16).to_be_bytes());
    put_role_body(inner, &body, random);
}

/// Two sub-items of one kind, side by side or with another between them.
fn put_two(inner: &mut Inner, kind: u8, bodies: [&[u8]; 2], apart: bool, random: &mut Random) {
    inner.retain(|node| node.kind != kind);
    let place = if apart { random.below(inner.len()) } else { random.below(inner.len() + 1) };
    inner.insert(place, Node::leaf(kind, bodies[0]));
    let behind = if apart { random.between(place + 2, inner.len()) } else { place + 1 };
    inner.insert(behind, Node::leaf(kind, bodies[1]));
}

fn put_equal(inner: &mut Inner, kind: u8, body: &[u8], apart: bool, random: &mut Random) {
    put_two(inner, kind, [body, body], apart, random);
}

/// A sub-item of a kind that keeps its rules, and tells something else than none would.
fn good_of(kind: u8, random: &mut Random) -> Node {
    let body = match kind {
        0x52 => good_name(random),
        0x53 => counts_body(some_count(random), 2),
        0x54 => return role(&good_name(random), random),
        _ => good_version_name(random),
    };
    Node::leaf(kind, &body)
}

/// The body of a sub-item of a kind that breaks one.
pub fn malformed(kind: u8, random: &mut Random) -> Vec<u8> {
    match kind {
        0x52 => bad_name(random),
        0x53 => {
            let length = random.pick(&[0, 1, 2, 3, 5, 6, 8]);
            random.bytes(length)
        }
        0x54 => {
            let (uid, scu, scp) = some_role(random);
            match random.below(5) {
                0 => Vec::new(),
                1 => role_body(&uid, 2, scp),
                2 => role_body(&bad_name(random), scu, scp),
                3 => [role_body(&uid, scu, scp), vec![0]].concat(),
                _ => role_body(&uid, scu, scp)[..3].to_vec(),
            }
        }
        _ => match random.below(4) {
            0 => Vec::new(),
            1 => version_name_of(17, random),
            2 => long_version_name(random),
            _ => version_name_with(random.pick(&[0x00, 0x1f, 0x5c, 0x7f, 0x80, 0xff]), random),
        },
    }
}

/// A good sub-item of a kind and a malformed one, in either order.
fn put_good_and_malformed(inner: &mut Inner, kind: u8, random: &mut Random) {
    let (good, bad) = (good_of(kind, random).head, malformed(kind, random));
    let bodies: [&[u8]; 2] = if random.chance(50) { [&good, &bad] } else { [&bad, &good] };
    let apart = random.chance(50);
    put_two(inner, kind, bodies, apart, random);
}

/// Some names, the one at a place once more at a later one.
fn put_uid_twice(inner: &mut Inner, count: usize, first: usize, last: usize, random: &mut Random) {
    let mut uids = names_apart(count, random);
    uids[last] = uids[first].clone();
    inner.retain(|node| node.kind != 0x54);
    inner.extend(uids.iter().map(|uid| role(uid, random)).collect::<Inner>());
}

/// What stands in a 50H, each rule kept or broken.
pub static SUB_ITEMS: &[Twist<Inner>] = &[
    inside("51H alone", |s, _| s.retain(|node| node.kind == 0x51)),
    inside("all kinds, rising", |s, r| *s = all_kinds(r)),
    inside("all kinds, falling", |s, r| {
        *s = all_kinds(r);
        s.reverse();
    }),
    inside("all kinds, any order", |s, r| {
        *s = all_kinds(r);
        r.shuffle(s);
    }),
    inside("all kinds among others", |s, r| {
        *s = all_kinds(r);
        for _ in 0..r.between(2, 5) {
            let node = skipped(r, known_inside(0x50));
            insert_anywhere(s, node, r);
        }
    }),
    inside("all kinds, reserved bytes of any value", |s, r| {
        *s = all_kinds(r);
        s.iter_mut().for_each(|node| node.reserved = r.byte());
    }),
    inside("52H alone", |s, r| only(s, 0x52, r)),
    inside("53H alone", |s, r| only(s, 0x53, r)),
    inside("54H alone", |s, r| only(s, 0x54, r)),
    inside("55H alone", |s, r| only(s, 0x55, r)),
    inside("all but 52H", |s, r| all_but(s, 0x52, r)),
    inside("all but 53H", |s, r| all_but(s, 0x53, r)),
    inside("all but 54H", |s, r| all_but(s, 0x54, r)),
    inside("all but 55H", |s, r| all_but(s, 0x55, r)),
    outside("all but 51H", |s, r| all_but(s, 0x51, r)),
    // 52H.
    inside("52H of 64 bytes", |s, r| put(s, 0x52, &name_of_length(64, r), r)),
    inside("52H of 1 byte", |s, r| put(s, 0x52, b"0", r)),
    outside("52H of 65 bytes", |s, r| put(s, 0x52, &name_of_length(65, r), r)),
    outside("52H empty", |s, r| put(s, 0x52, b"", r)),
    outside("52H with a NUL behind", |s, r| put(s, 0x52, &[&good_name(r)[..], &[0]].concat(), r)),
    outside("52H with a bad name", |s, r| put(s, 0x52, &malformed(0x52, r), r)),
    outside("52H equal, side by side", |s, r| put_equal(s, 0x52, &good_name(r), false, r)),
    outside("52H equal, apart", |s, r| put_equal(s, 0x52, &good_name(r), true, r)),
    outside("52H twice, side by side", |s, r| put_two(s, 0x52, [b"1.2.3", b"1.2.4"], false, r)),
    outside("52H twice, apart", |s, r| put_two(s, 0x52, [b"1.2.3", b"1.2"], true, r)),
    outside("52H good and malformed", |s, r| put_good_and_malformed(s, 0x52, r)),
    // 53H.
    inside("53H of 0 and 0", |s, r| put_counts(s, 0, 0, r)),
    inside("53H of 1 and 1", |s, r| put_counts(s, 1, 1, r)),
    inside("53H of 0 and 1", |s, r| put_counts(s, 0, 1, r)),
    inside("53H of 1 and 0", |s, r| put_counts(s, 1, 0, r)),
    inside("53H of 1 and 2", |s, r| put_counts(s, 1, 2, r)),
    inside("53H of 2 and 1", |s, r| put_counts(s, 2, 1, r)),
    inside("53H of 256 and 1", |s, r| put_counts(s, 256, 1, r)),
    inside("53H of 65,535", |s, r| put_counts(s, 65_535, 65_535, r)),
    outside("53H of length 0", |s, r| put_counts_of(s, 0, r)),
    outside("53H of length 1", |s, r| put_counts_of(s, 1, r)),
    outside("53H of length 2", |s, r| put_counts_of(s, 2, r)),
    outside("53H of length 3", |s, r| put_counts_of(s, 3, r)),
    outside("53H of length 5", |s, r| put_counts_of(s, 5, r)),
    outside("53H of length 6", |s, r| put_counts_of(s, 6, r)),
    outside("53H of length 8", |s, r| put_counts_of(s, 8, r)),
    outside("53H equal, side by side", |s, r| put_equal(s, 0x53, &[0, 2, 0, 3], false, r)),
    outside("53H equal, apart", |s, r| put_equal(s, 0x53, &[0, 1, 0, 1], true, r)),
    outside("53H twice, side by side", |s, r| put_two(s, 0x53, [&[0, 1, 0, 1], &[0, 1, 0, 2]], false, r)),
    outside("53H twice, apart", |s, r| put_two(s, 0x53, [&[0, 2, 0, 3], &[0, 1, 0, 1]], true, r)),
    outside("53H good and malformed", |s, r| put_good_and_malformed(s, 0x53, r)),
    // 54H.
    inside("54H with roles 0 and 0", |s, r| put_role_body(s, &role_body(b"1.2.3", 0, 0), r)),
    inside("54H with roles 0 and 1", |s, r| put_role_body(s, &role_body(b"1.2.3", 0, 1), r)),
    inside("54H with roles 1 and 0", |s, r| put_role_body(s, &role_body(b"1.2.3", 1, 0), r)),
    inside("54H with roles 1 and 1", |s, r| put_role_body(s, &role_body(b"1.2.3", 1, 1), r)),
    inside("54H with a UID of 64 bytes", |s, r| put_role_body(s, &role_body(&name_of_length(64, r), 1, 0), r)),
    inside("54H with a UID of 1 byte", |s, r| put_role_body(s, &role_body(b"0", 0, 1), r)),
    inside("54H: UIDs other in their first byte", |s, r| put_roles(s, &names_alike(0, r), r)),
    inside("54H: UIDs other in their last byte", |s, r| put_roles(s, &names_alike(1, r), r)),
    inside("54H: UIDs other in one byte", |s, r| put_roles(s, &names_alike(2, r), r)),
    inside("54H: UIDs other in length", |s, r| put_roles(s, &names_alike(3, r), r)),
    inside("54H: UIDs other in length, the longer first", |s, r| {
        let [one, other] = names_alike(3, r);
        put_roles(s, &[other, one], r);
    }),
    inside("54H with the name of 52H", |s, r| {
        let name = good_name(r);
        put(s, 0x52, &name, r);
        put_roles(s, &[name], r);
    }),
    inside("54H ten to twenty times", |s, r| {
        let count = r.between(10, 20);
        put_roles(s, &names_apart(count, r), r);
    }),
    outside("54H empty", |s, r| put_role_body(s, b"", r)),
    outside("54H of 1 to 3 bytes", |s, r| put_role_body(s, &[0, 0, 1][..r.between(1, 3)], r)),
    outside("54H with an empty UID", |s, r| put_role_body(s, &[0, 0, 1, 0], r)),
    outside("54H with a UID of 65 bytes", |s, r| put_role_body(s, &role_body(&name_of_length(65, r), 1, 1), r)),
    outside("54H with a bad UID", |s, r| put_role_body(s, &role_body(&bad_name(r), 1, 0), r)),
    outside("54H with a NUL in the UID's length", |s, r| {
        let uid = [&some_role(r).0[..], &[0]].concat();
        put_role_body(s, &role_body(&uid, 1, 1), r);
    }),
    outside("54H with a NUL behind the UID", |s, r| {
        let (uid, scu, scp) = some_role(r);
        let mut body = role_body(&uid, scu, scp);
        body.insert(2 + uid.len(), 0);
        put_role_body(s, &body, r);
    }),
    outside("54H with a byte behind", |s, r| {
        let (uid, scu, scp) = some_role(r);
        put_role_body(s, &[&role_body(&uid, scu, scp)[..], &[r.below(2) as u8]].concat(), r);
    }),
    outside("54H with more bytes behind", |s, r| {
        let (uid, scu, scp) = some_role(r);
        let length = r.between(2, 9);
        put_role_body(s, &[role_body(&uid, scu, scp), r.bytes(length)].concat(), r);
    }),
    outside("54H with one role", |s, r| {
        let (uid, scu, _) = some_role(r);
        let body = role_body(&uid, scu, 0);
        put_role_body(s, &body[..body.len() - 1], r);
    }),
    outside("54H with no role", |s, r| {
        let body = role_body(&some_role(r).0, 0, 0);
        put_role_body(s, &body[..body.len() - 2], r);
    }),
    outside("54H with its roles in the next header", |s, r| {
        let body = role_body(&some_role(r).0, 0, 0);
        s.retain(|node| node.kind != 0x54);
        let mut next = Node::leaf(r.below(2) as u8, b"");
        next.reserved = r.below(2) as u8;
        let place = r.below(s.len() + 1);
        s.insert(place, next);
        s.insert(place, Node::leaf(0x54, &body[..body.len() - 2]));
    }),
    outside("54H with its UID's end in the next header", |s, r| {
        let uid = some_role(r).0;
        let mut body = role_body(&uid, 0, 0);
        body.truncate(2 + uid.len());
        body[1] += 2;
        s.retain(|node| node.kind != 0x54);
        let mut next = Node::leaf(r.pick(b"123"), &[0; 1][..r.below(2)]);
        next.reserved = r.pick(b"123");
        let place = r.below(s.len() + 1);
        s.insert(place, next);
        s.insert(place, Node::leaf(0x54, &body));
    }),
    outside("54H whose UID runs into its roles", |s, r| put_role_counting(s, |length| length + 1, r)),
    outside("54H whose UID takes its roles in", |s, r| put_role_counting(s, |length| length + 2, r)),
    outside("54H whose UID runs past it", |s, r| {
        let more = r.pick(&[3, 4, 10, 60, 127]);
        put_role_counting(s, |length| length + more, r);
    }),
    outside("54H whose UID runs far past it", |s, r| {
        let count = r.pick(&[0x4000, 0x7fff, 0xfffc, 0xfffe, 0xffff]);
        put_role_counting(s, |_| count, r);
    }),
    outside("54H with a UID length right in its low byte", |s, r| {
        let more = r.pick(&[0x100, 0x8000, 0xff00]);
        put_role_counting(s, |length| length + more, r);
    }),
    outside("54H with a UID length, low byte first", |s, r| put_role_counting(s, |length| length.swap_bytes(), r)),
    outside("54H whose UID is cut", |s, r| put_role_counting(s, |length| length.saturating_sub(1), r)),
    outside("54H with SCU role 2", |s, r| put_role_body(s, &role_body(b"1.2.3", 2, r.below(2) as u8), r)),
    outside("54H with SCP role 2", |s, r| put_role_body(s, &role_body(b"1.2.3", r.below(2) as u8, 2), r)),
    outside("54H with another SCU role", |s, r| {
        put_role_body(s, &role_body(b"1.2.3", r.pick(&[3, 0x30, 0x31, 0x80, 0xff]), r.below(2) as u8), r);
    }),
    outside("54H with another SCP role", |s, r| {
        put_role_body(s, &role_body(b"1.2.3", r.below(2) as u8, r.pick(&[3, 0x30, 0x31, 0x80, 0xff])), r);
    }),
    outside("54H equal, side by side", |s, r| put_equal(s, 0x54, &role_body(b"1.2.3", 1, 0), false, r)),
    outside("54H equal, apart", |s, r| put_equal(s, 0x54, &role_body(b"1.2.3", 0, 1), true, r)),
    outside("54H with other roles, side by side", |s, r| {
        put_two(s, 0x54, [&role_body(b"1.2.3", 0, 1), &role_body(b"1.2.3", 1, 0)], false, r);
    }),
    outside("54H with other roles, apart", |s, r| {
        put_two(s, 0x54, [&role_body(b"1.2", 1, 0), &role_body(b"1.2", 1, 1)], true, r);
    }),
    outside("54H with a UID of 64 bytes twice", |s, r| {
        let body = role_body(&name_of_length(64, r), 1, 0);
        let apart = r.chance(50);
        put_equal(s, 0x54, &body, apart, r);
    }),
    outside("54H: the first UID again last", |s, r| {
        let count = r.between(3, 9);
        put_uid_twice(s, count, 0, count - 1, r);
    }),
    outside("54H: the first UID again at once", |s, r| {
        let count = r.between(3, 9);
        put_uid_twice(s, count, 0, 1, r);
    }),
    outside("54H: the last UID twice", |s, r| {
        let count = r.between(3, 9);
        put_uid_twice(s, count, count - 2, count - 1, r);
    }),
    outside("54H: a UID twice, one between", |s, r| {
        let count = r.between(5, 9);
        put_uid_twice(s, count, 1, 3, r);
    }),
    outside("54H good and malformed", |s, r| put_good_and_malformed(s, 0x54, r)),
    // 55H.
    inside("55H of 1 character", |s, r| put(s, 0x55, &[r.pick(b"!A[]~")], r)),
    inside("55H of 16 characters", |s, r| put(s, 0x55, &version_name_of(16, r), r)),
    inside("55H of one space", |s, r| put(s, 0x55, b" ", r)),
    inside("55H of 16 spaces", |s, r| put(s, 0x55, &[0x20; 16], r)),
    inside("55H with spaces at both ends", |s, r| put(s, 0x55, b"  OLD ONE  ", r)),
    inside("55H with 20H to 7EH", |s, r| {
        let first = r.pick(&[0x20, 0x2c, 0x3c, 0x4c, 0x5d, 0x6f]);
        put(s, 0x55, &(first..first + 16).collect::<Vec<u8>>(), r);
    }),
    outside("55H empty", |s, r| put(s, 0x55, b"", r)),
    outside("55H of 17 characters", |s, r| put(s, 0x55, &version_name_of(17, r), r)),
    outside("55H of 17 spaces", |s, r| put(s, 0x55, &[0x20; 17], r)),
    outside("55H of more characters", |s, r| put(s, 0x55, &long_version_name(r), r)),
    outside("55H with 5CH", |s, r| put(s, 0x55, &version_name_with(0x5c, r), r)),
    outside("55H with 5CH alone", |s, r| put(s, 0x55, b"\\", r)),
    outside("55H with 7FH", |s, r| put(s, 0x55, &version_name_with(0x7f, r), r)),
    outside("55H with 1FH", |s, r| put(s, 0x55, &version_name_with(0x1f, r), r)),
    outside("55H with a NUL behind", |s, r| {
        let length = r.pick(&[1, 8, 15]);
        put(s, 0x55, &[&version_name_of(length, r)[..], &[0]].concat(), r);
    }),
    outside("55H with bytes above 7FH", |s, r| {
        let byte = r.pick(&[0x80, 0xa0, 0xc1, 0xff]);
        put(s, 0x55, &version_name_with(byte, r), r);
    }),
    outside("55H with a bad first byte", |s, r| {
        put(s, 0x55, &[&[r.pick(&[0x1f, 0x5c, 0x7f])][..], b"ONE"].concat(), r)
    }),
    outside("55H with a bad last byte", |s, r| {
        put(s, 0x55, &[&b"ONE"[..], &[r.pick(&[0x1f, 0x5c, 0x7f])]].concat(), r)
    }),
    outside("55H equal, side by side", |s, r| put_equal(s, 0x55, b"FEOHANNA", false, r)),
    outside("55H equal, apart", |s, r| put_equal(s, 0x55, b"FEOHANNA", true, r)),
    outside("55H twice, side by side", |s, r| put_two(s, 0x55, [b"FEOHANNA", b"FEOHANN"], false, r)),
    outside("55H twice, apart", |s, r| put_two(s, 0x55, [b"ONE", b" "], true, r)),
    outside("55H good and malformed", |s, r| put_good_and_malformed(s, 0x55, r)),
    // Other types, and lengths.
    inside("56H to 59H with rubbish", |s, r| {
        for kind in 0x56..=0x59 {
            let length = r.below(12);
            let body = r.bytes(length);
            insert_anywhere(s, Node::leaf(kind, &body), r);
        }
    }),
    inside("56H to 59H of length 0, twice each", |s, r| {
        for kind in 0x56..=0x59 {
            put_equal(s, kind, b"", true, r);
        }
    }),
    inside("a malformed body under another type", |s, r| {
        for kind in KINDS {
            let other = r.pick(&[0x4f, 0x56, 0x57, 0x58, 0x59, 0x5a, 0x00, 0x12, 0x32, 0x62, 0xd2, 0xd4, 0xff]);
            let body = malformed(kind, r);
            insert_anywhere(s, Node::leaf(other, &body), r);
        }
    }),
    inside("malformed bodies under D2H to D5H", |s, r| {
        for kind in KINDS {
            let body = malformed(kind, r);
            insert_anywhere(s, Node::leaf(kind | 0x80, &body), r);
        }
    }),
    inside("good bodies under another type", |s, r| {
        s.retain(|node| node.kind == 0x51);
        for kind in KINDS {
            let body = good_of(kind, r).head;
            insert_anywhere(s, Node::leaf(kind + 4, &body), r);
        }
    }),
    inside("sub-items inside another type", |s, r| {
        s.retain(|node| node.kind == 0x51);
        let inner =
            KINDS.map(|kind| if r.chance(50) { good_of(kind, r) } else { Node::leaf(kind, &malformed(kind, r)) });
        let holder = r.pick(&[0x50, 0x56, 0x58, 0x20, 0x40]);
        insert_anywhere(s, Node::holder(holder, &[], inner.to_vec()), r);
    }),
    inside("top items inside 50H", |s, r| {
        for kind in [0x10, 0x20, 0x21, 0x30, 0x40, 0x50] {
            let length = r.below(6);
            let body = r.bytes(length);
            insert_anywhere(s, Node::leaf(kind, &body), r);
        }
    }),
    outside("a last sub-item that passes the 50H", |s, r| {
        let kind = r.pick(&KINDS);
        s.retain(|node| node.kind != kind);
        let mut node = good_of(kind, r);
        node.slip = r.pick(&[1, 1, 2, 4, 256]);
        s.push(node);
    }),
    outside("51H twice among all kinds", |s, r| {
        *s = all_kinds(r);
        let again = s[0].clone();
        insert_anywhere(s, again, r);
    }),
];

/// Puts sub-items inside one of the contexts that are tested.
fn put_in_context(plan: &mut Plan, nodes: Vec<Node>, random: &mut Random) {
    plan.with_tested(random, |context, random| {
        for node in nodes {
            insert_anywhere(&mut context.inner, node, random);
        }
    });
}

/// Takes a kind out of the 50H and puts a good one at the top.
fn move_to_top(plan: &mut Plan, kind: u8, random: &mut Random) {
    plan.with_item(0x50, |user| user.inner.retain(|node| node.kind != kind));
    insert_anywhere(&mut plan.items, good_of(kind, random), random);
}

/// Puts a malformed one at the top.
fn malformed_at_top(plan: &mut Plan, kind: u8, random: &mut Random) {
    let node = Node::leaf(kind, &malformed(kind, random));
    insert_anywhere(&mut plan.items, node, random);
}

/// The four types where they are skipped.
pub static ELSEWHERE: &[Twist<Plan>] = &[
    inside("52H at the top, none in 50H", |p, r| move_to_top(p, 0x52, r)),
    inside("53H at the top, none in 50H", |p, r| move_to_top(p, 0x53, r)),
    inside("54H at the top, none in 50H", |p, r| move_to_top(p, 0x54, r)),
    inside("55H at the top, none in 50H", |p, r| move_to_top(p, 0x55, r)),
    inside("52H malformed at the top", |p, r| malformed_at_top(p, 0x52, r)),
    inside("53H malformed at the top", |p, r| malformed_at_top(p, 0x53, r)),
    inside("54H malformed at the top", |p, r| malformed_at_top(p, 0x54, r)),
    inside("55H malformed at the top", |p, r| malformed_at_top(p, 0x55, r)),
    inside("the sub-items of 50H again at the top", |p, r| {
        let mut again = all_kinds(r);
        p.with_item(0x50, |user| user.inner = again.clone());
        r.shuffle(&mut again);
        again.into_iter().for_each(|node| insert_anywhere(&mut p.items, node, r));
    }),
    inside("the four types twice at the top", |p, r| {
        for kind in KINDS.into_iter().flat_map(|kind| [kind, kind]) {
            insert_anywhere(&mut p.items, good_of(kind, r), r);
        }
    }),
    inside("the four types in a context", |p, r| {
        let nodes = KINDS.map(|kind| good_of(kind, r)).to_vec();
        p.with_item(0x50, |user| user.inner.retain(|node| node.kind == 0x51));
        put_in_context(p, nodes, r);
    }),
    inside("the four types malformed in a context", |p, r| {
        let nodes = KINDS.map(|kind| Node::leaf(kind, &malformed(kind, r))).to_vec();
        put_in_context(p, nodes, r);
    }),
];

/// One more change of the user information: how it is called, and what it does to a plan.
pub fn change_user(plan: &mut Plan, number: usize, random: &mut Random) -> &'static str {
    match SUB_ITEMS.get(number) {
        Some(twist) => {
            plan.with_item(0x50, |user| (twist.edit)(&mut user.inner, random));
            twist.name
        }
        None => {
            let twist = &ELSEWHERE[(number - SUB_ITEMS.len()) % ELSEWHERE.len()];
            (twist.edit)(plan, random);
            twist.name
        }
    }
}
