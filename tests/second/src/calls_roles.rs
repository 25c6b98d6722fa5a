//! Calls with many roles for the generator: hundreds of them read and sent, the limit of 16,384 reached by roles alone.

use crate::contents::{AcContents, RqContents};
use crate::fields::sheet_record;
use crate::generate::{ac_words, hex, pairs, rq_words, Generator};
use crate::given::{role_of, some_role};
use crate::make::{good_plan, name_of_length, Node};
use crate::pdus::set_length;
use crate::random::Random;
use crate::subitems::{good_version_name, role, role_body};
use crate::user::{Given, ROLE};
use crate::write;

/// The most records that a role sheet has, lent or given.
const MOST: usize = 66_000 / ROLE;

/// What is done with many roles, each twice.
pub fn role_turns() -> Vec<(u8, u8)> {
    pairs(&[0, 1, 2, 3, 4, 5, 6, 7, 8, 9, 10, 11, 12], &[0, 1])
}

/// So many names, no two equal, none longer than it must be; in any order.
pub fn short_names(count: usize, random: &mut Random) -> Vec<Vec<u8>> {
    let numbers = (0..1_000).map(|number: usize| number.to_string());
    let dotted = (0..100).map(|number| format!("{}.{}", number / 10, number % 10));
    let longer = (1_000..10_000).map(|number: usize| number.to_string());
    let mut names: Vec<Vec<u8>> = numbers.chain(dotted).chain(longer).take(count).map(String::into_bytes).collect();
    random.shuffle(&mut names);
    names
}

/// UIDs whose 54Hs take so many bytes, 64 of them each but the last two.
fn uids_of_bytes(bytes: usize, random: &mut Random) -> Vec<Vec<u8>> {
    let whole = (bytes - 73) / 72;
    let left = bytes - 72 * whole;
    let mut lengths = vec![64; whole];
    lengths.extend([left / 2 - 8, left - left / 2 - 8]);
    lengths.iter().map(|length| name_of_length(*length, random)).collect()
}

impl Generator {
    pub fn many_roles(&mut self) {
        let (variant, over) = self.role_counts.take();
        let over = over as usize;
        match variant {
            0 => self.full_of_roles("1", over, false),
            1 => self.full_of_roles("c", over, false),
            2 => self.full_of_roles("2", over, false),
            3 => self.full_of_roles("a", over, false),
            4 => {
                let call = self.random.pick(if over == 0 { &["1", "c"] } else { &["2", "a"] });
                self.full_of_roles(call, 1, true);
            }
            5 | 6 => self.read_hundreds(variant - 4, over),
            7 => self.limit_by_roles(over),
            8 => self.read_most(over),
            9 => self.repeated_among_hundreds(over == 1),
            10 => self.as_many_as_fit(over == 1),
            11 => self.send_most(over),
            _ if over == 0 => self.longest_line(),
            _ => self.other_pdu(),
        }
    }

    /// Contents of PDU-length 16,384, and one more, most of it roles; a bad last record makes them 4.
    fn full_of_roles(&mut self, call: &str, over: usize, bad: bool) {
        self.mark(&format!("roles: {} to the limit{}", call, if bad { ", the last one bad" } else { "" }));
        let mut user = Given::class_alone(b"1.2.840.99999");
        user.version_name = good_version_name(&mut self.random);
        user.invoked = self.random.pick(&[1, 1, 0]);
        let kind = if call == "1" || call == "c" { 1 } else { 2 };
        let bare = self.contents_with(kind, &user).1.map_or(0, |bytes| bytes.len() - 6);
        let uids = uids_of_bytes(16_384 + over - bare, &mut self.random);
        user.roles = uids.iter().flat_map(|uid| some_role(uid, &mut self.random)).collect();
        if bad {
            let last = user.roles.len() - 1;
            user.roles[last] = 1;
        }
        let by_machine = call == "c" || call == "a";
        let room = if by_machine { 16_390 } else { self.random.pick(&[16_390, 16_390, 16_389, 17_000]) };
        self.send_user(call, kind, &user, room);
    }

    /// The words of an RQ's or AC's contents with user information and little else, and what they would send.
    fn contents_with(&mut self, kind: u8, user: &Given) -> (String, Result<Vec<u8>, u8>) {
        let (application, user) = (b"1.2.840.10008.3.1.1.1".to_vec(), user.clone());
        if kind == 1 {
            let (called, calling) = (b"STORE-EQUINE    ".to_vec(), b"STORE-EXOTIC    ".to_vec());
            let contents =
                RqContents { called, calling, application, user, sheet: sheet_record(1, 0, b"1.2.840", b"1.2") };
            (rq_words(&contents), contents.written())
        } else {
            let contents =
                AcContents { echoed: vec![7; 64], application, user, sheet: sheet_record(255, 0, b"", b"1.2") };
            (ac_words(&contents), contents.written())
        }
    }

    fn send_user(&mut self, call: &str, kind: u8, user: &Given, room: usize) {
        let words = self.contents_with(kind, user).0;
        if call == "1" || call == "2" {
            self.say(format!("{} {} {}", call, words, room));
        } else {
            let mut nine = self.good_nine(if kind == 1 { 4 } else { 3 });
            nine.output_length = room;
            self.say(format!("{} {} {}", call, nine.text(), words));
        }
    }

    /// An RQ or AC with these sub-items 54H behind a 51H and, more often than not, a 52H.
    fn with_roles(&mut self, kind: u8, roles: Vec<Node>) -> Vec<u8> {
        let mut plan = good_plan(kind, &mut self.random);
        let first = if self.random.chance(60) { vec![Node::leaf(0x52, b"1.2.840.99999")] } else { Vec::new() };
        plan.with_item(0x50, |user| {
            user.inner.retain(|node| node.kind == 0x51);
            user.inner.extend(first);
            user.inner.extend(roles);
        });
        plan.bytes()
    }

    fn roles_of(&mut self, uids: &[Vec<u8>]) -> Vec<Node> {
        uids.iter().map(|uid| role(uid, &mut self.random)).collect()
    }

    /// More than 256 roles, with room for them, or a byte or a record short of it.
    fn read_hundreds(&mut self, kind: u8, short: usize) {
        self.mark("roles: hundreds read");
        let count = self.random.between(257, 420);
        let uids = short_names(count, &mut self.random);
        let roles = self.roles_of(&uids);
        let bytes = self.with_roles(kind, roles);
        let (room, needed) = self.needed_rooms(&bytes);
        let lent = if short == 0 { needed } else { needed - self.random.pick(&[1, ROLE]) };
        self.say(format!("{} {} {} {}", if kind == 1 { "Q" } else { "A" }, hex(&bytes), room, lent));
    }

    /// A PDU-length of 16,384, and one more, most of it roles.
    fn limit_by_roles(&mut self, over: usize) {
        self.mark("roles: K at the limit");
        let kind = self.random.pick(&[1, 2]);
        let bare = self.with_roles(kind, Vec::new());
        let uids = uids_of_bytes(16_390 + over - bare.len(), &mut self.random);
        let more: Vec<u8> = self.roles_of(&uids).iter().flat_map(Node::bytes).collect();
        let bytes = with_more_user_information(&bare, &more);
        self.say(format!("K {}", hex(&bytes)));
    }

    /// As many roles as a lent sheet takes, or one more.
    fn read_most(&mut self, over: usize) {
        self.mark("roles: as many as a sheet takes");
        let uids = short_names(MOST + over, &mut self.random);
        let roles = self.roles_of(&uids);
        let kind = self.random.pick(&[1, 2]);
        let bytes = self.with_roles(kind, roles);
        let (room, needed) = self.needed_rooms(&bytes);
        let lent = self.random.pick(&[needed, 66_000, needed - 1]).min(66_000);
        self.say(format!("{} {} {} {}", if kind == 1 { "Q" } else { "A" }, hex(&bytes), room, lent));
    }

    /// One UID twice among hundreds: the first again last, the last two, or any.
    fn repeated_among_hundreds(&mut self, other_roles: bool) {
        self.mark("roles: one twice among hundreds");
        let count = self.random.between(200, 700);
        let uids = short_names(count, &mut self.random);
        let mut roles = self.roles_of(&uids);
        let (one, other) = (self.random.below(count), self.random.below(count));
        let (first, last) = self.random.pick(&[(0, count), (count - 1, count), (one, other.max(one + 1))]);
        let (scu, scp) = if other_roles { (1, 0) } else { (0, 1) };
        roles[first] = Node::leaf(0x54, &role_body(&uids[first], 0, 1));
        roles.insert(last, Node::leaf(0x54, &role_body(&uids[first], scu, scp)));
        let kind = self.random.pick(&[1, 2]);
        let bytes = self.with_roles(kind, roles);
        let call = self.random.pick(&["K", if kind == 1 { "Q" } else { "A" }]);
        let rooms = if call == "K" { "" } else { " 1320 66000" };
        self.say(format!("{} {}{}", call, hex(&bytes), rooms));
    }

    /// An RQ of as many roles as a PDU takes; perhaps the last UID is the first one again.
    fn as_many_as_fit(&mut self, repeated: bool) {
        self.mark("roles: as many as fit");
        let bare = self.with_roles(1, Vec::new());
        let mut roles = Vec::new();
        let mut left = 16_390 - bare.len();
        for uid in short_names(1_450, &mut self.random) {
            if left >= 8 + uid.len() {
                left -= 8 + uid.len();
                roles.push(role(&uid, &mut self.random));
            }
        }
        if repeated {
            let last = roles.len() - 1;
            roles[last] = roles[0].clone();
        }
        let more: Vec<u8> = roles.iter().flat_map(Node::bytes).collect();
        let bytes = with_more_user_information(&bare, &more);
        if self.random.chance(50) {
            self.received_in(2, false, &bytes);
        } else {
            self.say(format!("K {}", hex(&bytes)));
        }
    }

    /// A role sheet of as many records as may be given, and one with bytes behind it.
    fn send_most(&mut self, over: usize) {
        self.mark("roles: as many as may be given");
        let mut user = Given::class_alone(b"1.2.840.99999");
        user.roles = short_names(MOST, &mut self.random).iter().flat_map(|uid| role_of(uid, 1, 0)).collect();
        user.roles.extend(vec![0; over * (66_000 - MOST * ROLE)]);
        let call = self.random.pick(&["1", "c", "2", "a"]);
        let kind = if call == "1" || call == "c" { 1 } else { 2 };
        self.send_user(call, kind, &user, 16_390);
    }

    /// A line of more than 270,000 bytes, which sends both sheets at their longest.
    fn longest_line(&mut self) {
        self.mark("form: line above 270,000 bytes");
        let mut user = Given::class_alone(b"1.2");
        user.roles = short_names(MOST, &mut self.random).iter().flat_map(|uid| role_of(uid, 0, 1)).collect();
        let contents = RqContents {
            called: b"STORE-EQUINE    ".to_vec(),
            calling: b"STORE-EXOTIC    ".to_vec(),
            application: b"1.2".to_vec(),
            user,
            sheet: sheet_record(1, 0, b"1", b"2").repeat(500),
        };
        let mut nine = self.good_nine(4);
        nine.gather_length = 16_390;
        nine.gather = self.random.bytes(3_500);
        nine.output_length = 16_390;
        self.say(format!("c {} {}", nine.text(), rq_words(&contents)));
    }

    /// No sheets for a PDU of another kind; seldom behind it a line that is too long.
    fn other_pdu(&mut self) {
        let call = self.random.pick(&["Q", "A"]);
        self.mark("roles: no RQ or AC");
        self.say(format!("{} {} 0 0", call, hex(&write::release_rq())));
        if self.random.chance(3) {
            self.mark("form: line above 480,000 bytes");
            self.say(format!("E 41 {}", hex(&[0x41; 241_000])));
            self.follow_up();
        }
    }
}

/// A PDU whose last item is its 50H, with more sub-items in it.
fn with_more_user_information(bytes: &[u8], more: &[u8]) -> Vec<u8> {
    let mut place = 74;
    while bytes[place] != 0x50 {
        place += 4 + u16::from_be_bytes([bytes[place + 2], bytes[place + 3]]) as usize;
    }
    let mut longer = [bytes, more].concat();
    let inside = (longer.len() - place - 4) as u16;
    longer[place + 2..place + 4].copy_from_slice(&inside.to_be_bytes());
    set_length(&mut longer);
    longer
}
