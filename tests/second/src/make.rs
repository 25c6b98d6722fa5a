//! Plans of PDUs for the generator: names, titles, and good PDUs in parts that can be changed.

use crate::random::Random;
use crate::refused::{accepted_context, refused_context};
use crate::subitems::good_sub_items;

/// An item; its length field is the body's length plus a slip.
#[derive(Clone, Debug)]
pub struct Node {
    pub kind: u8,
    pub reserved: u8,
    pub head: Vec<u8>,
    pub inner: Vec<Node>,
    pub tail: Vec<u8>,
    pub slip: i64,
}

impl Node {
    pub fn leaf(kind: u8, body: &[u8]) -> Node {
        Node { kind, reserved: 0, head: body.to_vec(), inner: Vec::new(), tail: Vec::new(), slip: 0 }
    }

    pub fn holder(kind: u8, head: &[u8], inner: Vec<Node>) -> Node {
        Node { kind, reserved: 0, head: head.to_vec(), inner, tail: Vec::new(), slip: 0 }
    }

    pub fn bytes(&self) -> Vec<u8> {
        let mut body = self.head.clone();
        body.extend(self.inner.iter().flat_map(|node| node.bytes()));
        body.extend_from_slice(&self.tail);
        let length = (body.len() as i64 + self.slip) as u16;
        let mut bytes = vec![self.kind, self.reserved];
        bytes.extend_from_slice(&length.to_be_bytes());
        bytes.extend(body);
        bytes
    }

    /// All nodes of the tree, each by a call.
    fn each(&mut self, edit: &mut dyn FnMut(&mut Node)) {
        edit(self);
        for node in self.inner.iter_mut() {
            node.each(edit);
        }
    }
}

/// An RQ or AC in parts; its PDU-length is the body's length plus a slip.
#[derive(Clone, Debug)]
pub struct Plan {
    pub kind: u8,
    pub reserved: u8,
    pub fixed: Vec<u8>,
    pub items: Vec<Node>,
    pub tail: Vec<u8>,
    pub slip: i64,
}

impl Plan {
    pub fn body(&self) -> Vec<u8> {
        let mut body = self.fixed.clone();
        body.extend(self.items.iter().flat_map(|node| node.bytes()));
        body.extend_from_slice(&self.tail);
        body
    }

    pub fn bytes(&self) -> Vec<u8> {
        framed_with_slip(self.kind, self.reserved, &self.body(), self.slip)
    }

    pub fn context_kind(&self) -> u8 {
        if self.kind == 1 {
            0x20
        } else {
            0x21
        }
    }

    pub fn known(&self) -> [u8; 3] {
        [0x10, self.context_kind(), 0x50]
    }

    fn places(&self, kind: u8) -> Vec<usize> {
        (0..self.items.len()).filter(|i| self.items[*i].kind == kind).collect()
    }

    pub fn contexts(&self) -> Vec<usize> {
        self.places(self.context_kind())
    }

    /// Edits one of the contexts, if there is one.
    pub fn with_context(&mut self, random: &mut Random, edit: impl FnOnce(&mut Node, &mut Random)) {
        let places = self.contexts();
        if !places.is_empty() {
            let place = random.pick(&places);
            edit(&mut self.items[place], random);
        }
    }

    /// Edits the first item of a kind, if there is one.
    pub fn with_item(&mut self, kind: u8, edit: impl FnOnce(&mut Node)) {
        if let Some(place) = self.places(kind).first() {
            edit(&mut self.items[*place]);
        }
    }

    /// Takes out and hands back the first item of a kind, or a stand-in.
    pub fn take_item(&mut self, kind: u8) -> Node {
        match self.places(kind).first() {
            Some(place) => self.items.remove(*place),
            None => Node::leaf(kind, b"1.2"),
        }
    }

    pub fn remove(&mut self, kind: u8) {
        self.items.retain(|node| node.kind != kind);
    }

    pub fn set_application(&mut self, name: &[u8]) {
        self.with_item(0x10, |node| node.head = name.to_vec());
    }

    /// Sets a name that is tested.
    pub fn set_sub_name(&mut self, random: &mut Random, kind: u8, name: &[u8]) {
        self.with_tested(random, |context, random| {
            let places: Vec<usize> = (0..context.inner.len()).filter(|i| context.inner[*i].kind == kind).collect();
            if !places.is_empty() {
                let place = random.pick(&places);
                context.inner[place].head = name.to_vec();
            }
        });
    }

    pub fn set_maximum(&mut self, maximum: u32) {
        self.with_item(0x50, |user| {
            for node in user.inner.iter_mut().filter(|node| node.kind == 0x51) {
                node.head = maximum.to_be_bytes().to_vec();
            }
        });
    }

    pub fn set_version(&mut self, version: u16) {
        if self.fixed.len() >= 2 {
            self.fixed[..2].copy_from_slice(&version.to_be_bytes());
        }
    }

    /// Sets the called title, or the calling one.
    pub fn set_title(&mut self, random: &mut Random, title: &[u8]) {
        if self.fixed.len() == 68 {
            let at = random.pick(&[4usize, 20]);
            self.fixed[at..at + 16].copy_from_slice(title);
        }
    }

    /// One more context, its ID not used before.
    pub fn add_context(&mut self, random: &mut Random) {
        let kind = self.context_kind();
        let used: Vec<u8> = self.contexts().iter().filter_map(|i| self.items[*i].head.first().copied()).collect();
        let free: Vec<u8> = (0..128).map(|i| 2 * i + 1).filter(|id| !used.contains(id)).collect();
        if free.is_empty() {
            return;
        }
        let id = random.pick(&free);
        let behind = self.contexts().last().map_or(self.items.len(), |last| last + 1);
        self.items.insert(behind, good_context(kind, id, random));
    }

    pub fn repeat_id(&mut self, random: &mut Random, apart: bool) {
        let kind = self.context_kind();
        let places = self.contexts();
        if let Some(first) = places.first().copied() {
            let id = self.items[first].head.first().copied().unwrap_or(1);
            let other = good_context(kind, id, random);
            self.items.insert(first + 1, other);
            if apart {
                let between = good_context(kind, id ^ 0x40, random);
                self.items.insert(first + 1, between);
            }
        }
    }

    fn every_node(&mut self, edit: &mut dyn FnMut(&mut Node)) {
        for node in self.items.iter_mut() {
            node.each(edit);
        }
    }

    /// Sets the slip of one item, at any depth.
    pub fn slip_one(&mut self, random: &mut Random, slip: i64) {
        let mut count = 0;
        self.every_node(&mut |_| count += 1);
        let chosen = random.below(count);
        let mut number = 0;
        self.every_node(&mut |node| {
            if number == chosen {
                node.slip = slip;
            }
            number += 1;
        });
    }

    /// Any value in the reserved bytes.
    pub fn fill_reserved(&mut self, random: &mut Random) {
        self.reserved = random.byte();
        if self.fixed.len() == 68 {
            self.fixed[2..4].copy_from_slice(&random.bytes(2));
            self.fixed[36..].copy_from_slice(&random.bytes(32));
        }
        self.every_node(&mut |node| {
            node.reserved = random.byte();
            if (node.kind == 0x20 || node.kind == 0x21) && node.head.len() == 4 {
                let places: &[usize] = if node.kind == 0x20 { &[1, 2, 3] } else { &[1, 3] };
                for place in places {
                    node.head[*place] = random.byte();
                }
            }
        });
    }
}

pub fn framed_with_slip(kind: u8, reserved: u8, body: &[u8], slip: i64) -> Vec<u8> {
    let length = (body.len() as i64 + slip) as u32;
    let mut bytes = vec![kind, reserved];
    bytes.extend_from_slice(&length.to_be_bytes());
    bytes.extend_from_slice(body);
    bytes
}

pub fn insert_anywhere(list: &mut Vec<Node>, node: Node, random: &mut Random) {
    let place = random.below(list.len() + 1);
    list.insert(place, node);
}

/// Edits the first item of a kind in a list, if there is one.
pub fn first_of(list: &mut [Node], kind: u8, edit: impl FnOnce(&mut Node)) {
    if let Some(node) = list.iter_mut().find(|node| node.kind == kind) {
        edit(node);
    }
}

/// Types that stand in for "every other type".
const SKIPPED: [u8; 29] = [
    0x00, 0x01, 0x0f, 0x10, 0x11, 0x1f, 0x20, 0x21, 0x22, 0x2f, 0x30, 0x31, 0x3f, 0x40, 0x41, 0x4f, 0x50, 0x51, 0x52,
    0x53, 0x54, 0x55, 0x56, 0x58, 0x5f, 0x60, 0x7f, 0x80, 0xff,
];

/// An item of a type that isn't known where it stands.
pub fn skipped(random: &mut Random, known: &[u8]) -> Node {
    let kinds: Vec<u8> = SKIPPED.iter().copied().filter(|kind| !known.contains(kind)).collect();
    let length = random.pick(&[0, 0, 1, 2, 3, 4, 5, 8]);
    let body = random.bytes(length);
    let mut node = Node::leaf(random.pick(&kinds), &body);
    node.reserved = random.byte();
    node
}

pub fn known_inside(kind: u8) -> &'static [u8] {
    match kind {
        0x20 => &[0x30, 0x40],
        0x21 => &[0x40],
        _ => &[0x51, 0x52, 0x53, 0x54, 0x55],
    }
}

/// A name of a wanted length, valid up to 64.
pub fn name_of_length(length: usize, random: &mut Random) -> Vec<u8> {
    let dot = random.between(2, 9);
    (0..length)
        .map(|i| if i % dot == dot - 1 && i + 1 < length { b'.' } else { b'1' + random.below(9) as u8 })
        .collect()
}

/// Names of the standards and others that keep the rules.
pub fn good_name(random: &mut Random) -> Vec<u8> {
    let listed: [&[u8]; 12] = [
        b"1.2.840.10008.3.1.1.1",
        b"1.2.840.10008.1.1",
        b"1.2.840.10008.1.2",
        b"1.2.840.10008.1.2.1",
        b"1.2.840.10008.1.2.4.50",
        b"1.2.840.10008.5.1.4.1.1.2",
        b"0",
        b"1.0",
        b"0.0.0",
        b"10.20",
        b"9",
        b"1.2",
    ];
    match random.below(10) {
        0 => {
            let length = random.between(1, 20);
            name_of_length(length, random)
        }
        1 if random.chance(50) => {
            let length = random.between(62, 64);
            name_of_length(length, random)
        }
        _ => random.pick(&listed).to_vec(),
    }
}

/// Names that break one rule.
pub fn bad_name(random: &mut Random) -> Vec<u8> {
    let listed: [&[u8]; 23] = [
        b"",
        b"1.02",
        b"1.2.",
        b".1",
        b"1..2",
        b"00",
        b"01",
        b"1.00",
        b".",
        b"..",
        b"1.2 ",
        b" 1.2",
        b"1.2\0",
        b"\0",
        b"1.2a",
        b"1/2",
        b"1:2",
        b"1-2",
        b"1,2",
        b"\xff",
        b"0.01",
        b"1.2\\1.3",
        b"A",
    ];
    match random.below(8) {
        0 => {
            let length = random.pick(&[65usize, 66, 100]);
            name_of_length(length, random)
        }
        1 => {
            let mut name = name_of_length(64, random);
            name[63] = b'.';
            name
        }
        2 => {
            let mut name = good_name(random);
            let place = random.below(name.len());
            name[place] = random.pick(&[0x2f, 0x3a, 0x2d, 0x20, 0x00, 0xae, 0xb1]);
            name
        }
        _ => random.pick(&listed).to_vec(),
    }
}

/// Any title that an RQ may hold.
pub fn good_title(random: &mut Random) -> Vec<u8> {
    let listed: [&[u8; 16]; 8] = [
        b"STORE-EQUINE    ",
        b" STORE-EQUINE   ",
        b"STORE-EXOTIC    ",
        b"A               ",
        b"               A",
        b"ABCDEFGHIJKLMNOP",
        b"Store Equine   ~",
        b"  AN  OTHER ONE ",
    ];
    if random.chance(15) {
        let mut title: Vec<u8> = (0..16).map(|_| random.pick(&[0x20, 0x21, 0x30, 0x5b, 0x5d, 0x61, 0x7e])).collect();
        title[random.below(16)] = 0x7e;
        return title;
    }
    random.pick(&listed).to_vec()
}

/// A title of 16 bytes that no RQ may hold.
pub fn bad_title(random: &mut Random) -> Vec<u8> {
    match random.below(5) {
        0 => vec![0x20; 16],
        1 => b"STORE-EQUINE\0\0\0\0".to_vec(),
        2 => vec![0; 16],
        _ => {
            let mut title = b"ABCDEFGHIJKLMNOP".to_vec();
            title[random.below(16)] = random.pick(&[0x1f, 0x7f, 0x5c, 0x00, 0x80, 0xff, 0x0a]);
            title
        }
    }
}

/// A maximum length, often near a limit.
pub fn some_maximum(random: &mut Random) -> u32 {
    random.pick(&[
        0,
        1,
        5,
        6,
        7,
        8,
        12,
        13,
        20,
        100,
        4_096,
        16_383,
        16_384,
        16_385,
        32_768,
        65_536,
        0x8000_0000,
        0xffff_ffff,
    ])
}

pub fn good_context(kind: u8, id: u8, random: &mut Random) -> Node {
    if kind == 0x20 {
        let mut inner = vec![Node::leaf(0x30, &good_name(random))];
        for _ in 0..random.pick(&[1, 1, 1, 2, 3]) {
            inner.push(Node::leaf(0x40, &good_name(random)));
        }
        Node::holder(0x20, &[id, 0, 0, 0], inner)
    } else if random.chance(45) {
        accepted_context(id, random)
    } else {
        refused_context(id, random)
    }
}

/// A valid RQ or AC with no skipped types.
pub fn good_plan(kind: u8, random: &mut Random) -> Plan {
    let mut fixed = vec![0, 1, 0, 0];
    fixed.extend(good_title(random));
    fixed.extend(good_title(random));
    fixed.extend(vec![0; 32]);
    let application = good_name(random);
    let user = Node::holder(0x50, &[], good_sub_items(random));
    let items = vec![Node::leaf(0x10, &application), user];
    let mut plan = Plan { kind, reserved: 0, fixed, items, tail: Vec::new(), slip: 0 };
    let context_kind = plan.context_kind();
    let first = good_context(context_kind, 2 * random.below(128) as u8 + 1, random);
    plan.items.insert(1, first);
    for _ in 0..random.pick(&[0, 0, 0, 1, 2]) {
        plan.add_context(random);
    }
    plan
}

/// A PDV item; its length field is the value's length, or the one set.
#[derive(Clone, Debug)]
pub struct PdvPlan {
    pub length: Option<u32>,
    pub id: u8,
    pub control: u8,
    pub fragment: Vec<u8>,
}

impl PdvPlan {
    pub fn true_length(&self) -> u32 {
        self.fragment.len() as u32 + 2
    }

    fn bytes(&self) -> Vec<u8> {
        let mut bytes = self.length.unwrap_or(self.true_length()).to_be_bytes().to_vec();
        bytes.push(self.id);
        bytes.push(self.control);
        bytes.extend_from_slice(&self.fragment);
        bytes
    }
}

/// A P-DATA-TF in parts.
#[derive(Clone, Debug)]
pub struct DataPlan {
    pub reserved: u8,
    pub pdvs: Vec<PdvPlan>,
    pub tail: Vec<u8>,
    pub slip: i64,
}

impl DataPlan {
    /// The PDV items in wire form.
    pub fn items(&self) -> Vec<u8> {
        let mut items: Vec<u8> = self.pdvs.iter().flat_map(|pdv| pdv.bytes()).collect();
        items.extend_from_slice(&self.tail);
        items
    }

    pub fn bytes(&self) -> Vec<u8> {
        framed_with_slip(4, self.reserved, &self.items(), self.slip)
    }

    pub fn last(&mut self) -> &mut PdvPlan {
        if self.pdvs.is_empty() {
            self.pdvs.push(PdvPlan { length: None, id: 1, control: 3, fragment: Vec::new() });
        }
        let last = self.pdvs.len() - 1;
        &mut self.pdvs[last]
    }

    pub fn one(&mut self, random: &mut Random) -> &mut PdvPlan {
        self.last();
        let place = random.below(self.pdvs.len());
        &mut self.pdvs[place]
    }
}

pub fn good_pdv(random: &mut Random) -> PdvPlan {
    let length = random.pick(&[0, 1, 2, 3, 4, 8, 15, 16, 30]);
    let id = random.pick(&[1, 1, 1, 3, 5, 127, 129, 255]);
    PdvPlan { length: None, id, control: random.below(4) as u8, fragment: random.bytes(length) }
}

/// A valid P-DATA-TF, also good as a local request.
pub fn good_data(random: &mut Random) -> DataPlan {
    let count = random.pick(&[1, 1, 1, 2, 3]);
    let pdvs = (0..count).map(|_| good_pdv(random)).collect();
    DataPlan { reserved: 0, pdvs, tail: Vec::new(), slip: 0 }
}

/// A PDU of any type in two parts: types 3, 5, 6, 7 and the unknown ones.
#[derive(Clone, Debug)]
pub struct ShortPlan {
    pub kind: u8,
    pub reserved: u8,
    pub body: Vec<u8>,
    pub slip: i64,
}

impl ShortPlan {
    pub fn bytes(&self) -> Vec<u8> {
        framed_with_slip(self.kind, self.reserved, &self.body, self.slip)
    }

    pub fn set(&mut self, place: usize, value: u8) {
        if let Some(byte) = self.body.get_mut(place) {
            *byte = value;
        }
    }
}

/// Values of an RJ that keep the rules.
pub fn good_reject(random: &mut Random) -> (u8, u8, u8) {
    let (source, reason) = random.pick(&[(1, 1), (1, 2), (1, 3), (1, 7), (2, 1), (2, 2), (3, 1), (3, 2)]);
    (random.pick(&[1, 2]), source, reason)
}

/// Values of an RJ, good or with one of them off.
pub fn some_reject(random: &mut Random) -> (u8, u8, u8) {
    let (mut result, mut source, mut reason) = good_reject(random);
    match random.below(5) {
        0 => result = random.pick(&[0, 3, 4, 255]),
        1 => source = random.pick(&[0, 1, 2, 3, 4, 255]),
        2 => reason = random.pick(&[0, 3, 4, 5, 6, 7, 8, 255]),
        3 => {
            result = random.below(4) as u8;
            source = random.below(5) as u8;
            reason = random.below(10) as u8;
        }
        _ => {}
    }
    (result, source, reason)
}

/// A valid PDU of type 3, 5, 6 or 7.
pub fn good_short(kind: u8, random: &mut Random) -> ShortPlan {
    let body = match kind {
        3 => {
            let (result, source, reason) = good_reject(random);
            vec![0, result, source, reason]
        }
        7 if random.chance(50) => vec![0, 0, 0, random.pick(&[0, 0, 9, 255])],
        7 => vec![0, 0, 2, random.pick(&[0, 1, 2, 4, 5, 6])],
        _ => vec![0; 4],
    };
    ShortPlan { kind, reserved: 0, body, slip: 0 }
}
