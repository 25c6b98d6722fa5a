//! Refused contexts for the generator: what stands behind their four fixed bytes, and faults that are still found.

use crate::make::{bad_name, good_name, good_plan, insert_anywhere, name_of_length, skipped, Node, Plan};
use crate::marks::Marks;
use crate::random::Random;
use crate::twists::{inside, outside, seldom_used, Expect, Twist};

/// A 21H with nothing behind its four fixed bytes.
fn bare(id: u8, result: u8) -> Node {
    Node::holder(0x21, &[id, 0, result, 0], Vec::new())
}

pub fn accepted_context(id: u8, random: &mut Random) -> Node {
    Node::holder(0x21, &[id, 0, 0, 0], vec![Node::leaf(0x40, &good_name(random))])
}

/// Mostly with a name or an empty one, else with anything.
pub fn refused_context(id: u8, random: &mut Random) -> Node {
    let mut context = bare(id, random.between(1, 4) as u8);
    match random.below(3) {
        0 => context.inner.push(Node::leaf(0x40, &good_name(random))),
        1 => context.inner.push(Node::leaf(0x40, b"")),
        _ => put_anything(&mut context, random),
    }
    context
}

/// Whether all behind the four fixed bytes is left untested.
pub fn is_refused(context: &Node) -> bool {
    context.kind == 0x21 && context.head.get(2).is_some_and(|result| (1..=4).contains(result))
}

/// Puts sub-items behind the four fixed bytes, and nothing else.
fn put(context: &mut Node, sub_items: Vec<Node>) {
    context.inner = sub_items;
    context.tail.clear();
}

/// Puts bytes behind the four fixed ones.
fn put_bytes(context: &mut Node, bytes: Vec<u8>) {
    context.inner.clear();
    context.tail = bytes;
}

fn put_anything(context: &mut Node, random: &mut Random) {
    let place = random.below(BEHIND.len());
    (BEHIND[place].edit)(context, random);
}

/// One sub-item 40H with a length that is off.
fn put_with_slip(context: &mut Node, slip: i64, random: &mut Random) {
    let mut sub_item = Node::leaf(0x40, &good_name(random));
    sub_item.slip = slip;
    put(context, vec![sub_item]);
}

fn others(count: usize, random: &mut Random) -> Vec<Node> {
    (0..count).map(|_| skipped(random, &[0x40])).collect()
}

/// What may stand behind the four fixed bytes of a refused context; those that are outside may not in an accepted one.
pub static BEHIND: &[Twist<Node>] = &[
    inside("a good name", |c, r| put(c, vec![Node::leaf(0x40, &good_name(r))])),
    inside("a name of 64 bytes", |c, r| put(c, vec![Node::leaf(0x40, &name_of_length(64, r))])),
    inside("a good name among other sub-items", |c, r| {
        let mut sub_items = others(r.between(1, 3), r);
        insert_anywhere(&mut sub_items, Node::leaf(0x40, &good_name(r)), r);
        put(c, sub_items);
    }),
    outside("a name of length 0", |c, _| put_bytes(c, vec![0x40, 0, 0, 0])),
    outside("a name of length 0 and a reserved byte", |c, r| put_bytes(c, vec![0x40, r.byte() | 1, 0, 0])),
    outside("a name of length 0 among other sub-items", |c, r| {
        let mut sub_items = others(r.between(1, 3), r);
        insert_anywhere(&mut sub_items, Node::leaf(0x40, b""), r);
        put(c, sub_items);
    }),
    outside("nothing", |c, _| put(c, Vec::new())),
    outside("a remainder of 1 to 3 bytes", |c, r| {
        let length = r.between(1, 3);
        put_bytes(c, r.bytes(length));
    }),
    outside("the first bytes of a sub-item", |c, r| put_bytes(c, [0x40, 0, 0][..r.between(1, 3)].to_vec())),
    outside("a good name and a remainder", |c, r| {
        put(c, vec![Node::leaf(0x40, &good_name(r))]);
        let length = r.between(1, 3);
        c.tail = r.bytes(length);
    }),
    outside("a name of length 0 and a remainder", |c, r| {
        put(c, vec![Node::leaf(0x40, b"")]);
        let length = r.between(1, 3);
        c.tail = r.bytes(length);
    }),
    outside("a bad name", |c, r| put(c, vec![Node::leaf(0x40, &bad_name(r))])),
    outside("a name of 65 bytes or more", |c, r| {
        let length = r.pick(&[65, 66, 128, 200]);
        put(c, vec![Node::leaf(0x40, &name_of_length(length, r))]);
    }),
    outside("two 40H", |c, r| put(c, vec![Node::leaf(0x40, &good_name(r)), Node::leaf(0x40, &good_name(r))])),
    outside("two 40H of length 0", |c, _| put(c, vec![Node::leaf(0x40, b""), Node::leaf(0x40, b"")])),
    outside("many 40H", |c, r| {
        let count = r.between(3, 20);
        put(c, (0..count).map(|_| Node::leaf(0x40, &good_name(r))).collect());
    }),
    outside("no 40H among other sub-items", |c, r| put(c, others(r.between(1, 3), r))),
    outside("30H in place of 40H", |c, r| put(c, vec![Node::leaf(0x30, &good_name(r))])),
    outside("a sub-item length one more", |c, r| put_with_slip(c, 1, r)),
    outside("a sub-item length one less", |c, r| put_with_slip(c, -1, r)),
    outside("a sub-item length far past the end", |c, r| {
        let slip = r.pick(&[4, 12, 256, 0x4000, 0x7fff, 0xff00]);
        put_with_slip(c, slip, r);
    }),
    outside("rubbish", |c, r| {
        let length = r.pick(&[4, 5, 6, 7, 8, 9, 16, 33]);
        put_bytes(c, r.bytes(length));
    }),
    outside("long rubbish", |c, r| {
        let length = r.between(64, 400);
        put_bytes(c, r.bytes(length));
    }),
    outside("equal bytes", |c, r| {
        let (byte, count) = (r.pick(&[0, 0x10, 0x21, 0x40, 0x50, 0xff]), r.between(1, 40));
        put_bytes(c, vec![byte; count]);
    }),
    outside("the items of an AC", |c, r| put(c, good_plan(2, r).items)),
    outside("the same context accepted", |c, r| put(c, vec![accepted_context(c.head[0], r)])),
    outside("an accepted context of an even ID", |c, r| put(c, vec![accepted_context(c.head[0] ^ 1, r)])),
    outside("a whole 50H", |c, r| {
        let maximum = Node::leaf(0x51, &[0, 0, 0, r.byte()]);
        put(c, vec![Node::holder(0x50, &[], vec![maximum])]);
    }),
];

impl Plan {
    /// A context that is refused, or one that is not; where there is none, one is made so.
    fn context_place(&mut self, refused: bool, random: &mut Random) -> Option<usize> {
        let all = self.contexts();
        let fitting: Vec<usize> = all.iter().copied().filter(|i| is_refused(&self.items[*i]) == refused).collect();
        if !fitting.is_empty() {
            return Some(random.pick(&fitting));
        }
        if all.is_empty() {
            return None;
        }
        let place = random.pick(&all);
        let id = self.items[place].head.first().copied().unwrap_or(1);
        self.items[place] = if refused { refused_context(id, random) } else { accepted_context(id, random) };
        Some(place)
    }

    /// Edits one of the refused contexts of an AC.
    pub fn with_refused(&mut self, random: &mut Random, edit: impl FnOnce(&mut Node, &mut Random)) {
        if let Some(place) = self.context_place(true, random) {
            edit(&mut self.items[place], random);
        }
    }

    /// Edits one of the contexts that are tested inside: in an RQ any, in an AC an accepted one.
    pub fn with_tested(&mut self, random: &mut Random, edit: impl FnOnce(&mut Node, &mut Random)) {
        if let Some(place) = self.context_place(false, random) {
            edit(&mut self.items[place], random);
        }
    }

    /// Gives a refused context a length that takes in all that follows, and so many bytes more.
    fn stretch_refused(&mut self, more: usize, random: &mut Random) {
        if let Some(place) = self.context_place(true, random) {
            let behind: usize = self.items[place + 1..].iter().map(|node| node.bytes().len()).sum();
            self.items[place].slip = (behind + self.tail.len() + more) as i64;
        }
    }

    /// One context more with the ID of a refused one: side by side or apart, before it or behind.
    fn repeat_refused_id(&mut self, again: fn(u8, &mut Random) -> Node, random: &mut Random) {
        if let Some(place) = self.context_place(true, random) {
            let id = self.items[place].head[0];
            let contexts = self.contexts();
            let at = random.pick(&[place, place + 1, contexts[0], contexts[0] + contexts.len()]);
            self.items.insert(at, again(id, random));
        }
    }
}

/// Faults of an AC with refused contexts: what is tested of them still, and of accepted ones as before.
pub static FAULTS: &[Twist<Plan>] = &[
    outside("refused: even ID", |p, r| {
        p.with_refused(r, |context, r| context.head[0] = r.pick(&[0, 2, 4, 128, 254]));
    }),
    outside("refused: its ID refused again", |p, r| p.repeat_refused_id(refused_context, r)),
    outside("refused: its ID accepted too", |p, r| p.repeat_refused_id(accepted_context, r)),
    outside("refused: result 5", |p, r| p.with_refused(r, |context, _| context.head[2] = 5)),
    outside("refused: result above 5", |p, r| {
        p.with_refused(r, |context, r| context.head[2] = r.pick(&[6, 7, 8, 128, 255]));
    }),
    outside("refused: of 0 to 3 bytes", |p, r| {
        p.with_refused(r, |context, r| {
            context.head.truncate(r.below(4));
            put(context, Vec::new());
        });
    }),
    outside("refused: length 0 to 3 before more bytes", |p, r| {
        p.with_refused(r, |context, r| {
            let length = context.bytes().len() as i64 - 4;
            context.slip = r.below(4) as i64 - length;
        });
    }),
    outside("refused: passes the end by a byte", |p, r| p.stretch_refused(1, r)),
    outside("refused: passes the end", |p, r| {
        let more = r.pick(&[2, 3, 4, 256, 0x4000]);
        p.stretch_refused(more, r);
    }),
    outside("refused: takes in all that follows", |p, r| p.stretch_refused(0, r)),
    outside("accepted: a name of length 0", |p, r| {
        p.with_tested(r, |context, _| put(context, vec![Node::leaf(0x40, b"")]));
    }),
    outside("accepted: what only a refused one may hold", |p, r| {
        p.with_tested(r, |context, r| {
            let list: Vec<&Twist<Node>> = BEHIND.iter().filter(|twist| twist.expect == Expect::Outside).collect();
            let place = r.below(list.len());
            (list[place].edit)(context, r);
        });
    }),
];

/// A valid AC with one refused context or more among others; what stands behind them is counted under a word.
pub fn plan_with_refused(word: &str, random: &mut Random, marks: &mut Marks) -> Plan {
    let mut plan = good_plan(2, random);
    for _ in 0..random.pick(&[0, 0, 1, 2]) {
        plan.add_context(random);
    }
    let all: Vec<&Twist<Node>> = BEHIND.iter().collect();
    let places = plan.contexts();
    let sure = random.pick(&places);
    for place in places {
        let context = &mut plan.items[place];
        if place == sure || random.chance(40) {
            *context = bare(context.head[0], random.between(1, 4) as u8);
            if let Some(behind) = seldom_used(&all, word, random, marks) {
                (behind.edit)(context, random);
            }
        } else {
            *context = accepted_context(context.head[0], random);
        }
    }
    plan
}
