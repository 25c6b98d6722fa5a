//! Twists: named changes of a good plan, just inside or just outside a rule.

use crate::make::{
    bad_name, bad_title, first_of, good_context, good_name, good_pdv, insert_anywhere, known_inside, name_of_length,
    skipped, some_maximum, DataPlan, Node, Plan, ShortPlan,
};
use crate::marks::Marks;
use crate::random::Random;
use crate::refused::FAULTS;

/// Whether a plan with one twist stays valid.
#[derive(Clone, Copy, Debug, PartialEq)]
pub enum Expect {
    Inside,
    Outside,
    Either,
}

/// A named change of a plan.
pub struct Twist<P: 'static> {
    pub name: &'static str,
    pub expect: Expect,
    pub edit: fn(&mut P, &mut Random),
}

impl<P> Twist<P> {
    /// Whether it is of the wanted expectation, if one is given.
    pub fn fits(&self, want: Option<Expect>) -> bool {
        want.is_none() || want == Some(self.expect)
    }
}

/// A twist that keeps the rules.
pub const fn inside<P>(name: &'static str, edit: fn(&mut P, &mut Random)) -> Twist<P> {
    Twist { name, expect: Expect::Inside, edit }
}

/// A twist that breaks a rule.
pub const fn outside<P>(name: &'static str, edit: fn(&mut P, &mut Random)) -> Twist<P> {
    Twist { name, expect: Expect::Outside, edit }
}

/// A twist that may do either.
pub const fn either<P>(name: &'static str, edit: fn(&mut P, &mut Random)) -> Twist<P> {
    Twist { name, expect: Expect::Either, edit }
}

/// One of a few candidates, the one least used so far; marks its name.
pub fn seldom_used<'a, P>(
    list: &[&'a Twist<P>],
    word: &str,
    random: &mut Random,
    marks: &mut Marks,
) -> Option<&'a Twist<P>> {
    let tries: Vec<&'a Twist<P>> = (0..5).filter_map(|_| list.get(random.below(list.len())).copied()).collect();
    let chosen = tries.into_iter().min_by_key(|t| marks.count(&format!("{}: {}", word, t.name)))?;
    marks.add(&format!("{}: {}", word, chosen.name));
    Some(chosen)
}

/// Twists of RQ and AC alike.
pub static BOTH: &[Twist<Plan>] = &[
    inside("skipped item at the top", |p, r| {
        let node = skipped(r, &p.known());
        insert_anywhere(&mut p.items, node, r);
    }),
    inside("skipped item first", |p, r| {
        let node = skipped(r, &p.known());
        p.items.insert(0, node);
    }),
    inside("skipped item of length 0 last", |p, r| {
        let mut node = skipped(r, &p.known());
        node.head.clear();
        p.items.push(node);
    }),
    inside("many skipped items", |p, r| {
        for _ in 0..r.between(5, 20) {
            let mut node = skipped(r, &p.known());
            node.head.truncate(1);
            insert_anywhere(&mut p.items, node, r);
        }
    }),
    inside("other context kind with rubbish", |p, r| {
        let length = r.below(8);
        let node = Node::leaf(p.context_kind() ^ 1, &r.bytes(length));
        insert_anywhere(&mut p.items, node, r);
    }),
    inside("other context kind with an ID in use", |p, r| {
        let id = p.contexts().first().map_or(1, |place| p.items[*place].head[0]);
        let node = good_context(p.context_kind() ^ 1, id, r);
        insert_anywhere(&mut p.items, node, r);
    }),
    inside("known items inside a skipped one", |p, r| {
        let inner = p.items.clone();
        let node = Node::holder(r.pick(&[0x60, 0x11, 0x52]), &[], inner);
        insert_anywhere(&mut p.items, node, r);
    }),
    inside("skipped item inside a context", |p, r| {
        p.with_tested(r, |context, r| {
            let node = skipped(r, known_inside(context.kind));
            insert_anywhere(&mut context.inner, node, r);
        });
    }),
    inside("skipped items inside 50H", |p, r| {
        p.with_item(0x50, |user| {
            for _ in 0..r.between(1, 3) {
                let node = skipped(r, known_inside(0x50));
                insert_anywhere(&mut user.inner, node, r);
            }
        });
    }),
    inside("51H behind the other sub-items", |p, _| {
        p.with_item(0x50, |user| {
            let (maximum, others): (Vec<Node>, Vec<Node>) = user.inner.drain(..).partition(|node| node.kind == 0x51);
            user.inner.extend(others.into_iter().chain([Node::leaf(0x59, b"")]).chain(maximum));
        });
    }),
    inside("reserved bytes of any value", |p, r| p.fill_reserved(r)),
    inside("application name of 64 bytes", |p, r| {
        let name = name_of_length(64, r);
        p.set_application(&name);
    }),
    inside("application name of 1 byte", |p, _| p.set_application(b"0")),
    inside("transfer name of 64 bytes", |p, r| {
        let name = name_of_length(64, r);
        p.set_sub_name(r, 0x40, &name);
    }),
    inside("maximum 0", |p, _| p.set_maximum(0)),
    inside("maximum FFFFFFFFH", |p, _| p.set_maximum(0xffff_ffff)),
    inside("maximum 1 to 7", |p, r| p.set_maximum(r.between(1, 7) as u32)),
    inside("more contexts", |p, r| {
        for _ in 0..r.between(2, 6) {
            p.add_context(r);
        }
    }),
    outside("no 10H", |p, _| p.remove(0x10)),
    outside("two 10H", |p, r| {
        let name = good_name(r);
        p.items.insert(0, Node::leaf(0x10, &name));
    }),
    outside("a second 10H last", |p, _| p.items.push(Node::leaf(0x10, b"1.2"))),
    outside("10H behind a context", |p, _| {
        let node = p.take_item(0x10);
        p.items.insert(1.min(p.items.len()), node);
    }),
    outside("10H last", |p, _| {
        let node = p.take_item(0x10);
        p.items.push(node);
    }),
    outside("no context", |p, _| p.remove(p.context_kind())),
    outside("only a context of the other kind", |p, r| {
        let other = p.context_kind() ^ 1;
        p.remove(p.context_kind());
        let node = good_context(other, 1, r);
        p.items.insert(1.min(p.items.len()), node);
    }),
    outside("50H before the contexts", |p, _| {
        let node = p.take_item(0x50);
        p.items.insert(1.min(p.items.len()), node);
    }),
    outside("a context behind 50H", |p, _| {
        let node = p.take_item(p.context_kind());
        p.items.push(node);
    }),
    outside("no 50H", |p, _| p.remove(0x50)),
    outside("two 50H", |p, r| {
        let node = Node::holder(0x50, &[], vec![Node::leaf(0x51, &some_maximum(r).to_be_bytes())]);
        p.items.push(node);
    }),
    outside("an empty second 50H", |p, _| p.items.push(Node::leaf(0x50, &[]))),
    outside("no item at all", |p, _| p.items.clear()),
    outside("remainder at the top", |p, r| {
        let length = r.between(1, 3);
        p.tail = r.bytes(length);
    }),
    outside("remainder in a context", |p, r| {
        p.with_tested(r, |context, r| {
            let length = r.between(1, 3);
            context.tail = r.bytes(length);
        });
    }),
    outside("remainder in 50H", |p, r| {
        let length = r.between(1, 3);
        p.with_item(0x50, |user| user.tail = r.bytes(length));
    }),
    outside("last skipped item passes the end", |p, r| {
        let mut node = skipped(r, &p.known());
        node.slip = r.pick(&[1, 2, 256, 0xff00]);
        p.items.push(node);
    }),
    outside("last known item passes the end", |p, r| {
        let slip = r.pick(&[1, 2, 4, 256]);
        p.with_item(0x50, |user| user.slip = slip);
    }),
    outside("skipped item passes the end of its context", |p, r| {
        p.with_tested(r, |context, r| {
            let mut node = skipped(r, known_inside(context.kind));
            node.slip = r.pick(&[1, 2, 12, 256]);
            context.inner.push(node);
        });
    }),
    outside("skipped item passes the end of 50H", |p, r| {
        let mut node = skipped(r, known_inside(0x50));
        node.slip = r.pick(&[1, 2, 12, 256]);
        p.with_item(0x50, |user| user.inner.push(node));
    }),
    either("an item length one more", |p, r| p.slip_one(r, 1)),
    either("an item length one less", |p, r| p.slip_one(r, -1)),
    either("an item length far off", |p, r| {
        let slip = r.pick(&[4, -4, 8, 256, -256, 0x7fff, 0xffff]);
        p.slip_one(r, slip);
    }),
    outside("PDU-length one more", |p, _| p.slip = 1),
    outside("PDU-length one less", |p, _| p.slip = -1),
    outside("PDU-length 0, 67 or 68", |p, r| {
        p.slip = r.pick(&[0, 67, 68]) - p.body().len() as i64;
    }),
    outside("PDU-length with a high byte", |p, r| {
        p.slip = r.pick(&[0x1_0000, 0x100_0000, 0x8000_0000]);
    }),
    outside("fixed part cut", |p, r| {
        let length = r.pick(&[0, 1, 2, 4, 36, 66, 67]);
        p.fixed.truncate(length);
        p.items.clear();
    }),
    outside("cut anywhere", |p, r| {
        let mut body = p.body();
        body.truncate(r.below(body.len()));
        p.fixed = body;
        p.items.clear();
    }),
    outside("no 51H", |p, _| p.with_item(0x50, |user| user.inner.clear())),
    outside("51H outside 50H", |p, r| {
        p.with_item(0x50, |user| user.inner.clear());
        insert_anywhere(&mut p.items, Node::leaf(0x51, &[0, 0, 64, 0]), r);
    }),
    outside("51H twice", |p, r| {
        p.with_item(0x50, |user| insert_anywhere(&mut user.inner, Node::leaf(0x51, &[0, 0, 64, 0]), r));
    }),
    outside("51H twice, one of another length", |p, r| {
        let length = r.pick(&[0, 3, 5]);
        let body = r.bytes(length);
        p.with_item(0x50, |user| insert_anywhere(&mut user.inner, Node::leaf(0x51, &body), r));
    }),
    outside("51H of another length", |p, r| {
        let length = r.pick(&[0, 1, 2, 3, 5, 8]);
        let body = r.bytes(length);
        p.with_item(0x50, |user| first_of(&mut user.inner, 0x51, |node| node.head = body));
    }),
    outside("bad application name", |p, r| {
        let name = bad_name(r);
        p.set_application(&name);
    }),
    outside("application name of 65 bytes", |p, r| {
        let name = name_of_length(65, r);
        p.set_application(&name);
    }),
    outside("bad transfer name", |p, r| {
        let name = bad_name(r);
        p.set_sub_name(r, 0x40, &name);
    }),
    outside("even ID", |p, r| {
        let id = r.pick(&[0, 2, 4, 128, 254]);
        p.with_context(r, |context, _| context.head[0] = id);
    }),
    outside("ID twice side by side", |p, r| p.repeat_id(r, false)),
    outside("ID twice apart", |p, r| p.repeat_id(r, true)),
    outside("context of 0 to 3 bytes", |p, r| {
        p.with_context(r, |context, r| {
            context.head.truncate(r.below(4));
            context.inner.clear();
            context.tail.clear();
        });
    }),
    outside("context of its four fixed bytes", |p, r| {
        p.with_tested(r, |context, _| context.inner.clear());
    }),
];

/// Twists of an RQ.
pub static RQ: &[Twist<Plan>] = &[
    inside("RQ version with bit 0", |p, r| {
        let version = r.pick(&[0x0001, 0x0003, 0x8001, 0xffff, 0x0101]);
        p.set_version(version);
    }),
    inside("RQ version without bit 0", |p, r| {
        let version = r.pick(&[0x0000, 0x0002, 0x0100, 0x0100, 0xfffe, 0x8000]);
        p.set_version(version);
    }),
    inside("title byte just inside", |p, r| {
        let mut title = b"ABCDEFGHIJKLMNOP".to_vec();
        title[r.below(16)] = r.pick(&[0x20, 0x21, 0x5b, 0x5d, 0x7e]);
        p.set_title(r, &title);
    }),
    outside("title byte just outside", |p, r| {
        let mut title = b"ABCDEFGHIJKLMNOP".to_vec();
        title[r.below(16)] = r.pick(&[0x1f, 0x7f, 0x7f, 0x5c, 0x5c, 0x00, 0x80, 0xff]);
        p.set_title(r, &title);
    }),
    outside("title of 16 spaces", |p, r| p.set_title(r, &[0x20; 16])),
    outside("bad title", |p, r| {
        let title = bad_title(r);
        p.set_title(r, &title);
    }),
    inside("equal transfer names", |p, r| {
        p.with_context(r, |context, _| {
            if let Some(last) = context.inner.last().cloned() {
                context.inner.push(last);
            }
        });
    }),
    inside("abstract name of 64 bytes", |p, r| {
        let name = name_of_length(64, r);
        p.set_sub_name(r, 0x30, &name);
    }),
    outside("bad abstract name", |p, r| {
        let name = bad_name(r);
        p.set_sub_name(r, 0x30, &name);
    }),
    outside("no 30H", |p, r| {
        p.with_context(r, |context, _| context.inner.retain(|node| node.kind != 0x30));
    }),
    outside("two 30H", |p, r| {
        p.with_context(r, |context, r| {
            let name = good_name(r);
            insert_anywhere(&mut context.inner, Node::leaf(0x30, &name), r);
        });
    }),
    outside("40H before 30H", |p, r| {
        p.with_context(r, |context, _| context.inner.insert(0, Node::leaf(0x40, b"1.2.840.10008.1.2")));
    }),
    outside("30H last", |p, r| {
        p.with_context(r, |context, _| {
            if !context.inner.is_empty() {
                let node = context.inner.remove(0);
                context.inner.push(node);
            }
        });
    }),
    outside("no 40H", |p, r| {
        p.with_context(r, |context, _| context.inner.retain(|node| node.kind != 0x40));
    }),
    outside("20H with what a refused 21H may hold", |p, r| {
        p.with_context(r, |context, r| {
            context.head[2] = r.between(1, 4) as u8;
            match r.below(4) {
                0 => context.inner.clear(),
                1 => context.inner.retain(|node| node.kind == 0x40),
                2 => first_of(&mut context.inner, 0x40, |node| node.head.clear()),
                _ => {
                    let length = r.between(1, 3);
                    context.tail = r.bytes(length);
                }
            }
        });
    }),
];

/// Twists of an AC.
pub static AC: &[Twist<Plan>] = &[
    inside("AC version with bit 0", |p, r| {
        let version = r.pick(&[0x0001, 0x0003, 0x8001, 0xffff]);
        p.set_version(version);
    }),
    outside("AC version without bit 0", |p, r| {
        let version = r.pick(&[0x0000, 0x0002, 0x0100, 0x0100, 0xfffe]);
        p.set_version(version);
    }),
    inside("AC title fields of any value", |p, r| {
        let title = bad_title(r);
        p.set_title(r, &title);
    }),
    inside("refusing result with a good name", |p, r| {
        p.with_tested(r, |context, r| context.head[2] = r.between(1, 4) as u8);
    }),
    inside("refusing result with a bad name", |p, r| {
        p.with_tested(r, |context, r| {
            context.head[2] = r.between(1, 4) as u8;
            first_of(&mut context.inner, 0x40, |node| node.head = bad_name(r));
        });
    }),
    inside("refusing result with an empty name", |p, r| {
        p.with_tested(r, |context, r| {
            context.head[2] = r.between(1, 4) as u8;
            first_of(&mut context.inner, 0x40, |node| node.head.clear());
        });
    }),
    inside("refusing result, its name behind the context", |p, r| {
        let place = r.pick(&p.contexts());
        let context = &mut p.items[place];
        context.head[2] = r.between(1, 4) as u8;
        context.inner.clear();
        context.tail.clear();
        p.items.insert(place + 1, Node::leaf(0x40, &good_name(r)));
    }),
    inside("all contexts refused", |p, r| {
        for place in p.contexts() {
            p.items[place].head[2] = r.between(1, 4) as u8;
        }
    }),
    outside("result above 4", |p, r| {
        p.with_context(r, |context, r| context.head[2] = r.pick(&[5, 5, 5, 6, 255]));
    }),
    inside("30H inside 21H", |p, r| {
        p.with_tested(r, |context, r| {
            let length = r.below(6);
            let body = r.bytes(length);
            insert_anywhere(&mut context.inner, Node::leaf(0x30, &body), r);
        });
    }),
    outside("30H in place of 40H", |p, r| {
        p.with_tested(r, |context, _| first_of(&mut context.inner, 0x40, |node| node.kind = 0x30));
    }),
    outside("no 40H in 21H", |p, r| {
        p.with_tested(r, |context, _| context.inner.clear());
    }),
    outside("two 40H in 21H", |p, r| {
        p.with_tested(r, |context, r| {
            let name = good_name(r);
            insert_anywhere(&mut context.inner, Node::leaf(0x40, &name), r);
        });
    }),
];

/// Twists of a P-DATA-TF.
pub static DATA: &[Twist<DataPlan>] = &[
    inside("data reserved byte", |p, r| p.reserved = r.byte()),
    inside("many PDVs", |p, r| {
        for _ in 0..r.between(3, 12) {
            p.pdvs.push(good_pdv(r));
        }
    }),
    inside("empty fragment", |p, r| p.one(r).fragment.clear()),
    inside("empty fragment last", |p, _| p.last().fragment.clear()),
    inside("ID 255", |p, r| p.one(r).id = 255),
    outside("no PDV", |p, _| p.pdvs.clear()),
    outside("PDV length 0", |p, r| p.one(r).length = Some(0)),
    outside("PDV length 1", |p, r| p.one(r).length = Some(1)),
    outside("last PDV of length 1, whole", |p, _| p.tail = vec![0, 0, 0, 1, 1]),
    outside("last PDV of length 0, whole", |p, _| p.tail = vec![0, 0, 0, 0]),
    outside("PDV length FFFFFFFFH and near", |p, r| {
        let length = r.pick(&[0xffff_ffff, 0xffff_fffe, 0xffff_fffd, 0xffff_fffc, 0x8000_0000, 0x7fff_ffff]);
        p.one(r).length = Some(length);
    }),
    outside("PDV length right in its low bytes only", |p, r| {
        let more = r.pick(&[0x1_0000, 0x100_0000, 0x8000_0000]);
        let pdv = p.one(r);
        pdv.length = Some(pdv.true_length() + more);
    }),
    outside("last PDV length one more", |p, _| {
        let pdv = p.last();
        pdv.length = Some(pdv.true_length() + 1);
    }),
    outside("last PDV length one less", |p, _| {
        let pdv = p.last();
        pdv.length = Some(pdv.true_length() - 1);
    }),
    either("a PDV length one off", |p, r| {
        let more = r.pick(&[0, 2]);
        let pdv = p.one(r);
        pdv.length = Some(pdv.true_length() - 1 + more);
    }),
    outside("even PDV ID", |p, r| {
        let id = r.pick(&[0, 2, 128, 254]);
        p.one(r).id = id;
    }),
    outside("data remainder of 1 to 5", |p, r| {
        let length = r.between(1, 5);
        p.tail = [0, 0, 0, 2, 1][..length].to_vec();
    }),
    outside("data remainder of any bytes", |p, r| {
        let length = r.between(1, 3);
        p.tail = r.bytes(length);
    }),
    outside("data PDU-length one more", |p, _| p.slip = 1),
    outside("data PDU-length one less", |p, _| p.slip = -1),
    outside("data PDU-length with a high byte", |p, r| {
        p.slip = r.pick(&[0x1_0000, 0x100_0000, 0x8000_0000]);
    }),
];

/// Control bits 2 to 7: inside when received, outside in a local request.
pub static CONTROL_BITS: &[Twist<DataPlan>] = &[inside("control bits 2 to 7", |p, r| {
    let control = r.pick(&[4, 8, 0x10, 0x80, 0xfc, 0xff, 0x07]);
    p.one(r).control = control;
})];

/// Twists of types 3, 5, 6 and 7 alike.
pub static SHORT: &[Twist<ShortPlan>] = &[
    inside("short reserved bytes", |p, r| {
        p.reserved = r.byte();
        p.set(0, r.byte());
        if p.kind >= 5 {
            p.set(1, r.byte());
        }
        if p.kind == 5 || p.kind == 6 {
            p.set(2, r.byte());
            p.set(3, r.byte());
        }
    }),
    outside("short length 3", |p, _| p.body.truncate(3)),
    outside("short length 5", |p, r| p.body.push(r.byte())),
    outside("short length 0", |p, _| p.body.clear()),
    outside("short length 4 with other bytes", |p, r| p.slip = r.pick(&[1, -1, 0x1_0000, -4])),
];

/// Twists of an RJ.
pub static RJ: &[Twist<ShortPlan>] = &[
    outside("RJ result outside", |p, r| p.set(1, r.pick(&[0, 3, 4, 255]))),
    outside("RJ source outside", |p, r| p.set(2, r.pick(&[0, 4, 5, 255]))),
    outside("RJ reason outside", |p, r| p.set(3, r.pick(&[0, 4, 5, 6, 8, 10, 255]))),
    outside("RJ reason of another source", |p, r| {
        p.set(2, r.pick(&[2, 3]));
        p.set(3, r.pick(&[0, 3, 7]));
    }),
];

/// Twists of an ABORT.
pub static ABORT: &[Twist<ShortPlan>] = &[
    inside("ABORT source 0, any reason", |p, r| {
        p.set(2, 0);
        p.set(3, r.byte());
    }),
    outside("ABORT source outside", |p, r| p.set(2, r.pick(&[1, 3, 4, 255]))),
    outside("ABORT source 2, reason outside", |p, r| {
        p.set(2, 2);
        p.set(3, r.pick(&[3, 7, 8, 255]));
    }),
];

/// The names of all twists, for coverage.
pub fn twist_names() -> Vec<&'static str> {
    let mut names: Vec<&'static str> = Vec::new();
    for list in [BOTH, RQ, AC, FAULTS].iter() {
        names.extend(list.iter().map(|t| t.name));
    }
    for list in [DATA, CONTROL_BITS].iter() {
        names.extend(list.iter().map(|t| t.name));
    }
    for list in [SHORT, RJ, ABORT].iter() {
        names.extend(list.iter().map(|t| t.name));
    }
    names
}
