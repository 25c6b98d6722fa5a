//! Context IDs for the generator: rows of them in which one comes twice, near or far, and rows in which none does; and the
//! same of contexts in a PDU and of records in a sheet.

use crate::calls_large::all_ids;
use crate::contents::Sheet;
use crate::fields::sheet_record;
use crate::make::{good_context, good_name, insert_anywhere, skipped, Node, Plan};
use crate::random::Random;
use crate::refused::{accepted_context, refused_context};
use crate::twists::{inside, outside, Twist};

/// Above so many, contexts are kept short.
const FEW: usize = 40;

/// All odd IDs in any order.
fn shuffled(random: &mut Random) -> Vec<u8> {
    let mut ids = all_ids(0);
    random.shuffle(&mut ids);
    ids
}

/// So many of them.
fn some(count: usize, random: &mut Random) -> Vec<u8> {
    let mut ids = shuffled(random);
    ids.truncate(count);
    ids
}

/// Some, with one of them in front.
fn some_behind(first: u8, count: usize, random: &mut Random) -> Vec<u8> {
    let others = shuffled(random).into_iter().filter(|id| *id != first).take(count);
    [first].into_iter().chain(others).collect()
}

fn count(random: &mut Random) -> usize {
    let any = random.between(2, FEW);
    random.pick(&[2, 3, 3, 4, 5, 8, any])
}

/// An ID at both ends, others between, perhaps some before and behind.
fn apart(id: u8, random: &mut Random) -> Vec<u8> {
    let between = random.pick(&[1, 1, 2, 3, 7, 30]);
    let mut ids = some_behind(id, between + 3, random);
    let around = ids.split_off(between + 1);
    ids.push(id);
    let before = random.below(around.len() + 1);
    [&around[..before], &ids, &around[before..]].concat()
}

/// The odd IDs of a 64-block.
fn of_block(block: u8, random: &mut Random) -> Vec<u8> {
    shuffled(random).into_iter().filter(|id| id / 64 == block).collect()
}

/// Rows of IDs. What is outside has an ID twice, or an even one.
pub static ROWS: &[Twist<Vec<u8>>] = &[
    inside("all 128, rising", |ids, _| *ids = all_ids(0).into_iter().rev().collect()),
    inside("all 128, falling", |ids, _| *ids = all_ids(0)),
    inside("all 128 in any order", |ids, r| *ids = shuffled(r)),
    inside("64 or 65 in any order", |ids, r| *ids = some(r.pick(&[64, 65]), r)),
    inside("some in any order", |ids, r| *ids = some(count(r), r)),
    inside("64, 128 and 192 apart", |ids, r| {
        let first = 2 * r.below(32) as u8 + 1;
        *ids = vec![first, first + 64, first + 128, first + 192];
        r.shuffle(ids);
    }),
    inside("the last of each 64", |ids, r| {
        *ids = vec![63, 127, 191, 255];
        r.shuffle(ids);
    }),
    inside("both sides of each 64", |ids, r| {
        *ids = vec![1, 63, 65, 127, 129, 191, 193, 255];
        r.shuffle(ids);
    }),
    inside("255 and 1", |ids, r| *ids = r.pick(&[vec![255, 1], vec![1, 255], vec![1, 3, 255], vec![255, 253, 1]])),
    inside("127 and 255", |ids, r| *ids = r.pick(&[vec![127, 255], vec![255, 127], vec![127, 1, 255]])),
    inside("two that differ in one bit", |ids, r| {
        let id = r.byte() | 1;
        *ids = vec![id, id ^ 1 << r.between(1, 7)];
    }),
    outside("side by side", |ids, r| {
        *ids = some(count(r), r);
        let place = r.below(ids.len());
        ids.insert(place, ids[place]);
    }),
    outside("the first two", |ids, r| {
        *ids = some(count(r), r);
        ids.insert(0, ids[0]);
    }),
    outside("the last two", |ids, r| {
        *ids = some(count(r), r);
        ids.push(ids[ids.len() - 1]);
    }),
    outside("the first and the last", |ids, r| {
        *ids = some(count(r), r);
        ids.push(ids[0]);
    }),
    outside("any two", |ids, r| {
        *ids = some(count(r), r);
        let (from, to) = (r.below(ids.len()), r.below(ids.len() + 1));
        ids.insert(to, ids[from]);
    }),
    outside("any two of 128", |ids, r| {
        *ids = shuffled(r);
        let (one, other) = (r.below(127), r.between(1, 127));
        ids[other] = if one < other { ids[one] } else { ids[other - 1] };
    }),
    outside("the first and the last of 128", |ids, r| {
        *ids = shuffled(r);
        ids[127] = ids[0];
    }),
    outside("the last two of 128", |ids, r| {
        *ids = shuffled(r);
        ids[127] = ids[126];
    }),
    outside("the first once more behind 128", |ids, r| {
        *ids = shuffled(r);
        ids.push(ids[0]);
    }),
    outside("the last once more behind 128", |ids, r| {
        *ids = shuffled(r);
        ids.push(ids[127]);
    }),
    outside("with 62 to 64 between", |ids, r| {
        *ids = some(r.between(63, 65), r);
        ids.push(ids[0]);
    }),
    outside("one below 64, apart", |ids, r| *ids = apart(2 * r.below(32) as u8 + 1, r)),
    outside("one of 64 to 127, apart", |ids, r| *ids = apart(2 * r.below(32) as u8 + 65, r)),
    outside("one of 128 to 191, apart", |ids, r| *ids = apart(2 * r.below(32) as u8 + 129, r)),
    outside("one of 192 to 255, apart", |ids, r| *ids = apart(2 * r.below(32) as u8 + 193, r)),
    outside("1, apart", |ids, r| *ids = apart(1, r)),
    outside("255, apart", |ids, r| *ids = apart(255, r)),
    outside("63, 127 or 191, apart", |ids, r| *ids = apart(r.pick(&[63, 127, 191]), r)),
    outside("65, 129 or 193, apart", |ids, r| *ids = apart(r.pick(&[65, 129, 193]), r)),
    outside("only its own 64 between", |ids, r| {
        *ids = of_block(r.below(4) as u8, r);
        ids.truncate(r.between(2, 6));
        ids.push(ids[0]);
    }),
    outside("only another 64 between", |ids, r| {
        let block = r.below(4) as u8;
        *ids = of_block((block + r.between(1, 3) as u8) % 4, r);
        ids.truncate(r.between(1, 5));
        let id = of_block(block, r)[0];
        ids.insert(0, id);
        ids.push(id);
    }),
    outside("three times", |ids, r| {
        *ids = apart(r.byte() | 1, r);
        let place = r.below(ids.len());
        let twice = (0..ids.len()).find(|at| ids[at + 1..].contains(&ids[*at])).unwrap_or(0);
        ids.insert(place, ids[twice]);
    }),
    outside("two of them, each twice", |ids, r| {
        let two = some(2, r);
        let (a, b) = (two[0], two[1]);
        *ids = r.pick(&[vec![a, b, a, b], vec![a, b, b, a], vec![a, a, b, b]]);
    }),
    outside("an even one twice", |ids, r| {
        let even = r.pick(&[0, 0, 2, 64, 128, 254]);
        *ids = r.pick(&[vec![even, even], vec![even, 1, even], vec![1, even, even]]);
    }),
    outside("an even one beside its odd neighbour", |ids, r| {
        let odd = r.byte() | 1;
        *ids = r.pick(&[vec![odd, odd - 1], vec![odd - 1, odd], vec![odd, odd.wrapping_add(1)]]);
    }),
];

/// A row by its number.
fn row(number: usize, random: &mut Random) -> Vec<u8> {
    let mut ids = Vec::new();
    (ROWS[number].edit)(&mut ids, random);
    ids
}

// In a PDU.

fn digit(random: &mut Random) -> Vec<u8> {
    vec![b'1' + random.below(9) as u8]
}

/// A context with names of one digit.
fn short_context(kind: u8, id: u8, random: &mut Random) -> Node {
    let mut inner = if kind == 0x20 { vec![Node::leaf(0x30, &digit(random))] } else { Vec::new() };
    let names = if kind == 0x20 { random.pick(&[1, 1, 1, 2, 3]) } else { 1 };
    inner.extend((0..names).map(|_| Node::leaf(0x40, &digit(random))));
    let result = if kind == 0x20 { 0 } else { random.pick(&[0, 0, 1, 3]) };
    Node::holder(kind, &[id, 0, result, 0], inner)
}

/// Puts contexts with these IDs in place of a plan's; now and then other items stand between them.
pub fn put_ids(plan: &mut Plan, ids: &[u8], random: &mut Random) {
    let (kind, known) = (plan.context_kind(), plan.known());
    plan.remove(kind);
    let short = ids.len() > FEW;
    let mut contexts: Vec<Node> = Vec::new();
    for id in ids {
        contexts.push(if short { short_context(kind, *id, random) } else { good_context(kind, *id, random) });
    }
    for _ in 0..random.pick(&[0, 0, 1, 2, 5]) {
        let node = skipped(random, &known);
        insert_anywhere(&mut contexts, node, random);
    }
    plan.items.splice(1..1, contexts);
}

/// Puts a few contexts, all IDs other.
fn put_few(plan: &mut Plan, random: &mut Random) {
    let ids = some(random.between(2, 6), random);
    put_ids(plan, &ids, random);
}

impl Plan {
    fn id_at(&self, place: usize) -> u8 {
        self.items[place].head[0]
    }

    /// A context of the other kind, which is skipped, with the ID of one that counts.
    fn other_kind(&self, place: usize, random: &mut Random) -> Node {
        good_context(self.context_kind() ^ 1, self.id_at(place), random)
    }
}

/// Contexts of a PDU beside other items.
pub static IN_PDU: &[Twist<Plan>] = &[
    inside("the other kind before, with an ID in use", |p, r| {
        put_few(p, r);
        let node = p.other_kind(r.pick(&p.contexts()), r);
        p.items.insert(r.below(2), node);
    }),
    inside("the other kind behind, with an ID in use", |p, r| {
        put_few(p, r);
        let node = p.other_kind(r.pick(&p.contexts()), r);
        p.items.push(node);
    }),
    inside("the other kind beside each, with its ID", |p, r| {
        put_few(p, r);
        for place in p.contexts().into_iter().rev() {
            let node = p.other_kind(place, r);
            p.items.insert(place + r.below(2), node);
        }
    }),
    inside("the other kind twice with one ID", |p, r| {
        put_few(p, r);
        let node = good_context(p.context_kind() ^ 1, r.byte(), r);
        insert_anywhere(&mut p.items, node.clone(), r);
        insert_anywhere(&mut p.items, node, r);
    }),
    inside("the other kind, of few bytes", |p, r| {
        put_few(p, r);
        let id = p.id_at(r.pick(&p.contexts()));
        let node = Node::leaf(p.context_kind() ^ 1, &[id, 0, 0][..r.below(4)]);
        insert_anywhere(&mut p.items, node, r);
    }),
    inside("a skipped item that begins with an ID in use", |p, r| {
        put_few(p, r);
        let mut node = skipped(r, &[0x10, 0x20, 0x21, 0x50]);
        node.head = vec![p.id_at(r.pick(&p.contexts())), 0, 0, 0];
        let place = r.pick(&p.contexts());
        p.items.insert(place + r.below(2), node);
    }),
    inside("a skipped item that holds a context", |p, r| {
        put_few(p, r);
        let place = r.pick(&p.contexts());
        let inner = vec![p.items[place].clone()];
        p.items.insert(place + r.below(2), Node::holder(r.pick(&[0x11, 0x60, 0xff]), &[], inner));
    }),
    inside("a context that holds another's", |p, r| {
        put_few(p, r);
        let place = r.pick(&p.contexts());
        let inner = p.items[r.pick(&p.contexts())].clone();
        p.items[place].inner.push(inner);
    }),
    inside("equal contexts but for the ID", |p, r| {
        put_few(p, r);
        let contexts = p.contexts();
        for place in &contexts[1..] {
            let id = p.id_at(*place);
            p.items[*place] = p.items[contexts[0]].clone();
            p.items[*place].head[0] = id;
        }
    }),
    inside("another's ID in the reserved bytes", |p, r| {
        put_few(p, r);
        let contexts = p.contexts();
        for place in &contexts {
            let id = p.id_at(r.pick(&contexts));
            p.items[*place].head[1] = id;
            p.items[*place].head[3] = id;
        }
    }),
    outside("equal contexts", |p, r| {
        put_few(p, r);
        let node = p.items[r.pick(&p.contexts())].clone();
        p.items.insert(r.pick(&p.contexts()), node);
    }),
    outside("an ID twice, the other kind between", |p, r| {
        put_ids(p, &[5], r);
        let place = p.contexts()[0];
        let (between, again) = (p.other_kind(place, r), good_context(p.context_kind(), 5, r));
        p.items.insert(place + 1, between);
        p.items.insert(place + 2, again);
    }),
    outside("an ID twice, a context of no bytes between", |p, r| {
        put_ids(p, &[5, 7, 5], r);
        let between = p.contexts()[1];
        p.items[between] = Node::leaf(p.context_kind(), &[]);
    }),
];

/// Two contexts with one ID, made by their turns, perhaps with another between.
fn put_two(plan: &mut Plan, makers: [fn(u8, &mut Random) -> Node; 2], random: &mut Random) {
    put_few(plan, random);
    let place = plan.contexts()[0];
    let id = plan.id_at(place);
    plan.items[place] = makers[0](id, random);
    let again = makers[1](id, random);
    let behind = random.pick(&plan.contexts()) + 1;
    plan.items.insert(behind, again);
}

/// Accepted and refused contexts of an AC.
pub static IN_AC: &[Twist<Plan>] = &[
    outside("accepted twice", |p, r| put_two(p, [accepted_context, accepted_context], r)),
    outside("accepted, then refused", |p, r| put_two(p, [accepted_context, refused_context], r)),
    outside("refused, then accepted", |p, r| put_two(p, [refused_context, accepted_context], r)),
    outside("refused twice", |p, r| put_two(p, [refused_context, refused_context], r)),
    inside("a refused one that holds all others", |p, r| {
        put_few(p, r);
        let contexts = p.contexts();
        let inner: Vec<Node> = contexts[1..].iter().map(|place| p.items[*place].clone()).collect();
        p.items[contexts[0]] = Node::holder(0x21, &[p.id_at(contexts[0]), 0, 3, 0], inner);
    }),
];

// In a sheet.

/// The runs of a proposal with these IDs, of one to three records; side by side runs of one ID differ in their names.
fn runs_of(ids: &[u8], random: &mut Random) -> Vec<Vec<Vec<u8>>> {
    let names: [&[u8]; 3] = [b"1.2.840.10008.1.1", b"1.2.3", b"1.2.30"];
    let mut last = (0, names.len());
    let mut runs = Vec::new();
    for id in ids {
        let fitting: Vec<usize> = (0..names.len()).filter(|name| (*id, *name) != last).collect();
        let name = random.pick(&fitting);
        let several = if ids.len() > FEW { random.chance(3) } else { random.chance(50) };
        let records = if several { random.between(2, 3) } else { 1 };
        runs.push(run_of(*id, names[name], records, random));
        last = (*id, name);
    }
    runs
}

fn run_of(id: u8, name: &[u8], records: usize, random: &mut Random) -> Vec<Vec<u8>> {
    (0..records).map(|_| sheet_record(id, 0, name, &digit(random))).collect()
}

/// A proposal with runs of these IDs.
fn put_runs(sheet: &mut Sheet, ids: &[u8], random: &mut Random) {
    sheet.records = runs_of(ids, random).concat();
}

/// An answer with records of these IDs.
fn put_answers(sheet: &mut Sheet, ids: &[u8], random: &mut Random) {
    sheet.records.clear();
    for id in ids {
        let result = random.pick(&[0, 0, 1, 3, 4]);
        let transfer = if result == 0 { digit(random) } else { Vec::new() };
        sheet.records.push(sheet_record(*id, result, b"", &transfer));
    }
}

/// A run of one ID, runs of others, and records of that ID again, under the same name or another.
fn second_run(sheet: &mut Sheet, records: usize, others: usize, same: bool, random: &mut Random) {
    let ids = some(others + 1, random);
    let again: &[u8] = if same { b"1.2.3" } else { b"1.2.4" };
    let between = runs_of(&ids[1..], random).concat();
    let behind = random.between(1, 3);
    sheet.records =
        [run_of(ids[0], b"1.2.3", records, random), between, run_of(ids[0], again, behind, random)].concat();
}

/// Runs of a proposal.
pub static IN_PROPOSAL: &[Twist<Sheet>] = &[
    inside("128 runs of three", |s, r| {
        let ids = shuffled(r);
        s.records = ids.iter().flat_map(|id| run_of(*id, b"1.2.3", 3, r)).collect();
    }),
    inside("runs of three in any order", |s, r| {
        let ids = some(count(r), r);
        s.records = ids.iter().flat_map(|id| run_of(*id, &good_name(r), 3, r)).collect();
    }),
    inside("runs of one name", |s, r| {
        let ids = some(count(r), r);
        s.records = ids.iter().flat_map(|id| run_of(*id, b"1.2.3", r.between(1, 3), r)).collect();
    }),
    inside("a run of equal records", |s, r| {
        put_runs(s, &some(2, r), r);
        let place = r.below(s.records.len());
        for _ in 0..r.between(1, 3) {
            s.records.insert(place, s.records[place].clone());
        }
    }),
    outside("one record of another, all names equal", |s, r| {
        let ids = some(2, r);
        s.records = [ids[0], ids[1], ids[0]].iter().flat_map(|id| run_of(*id, b"1.2.3", 1, r)).collect();
    }),
    outside("a second run behind a run of one", |s, r| second_run(s, 1, r.between(1, 4), r.chance(50), r)),
    outside("a second run behind a run of two", |s, r| second_run(s, 2, r.between(1, 4), r.chance(50), r)),
    outside("a second run behind a run of three", |s, r| second_run(s, 3, r.between(1, 4), r.chance(50), r)),
    outside("a second run of the same name", |s, r| second_run(s, r.between(1, 3), r.between(1, 4), true, r)),
    outside("a second run of another name", |s, r| second_run(s, r.between(1, 3), r.between(1, 4), false, r)),
    outside("another name beside a run of one", |s, r| second_run(s, 1, 0, false, r)),
    outside("another name beside a run of three", |s, r| second_run(s, 3, 0, false, r)),
    outside("another name inside a run", |s, r| {
        let id = r.byte() | 1;
        s.records = [&b"1.2.3"[..], b"1.2.4", b"1.2.3"].iter().flat_map(|name| run_of(id, name, 1, r)).collect();
    }),
    outside("one more name behind 128 runs", |s, r| {
        let ids = shuffled(r);
        s.records = ids.iter().flat_map(|id| run_of(*id, b"1.2.3", 1, r)).collect();
        s.records.extend(run_of(ids[127], b"1.2.4", 1, r));
    }),
];

/// Records of an answer.
pub static IN_ANSWER: &[Twist<Sheet>] = &[
    inside("equal records but for the ID", |s, r| {
        s.records = some(count(r), r).iter().map(|id| sheet_record(*id, 0, b"", b"1.2")).collect();
    }),
    outside("a run of equal records", |s, r| {
        put_answers(s, &some(count(r), r), r);
        let place = r.below(s.records.len());
        for _ in 0..r.between(1, 2) {
            s.records.insert(place, s.records[place].clone());
        }
    }),
    outside("equal records apart", |s, r| {
        put_answers(s, &some(count(r), r), r);
        s.records.push(s.records[0].clone());
    }),
    outside("a run of two transfer names", |s, r| {
        put_answers(s, &some(2, r), r);
        let id = s.records[1][0];
        s.records.truncate(1);
        s.records.extend([sheet_record(id, 0, b"", b"1.2"), sheet_record(id, 0, b"", b"1.3")]);
    }),
    outside("refused and accepted", |s, r| {
        put_answers(s, &some(2, r), r);
        let id = s.records[0][0];
        s.records[0] = sheet_record(id, 4, b"", b"");
        s.records.push(sheet_record(id, 0, b"", b"1.2"));
    }),
    outside("accepted and refused", |s, r| {
        put_answers(s, &some(2, r), r);
        let id = s.records[0][0];
        s.records[0] = sheet_record(id, 0, b"", b"1.2");
        s.records.push(sheet_record(id, 4, b"", b""));
    }),
];

/// What IDs stand in: a PDU that is received, or a sheet that is given.
#[derive(Clone, Copy, Debug, PartialEq)]
pub enum Place {
    Rq,
    Ac,
    Sent,
    Asked,
    Answer,
}

impl Place {
    pub const ALL: [Place; 5] = [Place::Rq, Place::Ac, Place::Sent, Place::Asked, Place::Answer];

    pub fn words(self) -> &'static str {
        match self {
            Place::Rq => "RQ",
            Place::Ac => "AC",
            Place::Sent => "proposal sent",
            Place::Asked => "proposal of C",
            Place::Answer => "answer sent",
        }
    }

    /// The edges that only this place has.
    fn own_names(self) -> Vec<&'static str> {
        fn names<P>(lists: &[&'static [Twist<P>]]) -> Vec<&'static str> {
            lists.iter().flat_map(|list| list.iter()).map(|twist| twist.name).collect()
        }
        match self {
            Place::Rq => names(&[IN_PDU]),
            Place::Ac => names(&[IN_PDU, IN_AC]),
            Place::Sent | Place::Asked => names(&[IN_PROPOSAL]),
            Place::Answer => names(&[IN_ANSWER]),
        }
    }

    /// The names of its edges: the rows, then its own.
    pub fn names(self) -> Vec<&'static str> {
        ROWS.iter().map(|row| row.name).chain(self.own_names()).collect()
    }
}

/// Puts an edge's contexts into the plan of a PDU.
pub fn put_in_plan(plan: &mut Plan, edge: usize, random: &mut Random) {
    match edge.checked_sub(ROWS.len()) {
        None => {
            let ids = row(edge, random);
            put_ids(plan, &ids, random);
        }
        Some(own) if own < IN_PDU.len() => (IN_PDU[own].edit)(plan, random),
        Some(own) => (IN_AC[own - IN_PDU.len()].edit)(plan, random),
    }
}

/// The sheet of an edge: a proposal, or an answer.
pub fn sheet_of(edge: usize, proposal: bool, random: &mut Random) -> Sheet {
    let mut sheet = Sheet::default();
    match edge.checked_sub(ROWS.len()) {
        None => {
            let ids = row(edge, random);
            let put = if proposal { put_runs } else { put_answers };
            put(&mut sheet, &ids, random);
        }
        Some(own) => {
            let list = if proposal { IN_PROPOSAL } else { IN_ANSWER };
            (list[own].edit)(&mut sheet, random);
        }
    }
    sheet
}
