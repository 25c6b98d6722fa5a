//! Judging the seven PDUs: whole bytes become a valid PDU with its fields, or a fault.

use crate::items::{four_bytes, is_odd, split_items, split_pdvs, two_bytes, Fault, Item, Pdv};
use crate::names::{name_is_valid, title_is_valid};
use crate::user::{judge_user, User};

/// One limit for the PDU-length of all types.
pub const LIMIT: u64 = 16_384;

/// A presentation context as read; in an AC the abstract name is empty, and where it is refused the transfer name too.
#[derive(Clone, Debug, PartialEq)]
pub struct Context<'a> {
    pub id: u8,
    pub result: u8,
    pub abstract_name: &'a [u8],
    pub transfers: Vec<&'a [u8]>,
}

/// The fields of an RQ or AC.
#[derive(Clone, Debug, PartialEq)]
pub struct Associate<'a> {
    pub version: u16,
    pub called: &'a [u8],
    pub calling: &'a [u8],
    pub application_at: usize,
    pub application: &'a [u8],
    pub contexts: Vec<Context<'a>>,
    pub user: User<'a>,
}

impl<'a> Associate<'a> {
    pub fn has_version_bit(&self) -> bool {
        self.version % 2 == 1
    }
}

/// A whole valid PDU.
#[derive(Clone, Debug, PartialEq)]
pub enum Pdu<'a> {
    Rq(Associate<'a>),
    Ac(Associate<'a>),
    Rj { result: u8, source: u8, reason: u8 },
    Data(Vec<Pdv<'a>>),
    ReleaseRq,
    ReleaseRp,
    Abort { source: u8, reason: u8 },
}

impl<'a> Pdu<'a> {
    /// The type of the PDU, 1 to 7.
    pub fn kind(&self) -> u8 {
        match self {
            Pdu::Rq(_) => 1,
            Pdu::Ac(_) => 2,
            Pdu::Rj { .. } => 3,
            Pdu::Data(_) => 4,
            Pdu::ReleaseRq => 5,
            Pdu::ReleaseRp => 6,
            Pdu::Abort { .. } => 7,
        }
    }
}

/// Judges bytes that should be one whole PDU.
pub fn judge(bytes: &[u8]) -> Result<Pdu<'_>, Fault> {
    let body = whole_body(bytes)?;
    match bytes[0] {
        1 => judge_rq(body).map(Pdu::Rq),
        2 => judge_ac(body).map(Pdu::Ac),
        3 => judge_rj(body),
        4 => split_pdvs(body, 6).map(Pdu::Data),
        5 => four_long(body).map(|_| Pdu::ReleaseRq),
        6 => four_long(body).map(|_| Pdu::ReleaseRp),
        7 => judge_abort(body),
        _ => Err("a type outside 1 to 7"),
    }
}

/// What follows the six header bytes, when it is exactly as long as they say.
fn whole_body(bytes: &[u8]) -> Result<&[u8], Fault> {
    if bytes.len() < 6 {
        return Err("fewer than six bytes");
    }
    let length = four_bytes(&bytes[2..]);
    if length > LIMIT {
        return Err("a PDU-length above 16,384");
    }
    if bytes.len() as u64 != 6 + length {
        return Err("not exactly one whole PDU");
    }
    Ok(&bytes[6..])
}

fn four_long(body: &[u8]) -> Result<&[u8], Fault> {
    if body.len() == 4 {
        Ok(body)
    } else {
        Err("a PDU-length other than 4")
    }
}

fn judge_rj(body: &[u8]) -> Result<Pdu<'_>, Fault> {
    let body = four_long(body)?;
    let (result, source, reason) = (body[1], body[2], body[3]);
    if reject_values_are_good(result, source, reason) {
        Ok(Pdu::Rj { result, source, reason })
    } else {
        Err("an RJ result, source or reason outside the list")
    }
}

/// The 16 triples of result, source and reason of an RJ.
pub fn reject_values_are_good(result: u8, source: u8, reason: u8) -> bool {
    let pairs: [(u8, &[u8]); 3] = [(1, &[1, 2, 3, 7]), (2, &[1, 2]), (3, &[1, 2])];
    let pair = pairs.iter().any(|(s, reasons)| *s == source && reasons.contains(&reason));
    pair && (result == 1 || result == 2)
}

fn judge_abort(body: &[u8]) -> Result<Pdu<'_>, Fault> {
    let body = four_long(body)?;
    let (source, reason) = (body[2], body[3]);
    if source == 0 || provider_abort_is_good(source, reason) {
        Ok(Pdu::Abort { source, reason })
    } else {
        Err("an ABORT source or reason outside the list")
    }
}

/// Source 2 with one of its six reasons.
pub fn provider_abort_is_good(source: u8, reason: u8) -> bool {
    source == 2 && [0, 1, 2, 4, 5, 6].contains(&reason)
}

fn judge_rq(body: &[u8]) -> Result<Associate<'_>, Fault> {
    let rq = judge_associate(body, 0x20)?;
    if !title_is_valid(rq.called) {
        return Err("a bad called title");
    }
    if !title_is_valid(rq.calling) {
        return Err("a bad calling title");
    }
    Ok(rq)
}

fn judge_ac(body: &[u8]) -> Result<Associate<'_>, Fault> {
    let ac = judge_associate(body, 0x21)?;
    if !ac.has_version_bit() {
        return Err("an AC without version bit 0");
    }
    Ok(ac)
}

/// The shared part of RQ and AC; `context` is the known context type.
fn judge_associate(body: &[u8], context: u8) -> Result<Associate<'_>, Fault> {
    if body.len() < 68 {
        return Err("a PDU-length below 68");
    }
    let items = split_items(&body[68..], 6 + 68)?;
    let known: Vec<Item> = items.into_iter().filter(|i| [0x10, context, 0x50].contains(&i.kind)).collect();
    let kinds: Vec<u8> = known.iter().map(|i| i.kind).collect();
    if !known_order_is_good(&kinds, context) {
        return Err("known items not one 10H, one or more contexts, one 50H in order");
    }
    let last = known.len() - 1;
    let contexts = judge_contexts(&known[1..last])?;
    Ok(Associate {
        version: two_bytes(body) as u16,
        called: &body[4..20],
        calling: &body[20..36],
        application_at: known[0].at,
        application: good_name(&known[0], "a bad application name")?,
        contexts,
        user: judge_user(&known[last])?,
    })
}

fn known_order_is_good(kinds: &[u8], context: u8) -> bool {
    kinds.len() >= 3
        && kinds[0] == 0x10
        && kinds[kinds.len() - 1] == 0x50
        && kinds[1..kinds.len() - 1].iter().all(|k| *k == context)
}

fn good_name<'a>(item: &Item<'a>, fault: Fault) -> Result<&'a [u8], Fault> {
    if name_is_valid(item.body) {
        Ok(item.body)
    } else {
        Err(fault)
    }
}

fn judge_contexts<'a>(items: &[Item<'a>]) -> Result<Vec<Context<'a>>, Fault> {
    let mut contexts: Vec<Context> = Vec::new();
    for item in items {
        let context = judge_context(item)?;
        if contexts.iter().any(|c| c.id == context.id) {
            return Err("an ID that comes twice");
        }
        contexts.push(context);
    }
    Ok(contexts)
}

fn judge_context<'a>(item: &Item<'a>) -> Result<Context<'a>, Fault> {
    if item.body.len() < 4 {
        return Err("a context shorter than its four fixed bytes");
    }
    let (fixed, rest) = item.body.split_at(4);
    if !is_odd(fixed[0]) {
        return Err("an even context ID");
    }
    match (item.kind, fixed[2]) {
        (0x20, _) => judge_proposed(fixed[0], split_items(rest, item.at + 4)?),
        (_, 0) => judge_accepted(fixed[0], split_items(rest, item.at + 4)?),
        (_, result) => judge_refused(fixed[0], result),
    }
}

/// 20H: one 30H, then one or more 40H.
fn judge_proposed<'a>(id: u8, inner: Vec<Item<'a>>) -> Result<Context<'a>, Fault> {
    let known: Vec<Item> = inner.into_iter().filter(|i| i.kind == 0x30 || i.kind == 0x40).collect();
    let in_order = known.len() >= 2 && known[0].kind == 0x30 && known[1..].iter().all(|i| i.kind == 0x40);
    if !in_order {
        return Err("a 20H without one 30H and then one or more 40H");
    }
    let abstract_name = good_name(&known[0], "a bad abstract name")?;
    let transfers: Result<Vec<&[u8]>, Fault> = known[1..].iter().map(|i| good_name(i, "a bad transfer name")).collect();
    Ok(Context { id, result: 0, abstract_name, transfers: transfers? })
}

/// 21H with result 0: exactly one 40H.
fn judge_accepted<'a>(id: u8, inner: Vec<Item<'a>>) -> Result<Context<'a>, Fault> {
    let known: Vec<Item> = inner.into_iter().filter(|i| i.kind == 0x40).collect();
    if known.len() != 1 {
        return Err("a 21H without exactly one 40H");
    }
    let transfer = good_name(&known[0], "a bad transfer name")?;
    Ok(Context { id, result: 0, abstract_name: &[], transfers: vec![transfer] })
}

/// 21H with results 1 to 4: "all that follows the four fixed bytes is left untested" (document 02), so no name is read.
fn judge_refused<'a>(id: u8, result: u8) -> Result<Context<'a>, Fault> {
    if result > 4 {
        return Err("a context result above 4");
    }
    Ok(Context { id, result, abstract_name: &[], transfers: vec![&[]] })
}
