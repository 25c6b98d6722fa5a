//! Items and PDV items: how bytes split into parts that fill them exactly.

/// Why bytes are no valid PDU, in words for people.
pub type Fault = &'static str;

/// An item: its type, its body, and the body's place in the PDU.
#[derive(Clone, Debug, PartialEq)]
pub struct Item<'a> {
    pub kind: u8,
    pub at: usize,
    pub body: &'a [u8],
}

/// A PDV item; `at` is the fragment's place in the PDU.
#[derive(Clone, Debug, PartialEq)]
pub struct Pdv<'a> {
    pub id: u8,
    pub control: u8,
    pub at: usize,
    pub fragment: &'a [u8],
}

/// Context IDs are odd.
pub fn is_odd(id: u8) -> bool {
    id & 1 == 1
}

pub fn two_bytes(bytes: &[u8]) -> usize {
    bytes[..2].iter().fold(0, |sum, b| sum * 256 + *b as usize)
}

pub fn four_bytes(bytes: &[u8]) -> u64 {
    bytes[..4].iter().fold(0, |sum, b| sum * 256 + *b as u64)
}

/// Splits bytes that stand at `at` in the PDU into items that fill them.
pub fn split_items(bytes: &[u8], at: usize) -> Result<Vec<Item<'_>>, Fault> {
    let mut items = Vec::new();
    let mut rest = bytes;
    while !rest.is_empty() {
        let place = at + bytes.len() - rest.len();
        let (item, behind) = first_item(rest, place)?;
        items.push(item);
        rest = behind;
    }
    Ok(items)
}

fn first_item(bytes: &[u8], place: usize) -> Result<(Item<'_>, &[u8]), Fault> {
    if bytes.len() < 4 {
        return Err("a remainder of 1 to 3 bytes");
    }
    let (head, behind) = bytes.split_at(4);
    let length = two_bytes(&head[2..]);
    if length > behind.len() {
        return Err("an item passes the end of what holds it");
    }
    let (body, behind) = behind.split_at(length);
    Ok((Item { kind: head[0], at: place + 4, body }, behind))
}

/// Splits bytes that stand at `at` in the PDU into one or more PDV items that fill them.
pub fn split_pdvs(bytes: &[u8], at: usize) -> Result<Vec<Pdv<'_>>, Fault> {
    if bytes.is_empty() {
        return Err("no PDV item");
    }
    let mut pdvs = Vec::new();
    let mut rest = bytes;
    while !rest.is_empty() {
        let place = at + bytes.len() - rest.len();
        let (pdv, behind) = first_pdv(rest, place)?;
        pdvs.push(pdv);
        rest = behind;
    }
    Ok(pdvs)
}

fn first_pdv(bytes: &[u8], place: usize) -> Result<(Pdv<'_>, &[u8]), Fault> {
    if bytes.len() < 4 {
        return Err("a remainder too short for a PDV item");
    }
    let (head, behind) = bytes.split_at(4);
    let length = four_bytes(head);
    if length < 2 {
        return Err("a PDV length below 2");
    }
    if length > behind.len() as u64 {
        return Err("a PDV item passes the end of the PDU");
    }
    let (value, behind) = behind.split_at(length as usize);
    if !is_odd(value[0]) {
        return Err("a PDV with an even ID");
    }
    Ok((Pdv { id: value[0], control: value[1], at: place + 6, fragment: &value[2..] }, behind))
}
