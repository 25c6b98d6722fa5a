//! Writing the seven PDUs: contents are tested (4), then measured (5), then given room (2).

use crate::fields::RECORD;
use crate::items::{is_odd, split_pdvs};
use crate::names::{name_is_valid, title_is_valid};
use crate::user::{user_item, Given};
use crate::valid::{provider_abort_is_good, reject_values_are_good, LIMIT};

/// A PDU of a type with a body of any length; too long a one is refused later, unsent.
pub fn pdu(kind: u8, body: &[u8]) -> Vec<u8> {
    let mut bytes = vec![kind, 0];
    bytes.extend_from_slice(&(body.len() as u32).to_be_bytes());
    bytes.extend_from_slice(body);
    bytes
}

/// An item of a type with a body; one too long for its length field is refused later with the PDU, unsent.
pub fn item(kind: u8, body: &[u8]) -> Vec<u8> {
    let mut bytes = vec![kind, 0];
    bytes.extend_from_slice(&(body.len() as u16).to_be_bytes());
    bytes.extend_from_slice(body);
    bytes
}

/// One record of a given sheet.
pub struct Record<'a> {
    pub id: u8,
    pub result: u8,
    pub abstract_name: &'a [u8],
    pub transfer: &'a [u8],
}

/// The name of a 64-byte field: the used bytes, when the unused ones are zero.
pub fn name_field(field: &[u8], length: u8) -> Result<&[u8], u8> {
    let length = length as usize;
    if length > field.len() || field[length..].iter().any(|b| *b != 0) {
        return Err(4);
    }
    Ok(&field[..length])
}

fn sheet_record(bytes: &[u8]) -> Result<Record<'_>, u8> {
    let abstract_name = name_field(&bytes[4..68], bytes[2])?;
    let transfer = name_field(&bytes[68..132], bytes[3])?;
    Ok(Record { id: bytes[0], result: bytes[1], abstract_name, transfer })
}

/// At least one record, no part record, each with zeros behind its names.
pub fn sheet_records(sheet: &[u8]) -> Result<Vec<Record<'_>>, u8> {
    if sheet.is_empty() || !sheet.chunks_exact(RECORD).remainder().is_empty() {
        return Err(4);
    }
    sheet.chunks(RECORD).map(sheet_record).collect()
}

/// Result 0 and both names, as in a proposal.
pub fn is_proposed(record: &Record) -> bool {
    record.result == 0 && name_is_valid(record.abstract_name) && name_is_valid(record.transfer)
}

/// Result 0 with a transfer name, or 1 to 4 with none; no abstract name.
fn is_answered(record: &Record) -> bool {
    let transfer_is_good = match record.result {
        0 => name_is_valid(record.transfer),
        1..=4 => record.transfer.is_empty(),
        _ => false,
    };
    transfer_is_good && record.abstract_name.is_empty()
}

/// The runs of a proposal: records with equal ID and abstract name side by side.
pub fn runs<'a>(records: Vec<Record<'a>>) -> Result<Vec<Vec<Record<'a>>>, u8> {
    let mut runs: Vec<Vec<Record>> = Vec::new();
    for record in records {
        if !is_odd(record.id) || !is_proposed(&record) {
            return Err(4);
        }
        let goes_on =
            runs.last().is_some_and(|run| run[0].id == record.id && run[0].abstract_name == record.abstract_name);
        if goes_on {
            let last = runs.len() - 1;
            runs[last].push(record);
        } else if runs.iter().any(|run| run[0].id == record.id) {
            return Err(4);
        } else {
            runs.push(vec![record]);
        }
    }
    Ok(runs)
}

/// The 20H items of a proposal.
fn proposal(sheet: &[u8]) -> Result<Vec<u8>, u8> {
    let mut items = Vec::new();
    for run in runs(sheet_records(sheet)?)? {
        let mut body = vec![run[0].id, 0, 0, 0];
        body.extend(item(0x30, run[0].abstract_name));
        body.extend(run.iter().flat_map(|record| item(0x40, record.transfer)));
        items.extend(item(0x20, &body));
    }
    Ok(items)
}

/// The 21H items of an answer; a refused context has an empty sub-item.
fn answer(sheet: &[u8]) -> Result<Vec<u8>, u8> {
    let mut items = Vec::new();
    let mut ids = Vec::new();
    for record in sheet_records(sheet)? {
        if !is_odd(record.id) || !is_answered(&record) || ids.contains(&record.id) {
            return Err(4);
        }
        ids.push(record.id);
        let mut body = vec![record.id, 0, record.result, 0];
        body.extend(item(0x40, record.transfer));
        items.extend(item(0x21, &body));
    }
    Ok(items)
}

/// Version 1 and two reserved bytes, the 64 bytes given, then 10H, the contexts and 50H.
fn associate(kind: u8, middle: &[u8], application: &[u8], contexts: Vec<u8>, user: Vec<u8>) -> Vec<u8> {
    let mut body = vec![0, 1, 0, 0];
    body.extend_from_slice(middle);
    body.extend(item(0x10, application));
    body.extend(contexts);
    body.extend(user);
    pdu(kind, &body)
}

pub fn rq(called: &[u8], calling: &[u8], application: &[u8], user: &Given, sheet: &[u8]) -> Result<Vec<u8>, u8> {
    if !title_is_valid(called) || !title_is_valid(calling) || !name_is_valid(application) {
        return Err(4);
    }
    let (contexts, user) = (proposal(sheet)?, user_item(user)?);
    let middle = [called, calling, &[0; 32]].concat();
    within_limit(associate(1, &middle, application, contexts, user), 0)
}

pub fn ac(echoed: &[u8], application: &[u8], user: &Given, sheet: &[u8]) -> Result<Vec<u8>, u8> {
    if echoed.len() != 64 || !name_is_valid(application) {
        return Err(4);
    }
    let (contexts, user) = (answer(sheet)?, user_item(user)?);
    within_limit(associate(2, echoed, application, contexts, user), 0)
}

pub fn rj(result: u8, source: u8, reason: u8) -> Result<Vec<u8>, u8> {
    if reject_values_are_good(result, source, reason) {
        Ok(pdu(3, &[0, result, source, reason]))
    } else {
        Err(4)
    }
}

/// PDV items in wire form, bits 2 to 7 of each control byte zero; a peer maximum of 0 limits nothing.
pub fn data(items: &[u8], peer_maximum: u32) -> Result<Vec<u8>, u8> {
    let pdvs = split_pdvs(items, 6).map_err(|_| 4)?;
    if pdvs.iter().any(|pdv| pdv.control > 3) {
        return Err(4);
    }
    within_limit(pdu(4, items), peer_maximum)
}

pub fn release_rq() -> Vec<u8> {
    pdu(5, &[0; 4])
}

pub fn release_rp() -> Vec<u8> {
    pdu(6, &[0; 4])
}

/// An ABORT as it may be sent: source 0 with reason 0, or source 2 with its six reasons.
pub fn abort(source: u8, reason: u8) -> Result<Vec<u8>, u8> {
    if (source, reason) == (0, 0) || provider_abort_is_good(source, reason) {
        Ok(pdu(7, &[0, 0, source, reason]))
    } else {
        Err(4)
    }
}

/// 5 for a PDU-length above 16,384 or above a non-zero peer maximum.
fn within_limit(bytes: Vec<u8>, peer_maximum: u32) -> Result<Vec<u8>, u8> {
    let length = bytes.len() as u64 - 6;
    if length > LIMIT || (peer_maximum != 0 && length > peer_maximum as u64) {
        Err(5)
    } else {
        Ok(bytes)
    }
}

/// The output with the sent bytes at its start; 2 when it is too short.
pub fn into_output(sent: &[u8], output: &[u8]) -> Result<Vec<u8>, u8> {
    if output.len() < sent.len() {
        return Err(2);
    }
    Ok([sent, &output[sent.len()..]].concat())
}
