//! Reading calls: the fields of a whole valid PDU of the kind asked for; and a PDV item by its place, which asks for no valid PDU.

use crate::items::{Item, Pdv};
use crate::user::role_record;
use crate::valid::{judge, Associate, Context, Pdu};
use crate::write::into_output;

/// Bytes of one record of the context sheet.
pub const RECORD: usize = 132;

/// What K answers: kind, acceptable, maximum.
#[derive(Clone, Copy, Debug, Default, PartialEq)]
pub struct Kind {
    pub kind: u8,
    pub acceptable: bool,
    pub maximum: u32,
}

/// The fields of an RQ or AC beside its sheets; all zero when refused.
#[derive(Clone, Copy, Debug, Default, PartialEq)]
pub struct Fields {
    pub version: u16,
    pub application_at: usize,
    pub application_length: usize,
    pub maximum: u32,
    pub records: usize,
    pub class_at: usize,
    pub class_length: usize,
    pub version_name_at: usize,
    pub version_name_length: usize,
    pub invoked: u16,
    pub performed: u16,
    pub roles: usize,
}

/// The fields of an RQ or AC, then its context sheet and its role sheet as they are afterwards.
pub type Filled = (Fields, Vec<u8>, Vec<u8>);

/// A PDV as read: its ID, control byte, and the fragment's part of the PDU, with its bytes.
#[derive(Clone, Copy, Debug, Default, PartialEq)]
pub struct Part<'a> {
    pub id: u8,
    pub control: u8,
    pub start: usize,
    pub length: usize,
    pub fragment: &'a [u8],
}

pub fn kind(bytes: &[u8]) -> Kind {
    match judge(bytes) {
        Err(_) => Kind::default(),
        Ok(Pdu::Rq(rq)) => Kind { kind: 1, acceptable: rq.has_version_bit(), maximum: rq.user.maximum },
        Ok(Pdu::Ac(ac)) => Kind { kind: 2, acceptable: false, maximum: ac.user.maximum },
        Ok(pdu) => Kind { kind: pdu.kind(), acceptable: false, maximum: 0 },
    }
}

/// Reads an RQ into lent sheets.
pub fn read_rq(bytes: &[u8], sheet: &[u8], roles: &[u8]) -> Result<Filled, u8> {
    match judge(bytes) {
        Ok(Pdu::Rq(rq)) => fill(&rq, sheet, roles),
        _ => Err(7),
    }
}

/// Reads an AC into lent sheets.
pub fn read_ac(bytes: &[u8], sheet: &[u8], roles: &[u8]) -> Result<Filled, u8> {
    match judge(bytes) {
        Ok(Pdu::Ac(ac)) => fill(&ac, sheet, roles),
        _ => Err(7),
    }
}

/// 2 where either sheet is too short.
fn fill(read: &Associate, sheet: &[u8], roles: &[u8]) -> Result<Filled, u8> {
    let (filled, filled_roles) = sheets(read);
    let (after, roles_after) = (into_output(&filled, sheet)?, into_output(&filled_roles, roles)?);
    let (invoked, performed) = read.user.operations();
    let (class_at, class_length) = part_of_pdu(&read.user.class);
    let (version_name_at, version_name_length) = part_of_pdu(&read.user.version_name);
    let fields = Fields {
        version: read.version,
        application_at: read.application_at,
        application_length: read.application.len(),
        maximum: read.user.maximum,
        records: filled.len() / RECORD,
        class_at,
        class_length,
        version_name_at,
        version_name_length,
        invoked,
        performed,
        roles: read.user.roles.len(),
    };
    Ok((fields, after, roles_after))
}

/// The records that an RQ or AC puts into its two sheets.
fn sheets(read: &Associate) -> (Vec<u8>, Vec<u8>) {
    (read.contexts.iter().flat_map(records).collect(), read.user.roles.iter().flat_map(role_record).collect())
}

/// The room that an RQ or AC needs in its two sheets; None where it is invalid.
pub fn rooms(bytes: &[u8]) -> Option<(usize, usize)> {
    match judge(bytes) {
        Ok(Pdu::Rq(read)) | Ok(Pdu::Ac(read)) => {
            let (sheet, roles) = sheets(&read);
            Some((sheet.len(), roles.len()))
        }
        _ => None,
    }
}

/// Where a sub-item's body stands in the PDU and how long it is, 0 and 0 where there is none.
fn part_of_pdu(found: &Option<Item>) -> (usize, usize) {
    found.as_ref().map_or((0, 0), |sub_item| (sub_item.at, sub_item.body.len()))
}

/// The records of one context, one per transfer name.
fn records(context: &Context) -> Vec<u8> {
    context.transfers.iter().flat_map(|t| sheet_record(context.id, context.result, context.abstract_name, t)).collect()
}

/// One record of the sheet; unused bytes of its name fields are zero.
pub fn sheet_record(id: u8, result: u8, abstract_name: &[u8], transfer: &[u8]) -> Vec<u8> {
    let mut record = vec![id, result, abstract_name.len() as u8, transfer.len() as u8];
    record.extend_from_slice(abstract_name);
    record.resize(4 + 64, 0);
    record.extend_from_slice(transfer);
    record.resize(RECORD, 0);
    record
}

/// Reads an RJ: result, source, reason.
pub fn read_rj(bytes: &[u8]) -> Result<(u8, u8, u8), u8> {
    match judge(bytes) {
        Ok(Pdu::Rj { result, source, reason }) => Ok((result, source, reason)),
        _ => Err(7),
    }
}

/// Reads an ABORT: source, reason.
pub fn read_abort(bytes: &[u8]) -> Result<(u8, u8), u8> {
    match judge(bytes) {
        Ok(Pdu::Abort { source, reason }) => Ok((source, reason)),
        _ => Err(7),
    }
}

/// Reads a PDV by its number, from 0.
pub fn read_pdv(bytes: &[u8], number: u64) -> Result<Part<'_>, u8> {
    match judge(bytes) {
        Ok(Pdu::Data(pdvs)) if number < pdvs.len() as u64 => Ok(part(&pdvs[number as usize])),
        Ok(Pdu::Data(_)) => Err(4),
        _ => Err(7),
    }
}

/// The PDV item that stands at a place, by itself: its length, and the ID, control byte and fragment that this counts.
pub fn pdv_at(bytes: &[u8], place: u64) -> Result<Part<'_>, u8> {
    if place < 6 || place >= bytes.len() as u64 {
        return Err(4);
    }
    let place = place as usize;
    let (length, behind) = match &bytes[place..] {
        [a, b, c, d, behind @ ..] => (u32::from_be_bytes([*a, *b, *c, *d]), behind),
        _ => return Err(4),
    };
    match behind.get(..length as usize) {
        Some([id, control, fragment @ ..]) if id % 2 == 1 => {
            Ok(Part { id: *id, control: *control, start: place + 6, length: fragment.len(), fragment })
        }
        _ => Err(4),
    }
}

fn part<'a>(pdv: &Pdv<'a>) -> Part<'a> {
    Part { id: pdv.id, control: pdv.control, start: pdv.at, length: pdv.fragment.len(), fragment: pdv.fragment }
}
