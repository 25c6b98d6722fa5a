//! Choosing: the answer sheet to a proposal, by what the site likes best (request E1 of document 02, mended by E2).

use crate::fields::sheet_record;
use crate::write::{into_output, is_proposed, runs, sheet_records, Record};

/// Answers a proposal: how many contexts it has, and the lent sheet as it is afterwards. 4 for a bad sheet, then 2.
pub fn choose(proposal: &[u8], site: &[u8], lent: &[u8]) -> Result<(usize, Vec<u8>), u8> {
    let contexts = runs(sheet_records(proposal)?)?;
    let liked = site_records(site)?;
    let answers: Vec<u8> = contexts.iter().flat_map(|context| answer(context, &liked)).collect();
    let after = into_output(&answers, lent)?;
    Ok((contexts.len(), after))
}

/// The site's records, best liked first: ID and result 0, names as in a proposal.
fn site_records(site: &[u8]) -> Result<Vec<Record<'_>>, u8> {
    let records = sheet_records(site)?;
    if records.iter().all(|record| record.id == 0 && is_proposed(record)) {
        Ok(records)
    } else {
        Err(4)
    }
}

/// The record that answers one context: the first site record with its abstract name and one of its transfer names.
/// A refused one carries no transfer name.
fn answer(context: &[Record], liked: &[Record]) -> Vec<u8> {
    let asked = &context[0];
    let named: Vec<&Record> = liked.iter().filter(|like| like.abstract_name == asked.abstract_name).collect();
    let first = named.iter().find(|like| context.iter().any(|record| record.transfer == like.transfer));
    let (result, transfer) = match first {
        Some(like) => (0, like.transfer),
        None if named.is_empty() => (3, &b""[..]),
        None => (4, &b""[..]),
    };
    sheet_record(asked.id, result, b"", transfer)
}
