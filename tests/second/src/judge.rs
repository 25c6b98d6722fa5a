//! The judge command: one direction of a recorded association, framed and read for people.

use crate::items::four_bytes;
use crate::user::User;
use crate::valid::{judge, Associate, Pdu, LIMIT};

const KINDS: [&str; 7] = ["RQ", "AC", "RJ", "P-DATA-TF", "RELEASE-RQ", "RELEASE-RP", "ABORT"];

/// One line per PDU; the stream stops at an over-length PDU, as the box would.
pub fn lines(stream: &[u8]) -> Vec<String> {
    let mut lines = Vec::new();
    let mut at = 0;
    while at < stream.len() {
        let rest = &stream[at..];
        let (line, used) = first_line(rest, at);
        lines.push(line);
        match used {
            Some(used) => at += used,
            None => break,
        }
    }
    lines
}

/// The line of the first PDU and its bytes, None when the stream ends with it.
fn first_line(bytes: &[u8], at: usize) -> (String, Option<usize>) {
    if bytes.len() < 6 {
        return (format!("{} part of a header, {} bytes", at, bytes.len()), None);
    }
    let length = four_bytes(&bytes[2..]);
    let head = format!("{} type {:02x} length {}", at, bytes[0], length);
    if length > LIMIT {
        return (format!("{} invalid: over-length, deaf to the {} bytes left", head, bytes.len() - 6), None);
    }
    let whole = 6 + length as usize;
    if bytes.len() < whole {
        return (format!("{} part of a PDU, {} of {} bytes", head, bytes.len(), whole), None);
    }
    let text = match judge(&bytes[..whole]) {
        Ok(pdu) => format!("{} {}{}", head, KINDS[pdu.kind() as usize - 1], fields(&pdu)),
        Err(fault) => format!("{} invalid: {}", head, fault),
    };
    (text, Some(whole))
}

fn fields(pdu: &Pdu) -> String {
    match pdu {
        Pdu::Rq(read) => format!("{}{}", associate(read), proposed(read)),
        Pdu::Ac(read) => format!("{}{}", associate(read), answered(read)),
        Pdu::Rj { result, source, reason } => format!(" result {} source {} reason {}", result, source, reason),
        Pdu::Abort { source, reason } => format!(" source {} reason {}", source, reason),
        Pdu::Data(pdvs) => pdvs
            .iter()
            .map(|pdv| format!(" pdv id {} control {} length {}", pdv.id, pdv.control, pdv.fragment.len()))
            .collect(),
        _ => String::new(),
    }
}

fn associate(read: &Associate) -> String {
    format!(
        " version {} called \"{}\" calling \"{}\" application {} maximum {}{}",
        read.version,
        text(read.called),
        text(read.calling),
        text(read.application),
        read.user.maximum,
        user(&read.user)
    )
}

/// What a 50H says beside the maximum length.
fn user(read: &User) -> String {
    let class = read.class.as_ref().map(|found| format!(" class {}", text(found.body)));
    let counts = read.counts.map(|(invoked, performed)| format!(" invoked {} performed {}", invoked, performed));
    let roles = read.roles.iter().map(|role| format!(" role {} {} {}", text(role.uid), role.scu, role.scp));
    let version_name = read.version_name.as_ref().map(|found| format!(" version name \"{}\"", text(found.body)));
    class.into_iter().chain(counts).chain(roles).chain(version_name).collect()
}

fn proposed(read: &Associate) -> String {
    let line = |c: &crate::valid::Context| {
        let transfers: Vec<String> = c.transfers.iter().map(|t| text(t)).collect();
        format!(" context {} abstract {} transfers {}", c.id, text(c.abstract_name), transfers.join(","))
    };
    read.contexts.iter().map(line).collect()
}

/// A refused context has no transfer name to show.
fn answered(read: &Associate) -> String {
    let line = |c: &crate::valid::Context| match c.result {
        0 => format!(" context {} result 0 transfer {}", c.id, text(c.transfers[0])),
        result => format!(" context {} result {}", c.id, result),
    };
    read.contexts.iter().map(line).collect()
}

/// Bytes as text, those outside 20H to 7EH in hex.
fn text(bytes: &[u8]) -> String {
    bytes
        .iter()
        .map(|b| if (0x20..=0x7e).contains(b) { (*b as char).to_string() } else { format!("<{:02x}>", b) })
        .collect()
}
