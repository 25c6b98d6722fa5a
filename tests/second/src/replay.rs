//! One call line in, one answer line out; a line of bad form is answered with `?`.

use crate::choose::choose;
use crate::fields::{kind, pdv_at, read_abort, read_ac, read_pdv, read_rj, read_rq, Fields, RECORD};
use crate::generate::hex;
use crate::machine::{local_event, receive, Answer, Lent, Record, Request};
use crate::names::{name_is_valid, title_is_valid, title_place, titles_equal};
use crate::user::Given;
use crate::write;

/// The longest byte string, and the longest gather buffer or output.
pub const STRING_LIMIT: u64 = 17_000;
/// The longest sheet, of contexts or of roles.
pub const SHEET_LIMIT: u64 = 66_000;
/// The longest line, without its newline.
pub const LINE_LIMIT: usize = 480_000;

/// What the last call was and did, for counting.
#[derive(Clone, Copy, Debug, Default)]
pub struct Last {
    pub refusal: u8,
    pub state_before: u8,
    pub answer: Answer,
    pub kind: u8,
    /// Which results, 0 to 4, an answer sheet of C holds.
    pub results: [bool; 5],
    /// Where T found the sought title.
    pub place: Option<usize>,
}

/// Keeps the memory lent from one machine call to the next.
pub struct Replay {
    pub lent: Lent,
    pub last: Last,
}

/// A digest of a whole buffer.
pub fn digest(bytes: &[u8]) -> u64 {
    bytes.iter().fold(1, |h, b| (h * 257 + *b as u64 + 1) % 4_294_967_291)
}

/// A fresh association with its buffers.
pub fn fresh() -> Lent {
    let record = Record { state: 1, ..Record::default() };
    Lent { record, gather: vec![0xa5; 16_390], output: vec![0x5a; 16_390] }
}

/// The words of a call line, taken one after the other.
struct Words<'a> {
    words: Vec<&'a str>,
    next: usize,
}

impl<'a> Words<'a> {
    fn word(&mut self) -> Option<&'a str> {
        self.next += 1;
        self.words.get(self.next - 1).copied().filter(|word| !word.is_empty())
    }

    /// A decimal number up to the limit.
    fn number(&mut self, limit: u64) -> Option<u64> {
        let word = self.word()?;
        if !word.bytes().all(|b| b.is_ascii_digit()) {
            return None;
        }
        word.parse().ok().filter(|number| *number <= limit)
    }

    fn byte(&mut self) -> Option<u8> {
        self.number(255).map(|n| n as u8)
    }

    /// A count of operations.
    fn count(&mut self) -> Option<u16> {
        self.number(u16::MAX as u64).map(|n| n as u16)
    }

    fn mark(&mut self) -> Option<bool> {
        self.number(1).map(|n| n == 1)
    }

    /// A byte string of lower-case hex, `-` for the empty one.
    fn bytes(&mut self, limit: u64) -> Option<Vec<u8>> {
        let word = self.word()?;
        if word == "-" {
            return Some(Vec::new());
        }
        let digits: Option<Vec<u8>> = word.bytes().map(hex_digit).collect();
        let digits = digits?;
        if digits.len() % 2 != 0 || digits.len() as u64 / 2 > limit {
            return None;
        }
        Some(digits.chunks(2).map(|pair| pair[0] * 16 + pair[1]).collect())
    }

    fn string(&mut self) -> Option<Vec<u8>> {
        self.bytes(STRING_LIMIT)
    }

    fn sheet(&mut self) -> Option<Vec<u8>> {
        self.bytes(SHEET_LIMIT)
    }

    /// CLASS VERSION_NAME INVOKED PERFORMED ROLES.
    fn user(&mut self) -> Option<Given> {
        Some(Given {
            class: self.string()?,
            version_name: self.string()?,
            invoked: self.count()?,
            performed: self.count()?,
            roles: self.sheet()?,
        })
    }

    /// A buffer of so many equal bytes.
    fn buffer(&mut self, limit: u64, filler: u8) -> Option<Vec<u8>> {
        self.number(limit).map(|n| vec![filler; n as usize])
    }

    /// Nothing more may stand on the line.
    fn end(&self) -> Option<()> {
        if self.next == self.words.len() {
            Some(())
        } else {
            None
        }
    }
}

fn hex_digit(byte: u8) -> Option<u8> {
    match byte {
        b'0'..=b'9' => Some(byte - b'0'),
        b'a'..=b'f' => Some(byte - b'a' + 10),
        _ => None,
    }
}

impl Replay {
    pub fn new() -> Replay {
        Replay { lent: fresh(), last: Last::default() }
    }

    /// Answers one line, given without its newline.
    pub fn answer(&mut self, line: &str) -> String {
        self.call(line).unwrap_or_else(|| "?".to_string())
    }

    fn call(&mut self, line: &str) -> Option<String> {
        self.last = Last::default();
        if line.len() > LINE_LIMIT {
            return None;
        }
        let mut words = Words { words: line.split(' ').collect(), next: 0 };
        match words.word()? {
            "r" => self.receiving(&mut words),
            "e" => self.numbered(&mut words),
            "c" => self.confirmation(&mut words),
            "a" => self.accept(&mut words),
            "j" => self.reject(&mut words),
            "d" => self.data(&mut words),
            "K" | "Q" | "A" | "J" | "B" | "D" | "P" => self.reading(&mut words),
            "C" => self.choosing(&mut words),
            "T" | "N" | "V" | "E" => self.names(&mut words),
            "1" | "2" | "3" | "4" | "5" | "6" | "7" => self.writing(&mut words),
            _ => None,
        }
    }

    /// RECORD: `=`, or nine words.
    fn record(&self, words: &mut Words) -> Option<Lent> {
        if words.words.get(words.next) == Some(&"=") {
            words.next += 1;
            return Some(self.lent.clone());
        }
        let record = Record {
            state: words.byte()?,
            gathered: words.number(u64::MAX)?,
            deaf: words.mark()?,
            artim: words.mark()?,
            requestor: words.mark()?,
            peer_maximum: words.number(u32::MAX as u64)? as u32,
        };
        let mut gather = words.buffer(STRING_LIMIT, 0xa5)?;
        let first = words.bytes(gather.len() as u64)?;
        gather[..first.len()].copy_from_slice(&first);
        let output = words.buffer(STRING_LIMIT, 0x5a)?;
        Some(Lent { record, gather, output })
    }

    /// Keeps what a machine call left, and writes its answer.
    fn machine_answer(&mut self, before: &Lent, done: (Answer, Lent)) -> Option<String> {
        let (answer, lent) = done;
        self.last = Last { refusal: answer.refusal, state_before: before.record.state, answer, ..Last::default() };
        self.lent = lent;
        let r = &self.lent.record;
        Some(format!(
            "{} {} {} {} {} {} {} {} {} {} {} {} {}",
            answer.refusal,
            answer.action,
            answer.used,
            answer.sent,
            answer.shown,
            r.state,
            r.gathered,
            r.deaf as u8,
            r.artim as u8,
            r.requestor as u8,
            r.peer_maximum,
            digest(&self.lent.gather),
            digest(&self.lent.output)
        ))
    }

    fn receiving(&mut self, words: &mut Words) -> Option<String> {
        let lent = self.record(words)?;
        let piece = words.string()?;
        words.end()?;
        self.machine_answer(&lent, receive(&lent, &piece))
    }

    fn event(&mut self, lent: &Lent, request: &Request) -> Option<String> {
        self.machine_answer(lent, local_event(lent, request))
    }

    fn numbered(&mut self, words: &mut Words) -> Option<String> {
        let lent = self.record(words)?;
        let number = words.byte()?;
        words.end()?;
        self.event(&lent, &Request::Number(number))
    }

    fn confirmation(&mut self, words: &mut Words) -> Option<String> {
        let lent = self.record(words)?;
        let (called, calling, application) = (words.string()?, words.string()?, words.string()?);
        let (user, sheet) = (words.user()?, words.sheet()?);
        words.end()?;
        let (called, calling, application, user, sheet) = (&called, &calling, &application, &user, &sheet);
        self.event(&lent, &Request::Confirmation { called, calling, application, user, sheet })
    }

    fn accept(&mut self, words: &mut Words) -> Option<String> {
        let lent = self.record(words)?;
        let (echoed, application) = (words.string()?, words.string()?);
        let (user, sheet) = (words.user()?, words.sheet()?);
        words.end()?;
        let (echoed, application, user, sheet) = (&echoed, &application, &user, &sheet);
        self.event(&lent, &Request::Accept { echoed, application, user, sheet })
    }

    fn reject(&mut self, words: &mut Words) -> Option<String> {
        let lent = self.record(words)?;
        let (result, source, reason) = (words.byte()?, words.byte()?, words.byte()?);
        words.end()?;
        self.event(&lent, &Request::Reject { result, source, reason })
    }

    fn data(&mut self, words: &mut Words) -> Option<String> {
        let lent = self.record(words)?;
        let items = words.string()?;
        words.end()?;
        self.event(&lent, &Request::Data { items: &items })
    }

    fn reading(&mut self, words: &mut Words) -> Option<String> {
        let call = words.words[0];
        let pdu = words.string()?;
        match call {
            "Q" | "A" => self.associate_fields(call, &pdu, words),
            "D" => self.pdv(&pdu, words),
            "P" => self.placed(&pdu, words),
            _ => {
                words.end()?;
                Some(self.small_fields(call, &pdu))
            }
        }
    }

    fn associate_fields(&mut self, call: &str, pdu: &[u8], words: &mut Words) -> Option<String> {
        let lent = (words.buffer(SHEET_LIMIT, 0xc3)?, words.buffer(SHEET_LIMIT, 0xc3)?);
        words.end()?;
        let read = if call == "Q" { read_rq(pdu, &lent.0, &lent.1) } else { read_ac(pdu, &lent.0, &lent.1) };
        let (refusal, (fields, sheet, roles)) = match read {
            Ok(filled) => (0, filled),
            Err(refusal) => (refusal, (Fields::default(), lent.0, lent.1)),
        };
        self.last.refusal = refusal;
        Some(format!(
            "{} {} {} {} {} {} {} {} {} {} {} {} {} {} {}",
            refusal,
            fields.version,
            fields.application_at,
            fields.application_length,
            fields.maximum,
            fields.records,
            fields.class_at,
            fields.class_length,
            fields.version_name_at,
            fields.version_name_length,
            fields.invoked,
            fields.performed,
            fields.roles,
            digest(&sheet),
            digest(&roles)
        ))
    }

    fn pdv(&mut self, pdu: &[u8], words: &mut Words) -> Option<String> {
        let number = words.number(u64::MAX)?;
        words.end()?;
        Some(match read_pdv(pdu, number) {
            Ok(part) => {
                format!("0 {} {} {} {} {}", part.id, part.control, part.start, part.length, hex(part.fragment))
            }
            Err(refusal) => {
                self.last.refusal = refusal;
                format!("{} 0 0 0 0 -", refusal)
            }
        })
    }

    fn placed(&mut self, pdu: &[u8], words: &mut Words) -> Option<String> {
        let place = words.number(u64::MAX)?;
        words.end()?;
        Some(match pdv_at(pdu, place) {
            Ok(part) => format!("0 {} {} {} {}", part.id, part.control, part.start, part.length),
            Err(refusal) => self.refused(refusal, " 0 0 0 0"),
        })
    }

    fn small_fields(&mut self, call: &str, pdu: &[u8]) -> String {
        match call {
            "J" => match read_rj(pdu) {
                Ok((result, source, reason)) => format!("0 {} {} {}", result, source, reason),
                Err(refusal) => self.refused(refusal, " 0 0 0"),
            },
            "B" => match read_abort(pdu) {
                Ok((source, reason)) => format!("0 {} {}", source, reason),
                Err(refusal) => self.refused(refusal, " 0 0"),
            },
            _ => {
                let found = kind(pdu);
                self.last.kind = found.kind;
                format!("{} {} {}", found.kind, found.acceptable as u8, found.maximum)
            }
        }
    }

    fn choosing(&mut self, words: &mut Words) -> Option<String> {
        let (proposal, site) = (words.sheet()?, words.sheet()?);
        let lent = words.buffer(SHEET_LIMIT, 0xc3)?;
        words.end()?;
        Some(match choose(&proposal, &site, &lent) {
            Ok((records, sheet)) => {
                for record in sheet.chunks(RECORD).take(records) {
                    self.last.results[record[1] as usize] = true;
                }
                format!("0 {} {}", records, digest(&sheet))
            }
            Err(refusal) => {
                self.last.refusal = refusal;
                format!("{} 0 {}", refusal, digest(&lent))
            }
        })
    }

    fn refused(&mut self, refusal: u8, zeros: &str) -> String {
        self.last.refusal = refusal;
        format!("{}{}", refusal, zeros)
    }

    fn names(&mut self, words: &mut Words) -> Option<String> {
        let call = words.words[0];
        let first = words.string()?;
        let second = if call == "T" || call == "E" { words.string()? } else { Vec::new() };
        words.end()?;
        Some(match call {
            "T" => match title_place(&first, &second) {
                Ok(place) => {
                    self.last.place = place;
                    format!("0 {} {}", place.is_some() as u8, place.unwrap_or(0))
                }
                Err(refusal) => self.refused(refusal, " 0 0"),
            },
            "N" => (name_is_valid(&first) as u8).to_string(),
            "V" => (title_is_valid(&first) as u8).to_string(),
            _ => (titles_equal(&first, &second) as u8).to_string(),
        })
    }

    fn writing(&mut self, words: &mut Words) -> Option<String> {
        let written = written(words)?;
        let output = words.buffer(STRING_LIMIT, 0x5a)?;
        words.end()?;
        let put = written.and_then(|sent| write::into_output(&sent, &output).map(|after| (sent.len(), after)));
        Some(match put {
            Ok((sent, after)) => format!("0 {} {}", sent, digest(&after)),
            Err(refusal) => {
                self.last.refusal = refusal;
                format!("{} 0 {}", refusal, digest(&output))
            }
        })
    }
}

/// The PDU of a writing call, or its refusal 4 or 5; None for bad form.
fn written(words: &mut Words) -> Option<Result<Vec<u8>, u8>> {
    Some(match words.words[0] {
        "1" => {
            let (called, calling, application) = (words.string()?, words.string()?, words.string()?);
            let (user, sheet) = (words.user()?, words.sheet()?);
            write::rq(&called, &calling, &application, &user, &sheet)
        }
        "2" => {
            let (echoed, application) = (words.string()?, words.string()?);
            let (user, sheet) = (words.user()?, words.sheet()?);
            write::ac(&echoed, &application, &user, &sheet)
        }
        "3" => {
            let (result, source, reason) = (words.byte()?, words.byte()?, words.byte()?);
            write::rj(result, source, reason)
        }
        "4" => write::data(&words.string()?, 0),
        "5" => Ok(write::release_rq()),
        "6" => Ok(write::release_rp()),
        _ => {
            let (source, reason) = (words.byte()?, words.byte()?);
            write::abort(source, reason)
        }
    })
}
