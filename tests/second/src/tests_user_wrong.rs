//! Wrong rules of the user information, each of which must show among the generated calls, in an RQ and in an AC.

use crate::generate::{hex, Call, Generator};
use crate::tests::bytes_of;
use crate::user::Given;
use crate::wrong_reading::{is_valid, kind_answer, number, read_answer, RECEIVED_REPEATS};
use crate::wrong_sending::{sent_answer, Contents, SENT_REPEATS};

/// Rules of what is valid, each as it would be wrong; those of repeated UIDs are with the reading.
static JUDGING: &[&str] = &[
    // 52H.
    "a second 52H is taken, the first counts",
    "a second 52H is taken, the last counts",
    "an equal second 52H is taken",
    "an empty 52H is taken",
    "a 52H of 65 bytes is taken",
    "a 52H of 64 bytes is refused",
    "a 52H with a NUL behind is taken",
    "a 52H of any bytes is taken",
    "an absent 52H is refused",
    "a malformed 52H is skipped",
    // 53H.
    "a second 53H is taken, the first counts",
    "a second 53H is taken, the last counts",
    "an equal second 53H is taken",
    "a 53H of length 0 is taken",
    "a 53H of length 1 is taken",
    "a 53H of length 2 is taken",
    "a 53H of length 3 is taken",
    "a 53H of length 5 is taken",
    "a 53H of length 6 is taken",
    "a 53H of length 8 is taken",
    "a 53H of 0 and 0 is refused",
    "a 53H of 1 and 1 is refused",
    "an absent 53H is refused",
    "a malformed 53H is skipped",
    // 54H.
    "a 54H whose UID runs past it is taken",
    "a 54H not filled is taken",
    "a byte behind the roles is taken",
    "the UID's length is not looked at",
    "the UID's length is its low byte",
    "the UID's length has its low byte first",
    "roles beyond the 54H are taken",
    "a 54H may run into what follows",
    "one role is enough",
    "no role is enough",
    "SCU role 2 is taken",
    "SCP role 2 is taken",
    "any SCU role is taken",
    "any SCP role is taken",
    "roles 0 and 0 are refused",
    "roles 1 and 1 are refused",
    "a 54H with an empty UID is taken",
    "a 54H with a UID of 65 bytes is taken",
    "a 54H with a UID of 64 bytes is refused",
    "a 54H with a NUL counted in its UID is taken",
    "a 54H with any UID is taken",
    "an absent 54H is refused",
    "a malformed 54H is skipped",
    "two 54H are refused",
    "UIDs other in their first byte are equal",
    "UIDs other in their last byte are equal",
    "UIDs other in length are equal",
    "UIDs of one length are equal",
    "the class UID counts as a UID",
    // 55H.
    "a second 55H is taken, the first counts",
    "a second 55H is taken, the last counts",
    "an equal second 55H is taken",
    "an empty 55H is taken",
    "a 55H of 17 is taken",
    "a 55H of any length is taken",
    "a 55H of 16 is refused",
    "a 55H of 1 is refused",
    "a 55H with 5CH is taken",
    "a 55H with 7FH is taken",
    "a 55H with 1FH is taken",
    "a 55H with bytes above 7FH is taken",
    "a 55H with a NUL behind is taken",
    "a 55H of spaces is refused",
    "a 55H of 16 spaces is refused",
    "a 55H with a space first is refused",
    "a 55H's first byte is not tested",
    "a 55H's last byte is not tested",
    "an absent 55H is refused",
    "a malformed 55H is skipped",
    // Where they stand.
    "56H to 59H are refused",
    "56H to 59H are tested as 52H to 55H",
    "other types may come once",
    "types are told by their low seven bits",
    "types are told by their low four bits",
    "sub-items must rise",
    "51H must come first",
    "51H may be left out",
    "reserved bytes are tested",
    "a 52H at the top is tested",
    "a 53H at the top is tested",
    "a 54H at the top is tested",
    "a 55H at the top is tested",
    "the four kinds are counted at the top too",
    "the four kinds are tested in a context",
];

/// Those that are about one of the two PDUs.
static JUDGING_IN_ONE: &[&str] = &[
    "a 52H in an RQ is not tested",
    "a 53H in an RQ is not tested",
    "a 54H in an RQ is not tested",
    "a 55H in an RQ is not tested",
    "a 52H in an AC is not tested",
    "a 53H in an AC is not tested",
    "a 54H in an AC is not tested",
    "a 55H in an AC is not tested",
];

/// Rules of what is read from a valid PDU.
static READING: &[&str] = &[
    "an absent 53H reads as 0 and 0",
    "the counts are exchanged on reading",
    "the counts have their low byte first on reading",
    "invoked is given twice on reading",
    "a class UID's place is one too high",
    "a class UID's place is one too low",
    "a class UID's place is its header's",
    "a class UID's place counts from the 50H",
    "a class UID's place counts behind the PDU's header",
    "a place is given for an absent class UID",
    "a class UID's length takes in its header",
    "a version name's place is one too high",
    "a version name's place is its header's",
    "a place is given for an absent version name",
    "a version name is read without its outer spaces",
    "class UID and version name are exchanged on reading",
    "a class UID is read from the top",
    "a version name is read from the top",
    "counts are read from the top",
    "roles are read from the top",
    "the roles are exchanged on reading",
    "the SCU role is given twice on reading",
    "a UID's length is written in two bytes on reading",
    "unused bytes stay as they were",
    "the fourth byte stays as it was",
    "the last role is dropped on reading",
    "the first role is dropped on reading",
    "roles are read from the last to the first",
    "roles are sorted on reading",
    "roles are counted in a byte",
    "roles are counted in bytes",
    "the context sheet is filled though the role sheet is short",
    "the role sheet is filled though the context sheet is short",
    "a short role sheet is filled as far as it goes",
    "a short role sheet is not refused, nothing is written there",
    "a role needs a context's room",
    "the role sheet must be longer than it needs",
    "the context sheet must be longer than it needs",
    "the role sheet may be a byte short",
    "the rooms are added",
    "the rest of the role sheet is cleared",
    "2 before 7, by the contexts",
    "2 before 7, by the roles",
    "the fields are given though refused with 2",
    "counts 1 and 1 are given where refused",
];

/// Rules of what is sent; those of repeated UIDs are with the sending.
static SENDING: &[&str] = &[
    // What is refused.
    "an empty class UID is sent as no 52H",
    "an empty class UID is sent as an empty 52H",
    "any class UID is taken",
    "a class UID of 65 bytes is taken",
    "a class UID with a NUL behind is taken",
    "a version name of 17 is taken",
    "a version name is cut to 16",
    "a version name of 16 is refused",
    "a version name's length is counted in a byte",
    "an empty version name is refused",
    "a version name of spaces is refused",
    "a version name of 16 spaces is refused",
    "a version name with 5CH is taken",
    "a version name with 7FH is taken",
    "a version name with 1FH is taken",
    "a version name with bytes above 7FH is taken",
    "a version name with a NUL behind is taken",
    "a version name's first byte is not tested",
    "a version name's last byte is not tested",
    "counts of 0 are refused",
    "an empty role sheet is refused",
    "a part record is left out",
    "a part record alone is left out",
    "a role sheet is tested for part contexts",
    "SCU role 2 is sent",
    "SCP role 2 is sent",
    "any role is sent",
    "a role above 1 is sent as 1",
    "roles 0 and 0 are not sent",
    "the fourth byte is not tested",
    "the first unused byte is not tested",
    "the last unused byte is not tested",
    "unused bytes are not tested",
    "a UID of length 0 is sent",
    "a record of zeros is left out",
    "a UID length above 64 is cut to 64",
    "any UID is sent",
    "equal records are sent once",
    "UIDs of a sheet other in their last byte are equal",
    "UIDs of a sheet other in length are equal",
    "the class UID counts as a UID of the sheet",
    // The order of refusals.
    "5 before 4",
    "2 before 4",
    "2 before 5",
    "roles are not measured",
    "a PDU-length of 16,384 is too long",
    "a PDU-length of 16,385 is sent",
    "room for the header is not asked",
    "a byte more room is asked",
    // The form.
    "53H is sent for 1 and 1",
    "53H is left out",
    "53H is left out for 0 and 0",
    "53H is left out where 1 is invoked",
    "53H is left out where 1 is performed",
    "53H is left out for equal counts",
    "the counts are exchanged on writing",
    "the counts have their low byte first on writing",
    "52H behind 53H",
    "52H before 51H",
    "54Hs before 53H",
    "55H before the 54Hs",
    "55H before 53H",
    "54Hs sorted",
    "54Hs from the last to the first",
    "the last role is not sent",
    "the first role is not sent",
    "the roles are exchanged on writing",
    "the SCU role is sent twice",
    "a UID's length is sent in one byte",
    "a UID's length is sent low byte first",
    "a UID is sent with an even length",
    "a 54H's length takes in its header",
    "an empty version name is sent as an empty 55H",
    "a version name is sent without its outer spaces",
    "a version name is sent with 16 characters",
    "a class UID is sent with an even length",
];

/// Those that are about one of the two PDUs.
static SENDING_IN_ONE: &[&str] = &[
    "52H is not sent in an AC",
    "53H is not sent in an AC",
    "54H is not sent in an AC",
    "55H is not sent in an AC",
    "the class UID of an AC is not tested",
    "the version name of an AC is not tested",
    "the role sheet of an AC is not tested",
    "the class UID of an RQ is not tested",
    "the version name of an RQ is not tested",
    "the role sheet of an RQ is not tested",
    "an AC is never too long",
];

// Generated calls taken apart.

enum Case {
    Kind(Vec<u8>),
    Read(u8, Vec<u8>, (usize, usize)),
    Received(Vec<u8>),
    Sent(Contents, usize),
}

impl Case {
    /// 1 for an RQ, 2 for an AC.
    fn kind(&self) -> u8 {
        match self {
            Case::Kind(pdu) | Case::Received(pdu) => pdu[0],
            Case::Read(asked, _, _) => *asked,
            Case::Sent(contents, _) => contents.kind,
        }
    }

    /// What is answered, with one rule wrong.
    fn answer(&self, wrong: &str) -> String {
        match self {
            Case::Kind(pdu) => kind_answer(pdu, wrong),
            Case::Read(asked, pdu, rooms) => read_answer(*asked, pdu, *rooms, wrong),
            Case::Received(pdu) => is_valid(pdu, wrong).to_string(),
            Case::Sent(contents, room) => sent_answer(contents, *room, wrong),
        }
    }
}

fn number_of(word: &str) -> usize {
    word.parse().unwrap_or(usize::MAX)
}

/// The PDU that a receiving call with nine words ends, if it is an RQ or AC of known bytes.
pub fn received(words: &[&str]) -> Option<Vec<u8>> {
    let (gathered, before) = (number_of(words[2]), bytes_of(words[8]));
    let bytes = [before.get(..gathered)?, &bytes_of(words[10])].concat();
    let whole = 6 + number(bytes.get(2..6)?);
    let pdu = bytes.get(..whole)?;
    Some(pdu.to_vec()).filter(|pdu| pdu[0] == 1 || pdu[0] == 2)
}

/// The contents in the words of a call, from a place on.
pub fn contents_of(kind: u8, words: &[&str]) -> Contents {
    let more = if kind == 1 { bytes_of(words[1]) } else { Vec::new() };
    let rest = if kind == 1 { &words[2..] } else { &words[1..] };
    let user = Given {
        class: bytes_of(rest[1]),
        version_name: bytes_of(rest[2]),
        invoked: rest[3].parse().unwrap(),
        performed: rest[4].parse().unwrap(),
        roles: bytes_of(rest[5]),
    };
    Contents {
        kind,
        middle: [bytes_of(words[0]), more],
        application: bytes_of(rest[0]),
        user,
        sheet: bytes_of(rest[6]),
    }
}

/// A generated call about an RQ or AC, and what the program answered to it.
fn case_of(call: &Call) -> Option<(Case, String)> {
    let words: Vec<&str> = call.line.split(' ').collect();
    let whole = call.answer.clone();
    let answered = |places: [usize; 3]| {
        let found: Vec<&str> = whole.split(' ').collect();
        places.map(|place| found[place]).join(" ")
    };
    if whole == "?" || words.get(1) == Some(&"=") {
        return None;
    }
    match words[0] {
        "K" => {
            let pdu = bytes_of(words[1]);
            let about = pdu.first().is_some_and(|kind| [1, 2].contains(kind));
            Some((Case::Kind(pdu), whole)).filter(|_| about)
        }
        "Q" | "A" => {
            let asked = if words[0] == "Q" { 1 } else { 2 };
            Some((Case::Read(asked, bytes_of(words[1]), (number_of(words[2]), number_of(words[3]))), whole))
        }
        "r" if call.last.refusal == 0 && call.last.answer.event != 0 => {
            let event = call.last.answer.event;
            received(&words).map(|pdu| (Case::Received(pdu), (event != 19).to_string()))
        }
        "1" => Some((Case::Sent(contents_of(1, &words[1..]), number_of(words[10])), whole)),
        "2" => Some((Case::Sent(contents_of(2, &words[1..]), number_of(words[9])), whole)),
        "c" | "a" if [0, 2, 4, 5].contains(&call.last.refusal) => {
            let kind = if words[0] == "c" { 1 } else { 2 };
            let case = Case::Sent(contents_of(kind, &words[10..]), number_of(words[9]));
            Some((case, answered([0, 3, 12])))
        }
        _ => None,
    }
}

/// The calls about an RQ or AC among so many.
fn generated(seed: u64, count: usize) -> Vec<(Case, String)> {
    let mut generator = Generator::new(seed);
    (0..count).filter_map(|_| case_of(&generator.next())).collect()
}

#[test]
fn generated_calls_judged_from_their_bytes() {
    for seed in [2, 1, 8, 31] {
        let cases = generated(seed, 6_000);
        assert!(cases.len() > 1_500, "{}", cases.len());
        for (case, answered) in &cases {
            let pdu = match case {
                Case::Kind(pdu) | Case::Received(pdu) | Case::Read(_, pdu, _) => pdu,
                Case::Sent(contents, _) => &contents.user.roles,
            };
            assert_eq!(case.answer(""), *answered, "seed {}: {}", seed, hex(pdu));
        }
    }
}

/// Whether a wrong rule shows in a call about this PDU, by a case of these sorts.
fn shows(cases: &[(Case, String)], kind: u8, wrong: &str) -> bool {
    cases.iter().any(|(case, answered)| case.kind() == kind && case.answer(wrong) != *answered)
}

#[test]
fn every_wrong_rule_is_seen() {
    let mut missed = Vec::new();
    for seed in [2, 1, 8] {
        let cases = generated(seed, 6_000);
        for wrong in JUDGING.iter().chain(READING).chain(SENDING).chain(&RECEIVED_REPEATS).chain(&SENT_REPEATS) {
            for kind in [1, 2] {
                if !shows(&cases, kind, wrong) {
                    missed.push(format!("seed {}, {}: {}", seed, if kind == 1 { "RQ" } else { "AC" }, wrong));
                }
            }
        }
        for wrong in JUDGING_IN_ONE.iter().chain(SENDING_IN_ONE) {
            let kind = if wrong.contains("an RQ") { 1 } else { 2 };
            if !shows(&cases, kind, wrong) {
                missed.push(format!("seed {}: {}", seed, wrong));
            }
        }
    }
    assert!(missed.is_empty(), "{:#?}", missed);
}
