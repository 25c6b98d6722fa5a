//! PDUs for the generator: valid, invalid and near a rule, made from plans and twists.

use crate::items::four_bytes;
use crate::make::{framed_with_slip, good_data, good_plan, good_short, Plan, ShortPlan};
use crate::marks::Marks;
use crate::random::Random;
use crate::refused::FAULTS;
use crate::subitems::{Inner, SUB_ITEMS};
use crate::twists::Expect::{Either, Inside, Outside};
use crate::twists::{seldom_used, Expect, Twist, ABORT, AC, BOTH, CONTROL_BITS, DATA, RJ, RQ, SHORT};
use crate::valid::judge;

/// Applies one twist, of the wanted expectation if one is given, and marks its name.
fn twist<P>(plan: &mut P, lists: &[&[Twist<P>]], want: Option<Expect>, random: &mut Random, marks: &mut Marks) {
    let fitting: Vec<&Twist<P>> = lists.iter().flat_map(|list| list.iter()).filter(|t| t.fits(want)).collect();
    if let Some(chosen) = seldom_used(&fitting, "twist", random, marks) {
        (chosen.edit)(plan, random);
    }
}

/// The same in a plan's 50H, counted with the calls that are about it.
fn twist_user(plan: &mut Plan, want: Option<Expect>, random: &mut Random, marks: &mut Marks) {
    let fitting: Vec<&Twist<Inner>> = SUB_ITEMS.iter().filter(|t| t.fits(want)).collect();
    if let Some(chosen) = seldom_used(&fitting, "user", random, marks) {
        plan.with_item(0x50, |user| (chosen.edit)(&mut user.inner, random));
    }
}

/// A PDU of a type (outside 1..7 an unknown one) with twists of the wanted expectations.
fn twisted(kind: u8, wants: &[Option<Expect>], random: &mut Random, marks: &mut Marks) -> Vec<u8> {
    match kind {
        1 | 2 => {
            let mut plan = good_plan(kind, random);
            let lists: &[&[Twist<Plan>]] = if kind == 1 { &[BOTH, RQ] } else { &[BOTH, AC, FAULTS] };
            for want in wants {
                if random.chance(25) {
                    twist_user(&mut plan, *want, random, marks);
                } else {
                    twist(&mut plan, lists, *want, random, marks);
                }
            }
            plan.bytes()
        }
        4 => {
            let mut plan = good_data(random);
            for want in wants {
                twist(&mut plan, &[DATA, CONTROL_BITS], *want, random, marks);
            }
            plan.bytes()
        }
        3 | 5 | 6 | 7 => {
            let mut plan = good_short(kind, random);
            let own: &[Twist<ShortPlan>] = match kind {
                3 => RJ,
                7 => ABORT,
                _ => &[],
            };
            for want in wants {
                twist(&mut plan, &[SHORT, own], *want, random, marks);
            }
            plan.bytes()
        }
        _ => unknown_pdu(random, marks),
    }
}

/// Gives an AC with refused contexts one fault, mostly of those that concern them.
pub fn faulty(plan: &mut Plan, random: &mut Random, marks: &mut Marks) {
    let lists: &[&[Twist<Plan>]] = if random.chance(80) { &[FAULTS] } else { &[BOTH, AC] };
    twist(plan, lists, Some(Outside), random, marks);
}

/// A PDU of a type outside 1..7.
pub fn unknown_pdu(random: &mut Random, marks: &mut Marks) -> Vec<u8> {
    marks.add("pdu: unknown type");
    let kind = random.pick(&[0, 8, 9, 0x10, 0x81, 0x87, 0xff]);
    let length = random.pick(&[0, 1, 4, 6, 12]);
    framed_with_slip(kind, random.byte(), &random.bytes(length), 0)
}

/// A header with a PDU-length above 16,384.
pub fn over_length_header(random: &mut Random, marks: &mut Marks) -> Vec<u8> {
    marks.add("pdu: over-length header");
    let kind = random.pick(&[1, 2, 3, 4, 5, 6, 7, 0, 8, 255]);
    let length: u32 = random.pick(&[16_385, 16_386, 32_768, 65_535, 65_540, 0x0100_0004, 0x8000_0000, 0xffff_ffff]);
    let mut bytes = vec![kind, random.byte()];
    bytes.extend_from_slice(&length.to_be_bytes());
    bytes
}

/// A valid PDU of a type from 1 to 7.
pub fn valid_pdu(kind: u8, random: &mut Random, marks: &mut Marks) -> Vec<u8> {
    let count = random.pick(&[0, 0, 1, 1, 2]);
    twisted(kind, &vec![Some(Inside); count], random, marks)
}

/// An RQ with version bit 0, or without it.
pub fn rq_with_version(version: u16, random: &mut Random, marks: &mut Marks) -> Vec<u8> {
    let mut bytes = valid_pdu(1, random, marks);
    bytes[6..8].copy_from_slice(&version.to_be_bytes());
    bytes
}

/// An RQ that has no version bit 0 and breaks another rule too.
pub fn invalid_rq_without_bit(random: &mut Random, marks: &mut Marks) -> Vec<u8> {
    loop {
        let place = marks.place();
        let mut bytes = twisted(1, &[Some(Outside)], random, marks);
        if is_framed(&bytes) && bytes.len() >= 8 {
            bytes[6..8].copy_from_slice(&[0, 2]);
            if judge(&bytes).is_err() {
                return bytes;
            }
        }
        marks.take_back(place);
    }
}

/// Whether bytes are as long as their header says, within the limit.
pub fn is_framed(bytes: &[u8]) -> bool {
    bytes.len() >= 6 && four_bytes(&bytes[2..]) <= 16_384 && bytes.len() as u64 == 6 + four_bytes(&bytes[2..])
}

/// A framed PDU that isn't valid.
pub fn invalid_pdu(random: &mut Random, marks: &mut Marks) -> Vec<u8> {
    loop {
        let kind = random.pick(&[1, 1, 1, 2, 2, 2, 3, 4, 4, 5, 6, 7, 8]);
        let place = marks.place();
        let bytes = twisted(kind, &[Some(Outside)], random, marks);
        if is_framed(&bytes) && judge(&bytes).is_err() {
            return bytes;
        }
        marks.take_back(place);
    }
}

/// Bytes near a PDU of a type: valid, twisted, or with single bytes changed.
pub fn some_pdu(kind: u8, random: &mut Random, marks: &mut Marks) -> Vec<u8> {
    match random.below(11) {
        0 | 1 => valid_pdu(kind, random, marks),
        2 | 3 => twisted(kind, &[Some(Inside), Some(Inside)], random, marks),
        4..=6 => twisted(kind, &[Some(Outside)], random, marks),
        7 => twisted(kind, &[Some(Inside), Some(Outside)], random, marks),
        8 => twisted(kind, &[None], random, marks),
        9 => twisted(kind, &[Some(Either)], random, marks),
        _ => {
            let mut bytes = valid_pdu(kind, random, marks);
            mutate(&mut bytes, random, marks);
            bytes
        }
    }
}

/// Changes single bytes, or the length of the whole.
fn mutate(bytes: &mut Vec<u8>, random: &mut Random, marks: &mut Marks) {
    let place = random.below(bytes.len());
    let name = match random.below(7) {
        0 => {
            bytes[place] = random.byte();
            "mutation: any byte"
        }
        1 => {
            bytes[place] = bytes[place].wrapping_add(random.pick(&[1, 255]));
            "mutation: byte one off"
        }
        2 => {
            bytes[place] ^= 1 << random.below(8);
            "mutation: one bit"
        }
        3 => {
            bytes.truncate(place);
            "mutation: cut short"
        }
        4 => {
            bytes.push(random.byte());
            "mutation: one byte behind"
        }
        5 => {
            bytes.remove(place);
            set_length(bytes);
            "mutation: byte taken out, PDU-length right"
        }
        _ => {
            bytes.insert(place, random.byte());
            set_length(bytes);
            "mutation: byte put in, PDU-length right"
        }
    };
    marks.add(name);
}

/// Sets the PDU-length to what the bytes have.
pub fn set_length(bytes: &mut [u8]) {
    if bytes.len() >= 6 {
        let length = (bytes.len() - 6) as u32;
        bytes[2..6].copy_from_slice(&length.to_be_bytes());
    }
}
