//! The second program's reader and writer of an RQ, and its title check, for the measurements to call.

#![allow(dead_code)]

#[path = "../tests/second/src/fields.rs"]
mod fields;
#[path = "../tests/second/src/items.rs"]
mod items;
#[path = "../tests/second/src/names.rs"]
mod names;
#[path = "../tests/second/src/user.rs"]
mod user;
#[path = "../tests/second/src/valid.rs"]
mod valid;
#[path = "../tests/second/src/write.rs"]
mod write;

use std::slice::from_raw_parts;

/// A part that is empty may be NULL.
unsafe fn part<'a>(bytes: *const u8, length: usize) -> &'a [u8] {
    if length == 0 {
        &[]
    } else {
        from_raw_parts(bytes, length)
    }
}

/// Judges and reads an RQ; the records of its sheets, or 0.
#[no_mangle]
pub unsafe extern "C" fn second_read(
    pdu: *const u8,
    pdu_len: usize,
    sheet: *const u8,
    sheet_len: usize,
    roles: *const u8,
    roles_len: usize,
) -> usize {
    match fields::read_rq(part(pdu, pdu_len), part(sheet, sheet_len), part(roles, roles_len)) {
        Ok((read, filled, selected)) => {
            std::hint::black_box((filled, selected));
            read.records + read.roles
        }
        Err(_) => 0,
    }
}

/// Writes an RQ; its length, or 0.
#[no_mangle]
pub unsafe extern "C" fn second_write(
    titles: *const u8,
    application: *const u8,
    application_len: usize,
    class_uid: *const u8,
    class_uid_len: usize,
    sheet: *const u8,
    sheet_len: usize,
) -> usize {
    let titles = part(titles, 32);
    let user = user::Given::class_alone(part(class_uid, class_uid_len));
    match write::rq(&titles[..16], &titles[16..], part(application, application_len), &user, part(sheet, sheet_len)) {
        Ok(sent) => std::hint::black_box(sent).len(),
        Err(_) => 0,
    }
}

/// The place of a title among our own, 8 where there is none, 9 where it is refused.
#[no_mangle]
pub unsafe extern "C" fn second_place(own: *const u8, own_len: usize, sought: *const u8, sought_len: usize) -> usize {
    match names::title_place(part(own, own_len), part(sought, sought_len)) {
        Ok(place) => place.unwrap_or(8),
        Err(_) => 9,
    }
}
