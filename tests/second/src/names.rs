//! Names and titles: a name, an RQ title, a version name, equal titles, and the place of a sought title among our own.

/// A name is 1 to 64 bytes of digits and dots, made of good components.
pub fn name_is_valid(name: &[u8]) -> bool {
    (1..=64).contains(&name.len()) && name.split(|b| *b == b'.').all(component_is_valid)
}

/// Non-empty, digits, no leading zero unless the component is "0".
fn component_is_valid(component: &[u8]) -> bool {
    let digits = component.iter().all(|b| b.is_ascii_digit());
    digits && !component.is_empty() && (component == b"0" || component[0] != b'0')
}

/// An RQ title: 16 bytes of 20H to 7EH without 5CH, not 16 spaces.
pub fn title_is_valid(title: &[u8]) -> bool {
    title.len() == 16 && title.iter().all(|b| title_byte_is_valid(*b)) && title.iter().any(|b| *b != 0x20)
}

fn title_byte_is_valid(byte: u8) -> bool {
    (0x20..=0x7e).contains(&byte) && byte != 0x5c
}

/// A version name: 1 to 16 title characters, all spaces too.
pub fn version_name_is_valid(name: &[u8]) -> bool {
    (1..=16).contains(&name.len()) && name.iter().all(|b| title_byte_is_valid(*b))
}

/// A title without its leading and trailing spaces.
pub fn without_outer_spaces(title: &[u8]) -> &[u8] {
    match title.iter().position(|b| *b != 0x20) {
        None => &[],
        Some(first) => {
            let last = title.iter().rposition(|b| *b != 0x20).unwrap_or(first);
            &title[first..=last]
        }
    }
}

/// Inner spaces and case count.
pub fn titles_equal(one: &[u8], other: &[u8]) -> bool {
    without_outer_spaces(one) == without_outer_spaces(other)
}

/// Our own titles: 0 to 8 records of 16 bytes, each valid as in an RQ.
fn own_titles_are_good(own: &[u8]) -> bool {
    own.chunks_exact(16).remainder().is_empty() && own.len() <= 8 * 16 && own.chunks(16).all(title_is_valid)
}

/// The title check: the place, from 0, of the first own title equal to the sought one, or none. The list is tested
/// whole before it is searched; refused with 4.
pub fn title_place(own: &[u8], sought: &[u8]) -> Result<Option<usize>, u8> {
    if sought.len() != 16 || !own_titles_are_good(own) {
        return Err(4);
    }
    Ok(own.chunks(16).position(|title| titles_equal(title, sought)))
}
