//! Lines of bad form for the generator; each is answered with `?` and changes nothing.

use crate::generate::{hex, pairs, Generator};

/// Lines of bad form, those of other calls' words among them.
const FORMS: [&str; 47] = [
    "",
    "x = -",
    "R = -",
    "8 10",
    "r =",
    "r = - -",
    "r  = -",
    " r = -",
    "r = - ",
    "r = 0A",
    "r = 050",
    "r = 0g",
    "e = +1",
    "e = -1",
    "e = 0x1",
    "e = 18446744073709551616",
    "j = 256 1 1",
    "j = 1 1",
    "e 6 0 2 0 0 0 16390 - 16390 17",
    "e 6 0 0 0 0 4294967296 16390 - 16390 17",
    "e 6 0 0 0 0 0 17001 - 16390 17",
    "e 6 0 0 0 0 0 16390 - 17001 17",
    "e 6 0 0 0 0 0 1 0102 16390 17",
    "5",
    "7 0 256 10",
    "# a comment",
    "r\t=\t-",
    "P - 18446744073709551616",
    "C - -",
    "C - - 66001",
    "D 04 a",
    // A role sheet's length, user information.
    "Q - 66001 0",
    "Q - 0 66001",
    "A - 0",
    "A - 0 0 0",
    "Q - 0 -",
    "c = - - - -",
    "a = - - -",
    "1 - - - - 0",
    "2 - - - 0",
    "1 - - - - - 65536 1 - - 0",
    "1 - - - - - 1 65536 - - 0",
    "c = - - - - - 65536 1 - -",
    "a = - - - - 1 65536 - -",
    "2 - - - - - 1 - - 0",
    "2 - - - - 1 1 0 - 0",
    "a = - - - - 1 1 - - -",
];

/// Each of them, a call whose last word is missing, and a byte string too long.
pub fn form_turns() -> Vec<(u8, u8)> {
    pairs(&(0..FORMS.len() as u8 + 2).collect::<Vec<u8>>(), &[0])
}

impl Generator {
    pub fn bad_form(&mut self) {
        let number = self.forms.take().0 as usize;
        let line = match FORMS.get(number) {
            Some(line) => line.to_string(),
            None if number == FORMS.len() => format!("r {}", self.good_nine(6).text()),
            None => self.too_long_string(),
        };
        self.say(line);
        if self.random.chance(50) {
            self.follow_up();
        }
    }

    /// A byte string of 17,001 bytes or, seldom, a sheet of 66,001.
    fn too_long_string(&mut self) -> String {
        match self.random.below(8) {
            0 => {
                self.mark("form: sheet of 66,001 bytes");
                format!("C - {} 132", hex(&[0; 66_001]))
            }
            1 => {
                self.mark("form: role sheet of 66,001 bytes");
                format!("2 - - - - 1 1 {} - 0", hex(&[0; 66_001]))
            }
            2 | 3 => {
                self.mark("form: version name of 17,001 bytes");
                format!("1 - - - - {} 1 1 - - 0", hex(&[0x31; 17_001]))
            }
            _ => {
                self.mark("form: string of 17,001 bytes");
                format!("N {}", hex(&[0x31; 17_001]))
            }
        }
    }
}
