//! Calls about IDs that come twice, for the generator: each edge in an RQ, an AC, a proposal and an answer.

use crate::contents::{good_ac_contents, good_rq_contents, Sheet};
use crate::fields::{sheet_record, RECORD};
use crate::generate::{hex, Generator};
use crate::ids::{put_in_plan, sheet_of, Place};
use crate::make::good_plan;

/// Each edge of each place.
pub fn id_turns() -> Vec<(u8, u8)> {
    let edges = |place: usize| (0..Place::ALL[place].names().len()).map(move |edge| (edge as u8, place as u8));
    (0..Place::ALL.len()).flat_map(edges).collect()
}

impl Generator {
    /// The edges in turn, each in a PDU that is read, received or judged, or in a sheet that is sent or chosen for; now
    /// and then once more, since nothing is kept from the call before.
    pub fn ids_of_contexts(&mut self) {
        let (edge, place) = self.ids.take();
        let (edge, place) = (edge as usize, Place::ALL[place as usize]);
        self.mark(&id_mark(place, place.names()[edge]));
        match place {
            Place::Rq => self.ids_of_pdu(1, edge),
            Place::Ac => self.ids_of_pdu(2, edge),
            Place::Sent | Place::Asked => {
                let sheet = sheet_of(edge, true, &mut self.random);
                if place == Place::Sent {
                    self.ids_to_be_sent(&sheet);
                } else {
                    self.ids_to_be_answered(&sheet);
                }
            }
            Place::Answer => {
                let mut contents = good_ac_contents(&mut self.random, &mut self.marks);
                contents.sheet = sheet_of(edge, false, &mut self.random).bytes();
                for _ in 0..self.times(&contents.sheet) {
                    let call = self.random.pick(&["2", "2", "a"]);
                    self.send_answer(call, &contents);
                }
            }
        }
    }

    /// Seldom twice, and no long one.
    fn times(&mut self, bytes: &[u8]) -> usize {
        1 + (bytes.len() < 4_000 && self.random.chance(10)) as usize
    }

    fn ids_of_pdu(&mut self, kind: u8, edge: usize) {
        let mut plan = good_plan(kind, &mut self.random);
        put_in_plan(&mut plan, edge, &mut self.random);
        let bytes = plan.bytes();
        for _ in 0..self.times(&bytes) {
            match self.random.below(5) {
                0 | 1 => self.read_roomy(kind, &bytes),
                2 | 3 => self.receive_or_judge(kind, &bytes),
                _ => {
                    self.say(format!("K {}", hex(&bytes)));
                }
            }
        }
    }

    fn ids_to_be_sent(&mut self, sheet: &Sheet) {
        let mut contents = good_rq_contents(&mut self.random, &mut self.marks);
        contents.sheet = sheet.bytes();
        for _ in 0..self.times(&contents.sheet) {
            let call = self.random.pick(&["1", "1", "c"]);
            self.send_proposal(call, &contents);
        }
    }

    /// The site's sheet has ID 0 in each of its records.
    fn ids_to_be_answered(&mut self, sheet: &Sheet) {
        let names: [&[u8]; 3] = [b"1.2.3", b"1.2.30", b"1.2.840.10008.1.1"];
        let liked: Vec<u8> = (0..self.random.between(1, 6))
            .flat_map(|_| sheet_record(0, 0, self.random.pick(&names), &[b'1' + self.random.below(9) as u8]))
            .collect();
        let proposal = sheet.bytes();
        for _ in 0..self.times(&proposal) {
            let room = self.random.pick(&[proposal.len(), proposal.len(), 128 * RECORD, RECORD - 1]);
            self.say(format!("C {} {} {}", hex(&proposal), hex(&liked), room));
        }
    }
}

fn id_mark(place: Place, name: &str) -> String {
    format!("IDs of {}: {}", place.words(), name)
}

/// The marks of all edges, for coverage.
pub fn id_marks() -> Vec<String> {
    Place::ALL.iter().flat_map(|place| place.names().into_iter().map(|name| id_mark(*place, name))).collect()
}
