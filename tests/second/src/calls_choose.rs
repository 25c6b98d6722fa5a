//! Choosing calls for the generator: proposals and site sheets over few names that are much alike.

use std::collections::BTreeSet;

use crate::calls_large::all_ids;
use crate::choose::choose;
use crate::contents::{good_ac_contents, Sheet, Twists};
use crate::fields::{sheet_record, RECORD};
use crate::generate::{hex, Generator};
use crate::make::{good_name, name_of_length};
use crate::marks::Marks;
use crate::names::name_is_valid;
use crate::random::Random;

/// An abstract name and a transfer name.
type Pair = (Vec<u8>, Vec<u8>);

/// A context to be proposed.
struct Asked {
    id: u8,
    abstract_name: Vec<u8>,
    transfers: Vec<Vec<u8>>,
}

impl Asked {
    fn matches(&self, pair: &Pair) -> bool {
        self.abstract_name == pair.0 && self.transfers.contains(&pair.1)
    }

    fn pairs(&self) -> Vec<Pair> {
        self.transfers.iter().map(|transfer| (self.abstract_name.clone(), transfer.clone())).collect()
    }
}

/// The few names of one call.
struct Pool {
    abstracts: Vec<Vec<u8>>,
    transfers: Vec<Vec<u8>>,
}

impl Pool {
    /// Seldom the same names for both.
    fn new(random: &mut Random) -> Pool {
        let abstracts = names_alike(good_name(random), random);
        let transfers = if random.chance(15) { abstracts.clone() } else { names_alike(good_name(random), random) };
        Pool { abstracts, transfers }
    }

    fn of_long_names(random: &mut Random) -> Pool {
        let (one, other) = (name_of_length(64, random), name_of_length(64, random));
        Pool { abstracts: names_alike(one, random), transfers: names_alike(other, random) }
    }

    fn asked(&self, id: u8, transfers: usize, random: &mut Random) -> Asked {
        let abstract_name = random.pick(&self.abstracts);
        Asked { id, abstract_name, transfers: (0..transfers).map(|_| random.pick(&self.transfers)).collect() }
    }

    fn pairs(&self, count: usize, random: &mut Random) -> Vec<Pair> {
        (0..count).map(|_| (random.pick(&self.abstracts), random.pick(&self.transfers))).collect()
    }
}

/// Two to five names, each but the first near an earlier one.
fn names_alike(first: Vec<u8>, random: &mut Random) -> Vec<Vec<u8>> {
    let mut names = vec![first];
    let count = random.between(2, 5);
    while names.len() < count {
        let name = near(&random.pick(&names), random);
        if !names.contains(&name) {
            names.push(name);
        }
    }
    names
}

/// Another good name: with a byte more, less or changed, a component more, or of equal length.
fn near(name: &[u8], random: &mut Random) -> Vec<u8> {
    loop {
        let mut other = name.to_vec();
        let digit = b'1' + random.below(9) as u8;
        match random.below(7) {
            0 => other.push(digit),
            1 => other.truncate(name.len() - 1),
            2 => other.extend_from_slice(&[b'.', digit]),
            3 => other = name_of_length(name.len(), random),
            4 => other[0] = digit,
            5 => other[name.len() - 1] = digit,
            _ => other[random.below(name.len())] = digit,
        }
        if other != name && name_is_valid(&other) {
            return other;
        }
    }
}

fn some_contexts(pool: &Pool, random: &mut Random) -> Vec<Asked> {
    let mut ids = all_ids(0);
    random.shuffle(&mut ids);
    let any = random.between(1, 12);
    ids.truncate(random.pick(&[1, 1, 2, 2, 3, 3, 4, 5, any]));
    ids.iter().map(|id| pool.asked(*id, transfer_count(random), random)).collect()
}

fn transfer_count(random: &mut Random) -> usize {
    let any = random.between(1, 6);
    random.pick(&[1, 1, 2, 2, 3, any])
}

/// A site's records for a proposal, in one of several manners.
fn some_pairs(pool: &Pool, contexts: &[Asked], random: &mut Random, marks: &mut Marks) -> Vec<Pair> {
    let any = random.between(1, 30);
    let count = random.pick(&[1, 2, 3, 4, 6, 8, any]);
    let pairs = pool.pairs(count, random);
    let all_asked: Vec<Pair> = contexts.iter().flat_map(Asked::pairs).collect();
    let (name, pairs) = match random.below(7) {
        0 | 1 => ("site: any pairs", pairs),
        2 => ("site: one match", one_match(pairs, &contexts[random.below(contexts.len())], random)),
        3 => ("site: records repeated", repeated(pairs, random)),
        4 => ("site: all that is asked, in another order", in_another_order(all_asked, random)),
        5 => ("site: names asked, but apart", apart(pool, contexts, random)),
        _ => ("site: names near those asked", near_misses(all_asked, random)),
    };
    marks.add(name);
    pairs
}

/// One pair alone matches the context: the first, the last or one in the middle.
fn one_match(mut pairs: Vec<Pair>, context: &Asked, random: &mut Random) -> Vec<Pair> {
    pairs.retain(|pair| !context.matches(pair));
    let place = random.pick(&[0, pairs.len() / 2, pairs.len()]);
    pairs.insert(place, random.pick(&context.pairs()));
    pairs
}

/// Each pair again, at once or behind all others.
fn repeated(pairs: Vec<Pair>, random: &mut Random) -> Vec<Pair> {
    if random.chance(50) {
        pairs.iter().flat_map(|pair| [pair.clone(), pair.clone()]).collect()
    } else {
        [pairs.clone(), pairs].concat()
    }
}

fn in_another_order(mut pairs: Vec<Pair>, random: &mut Random) -> Vec<Pair> {
    if random.chance(50) {
        pairs.reverse();
    } else {
        random.shuffle(&mut pairs);
    }
    pairs
}

/// Each context's abstract name with another transfer name, and its transfer name under another abstract name.
fn apart(pool: &Pool, contexts: &[Asked], random: &mut Random) -> Vec<Pair> {
    let mut pairs = Vec::new();
    for context in contexts {
        let (abstract_name, transfer) = random.pick(&context.pairs());
        let others: Vec<Vec<u8>> = pool.abstracts.iter().filter(|name| **name != abstract_name).cloned().collect();
        pairs.push((abstract_name, near(&transfer, random)));
        pairs.push((random.pick(&others), transfer));
    }
    pairs
}

/// All but few pairs with one of their names changed a little.
fn near_misses(mut pairs: Vec<Pair>, random: &mut Random) -> Vec<Pair> {
    for pair in pairs.iter_mut() {
        match random.below(5) {
            0 => {}
            1 | 2 => pair.0 = near(&pair.0, random),
            _ => pair.1 = near(&pair.1, random),
        }
    }
    pairs
}

fn proposal_of(contexts: &[Asked]) -> Sheet {
    let mut sheet = Sheet::default();
    for context in contexts {
        sheet.records.extend(context.pairs().iter().map(|pair| sheet_record(context.id, 0, &pair.0, &pair.1)));
    }
    sheet
}

fn site_of(pairs: &[Pair]) -> Sheet {
    Sheet { records: pairs.iter().map(|pair| sheet_record(0, 0, &pair.0, &pair.1)).collect(), ..Sheet::default() }
}

/// A good proposal and a good site sheet.
pub fn good_choice(random: &mut Random, marks: &mut Marks) -> (Sheet, Sheet) {
    let pool = Pool::new(random);
    let contexts = some_contexts(&pool, random);
    (proposal_of(&contexts), site_of(&some_pairs(&pool, &contexts, random, marks)))
}

/// What a call with long sheets is counted under, its contexts and the site's pairs.
type Long = (&'static str, Vec<Asked>, Vec<Pair>);

/// A context for each of the 128 IDs, and perhaps one more.
fn all_asked(more: u8, random: &mut Random) -> Long {
    let pool = Pool::new(random);
    let contexts = all_ids(more as usize).iter().map(|id| pool.asked(*id, 1, random)).collect();
    ("large: C with 128 contexts", contexts, pool.pairs(8, random))
}

/// Hundreds of site records, perhaps as many as a sheet may have, of which the last alone matches the second context.
fn long_site(more: u8, random: &mut Random) -> Long {
    let pool = Pool::new(random);
    let (before, context, behind) = (pool.asked(3, 2, random), pool.asked(255, 2, random), pool.asked(1, 1, random));
    let count = if more == 1 { 499 } else { random.between(200, 255) };
    let strangers = pool.pairs(100, random).into_iter().filter(|pair| !context.matches(pair));
    let mut pairs: Vec<Pair> = strangers.chain([(b"1.1.1.1".to_vec(), b"2.2".to_vec())]).cycle().take(count).collect();
    pairs.extend(context.pairs().pop());
    ("large: C with a long site sheet", vec![before, context, behind], pairs)
}

/// A proposal whose PDU-length would be above 16,384: in many contexts, or in one of as many records as a sheet may have.
fn too_long_to_send(more: u8, random: &mut Random) -> Long {
    let pool = Pool::of_long_names(random);
    let contexts: Vec<Asked> = match more {
        0 => all_ids(0).iter().map(|id| pool.asked(*id, 2, random)).collect(),
        _ => vec![pool.asked(1, 500, random)],
    };
    ("large: C with a proposal too long to be sent", contexts, pool.pairs(4, random))
}

impl Generator {
    pub fn call_c(&mut self) {
        let (mut proposal, mut site) = good_choice(&mut self.random, &mut self.marks);
        let (good_proposal, good_site) = match self.random.below(16) {
            0 | 1 => (false, true),
            2 | 3 => (true, false),
            4 => (false, false),
            _ => (true, true),
        };
        Twists::of_asked().bring_near(&mut proposal, good_proposal, &mut self.random, &mut self.marks);
        Twists::of_site().bring_near(&mut site, good_site, &mut self.random, &mut self.marks);
        self.say_choice(&proposal, &site);
        if good_proposal && good_site && self.random.chance(20) {
            self.send_choice(&proposal, &site);
        }
    }

    /// The answers chosen are sent.
    fn send_choice(&mut self, proposal: &Sheet, site: &Sheet) {
        let mut contents = good_ac_contents(&mut self.random, &mut self.marks);
        let lent = vec![0; RECORD * proposal.records.len()];
        if let Ok((count, sheet)) = choose(&proposal.bytes(), &site.bytes(), &lent) {
            self.mark("C: the answers are sent");
            contents.sheet = sheet[..RECORD * count].to_vec();
            let call = self.random.pick(&["2", "a"]);
            self.send_answer(call, &contents);
        }
    }

    fn say_choice(&mut self, proposal: &Sheet, site: &Sheet) {
        let room = self.answer_room(proposal);
        self.say(format!("C {} {} {}", hex(&proposal.bytes()), hex(&site.bytes()), room));
    }

    /// Room for the answers, mostly enough: exactly, a byte or an answer off, one for each record, none, far more.
    fn answer_room(&mut self, proposal: &Sheet) -> usize {
        let ids: BTreeSet<u8> = proposal.records.iter().map(|record| record[0]).collect();
        let needed = RECORD * ids.len();
        let room = if self.random.chance(30) {
            let below = needed.saturating_sub(1);
            self.random.pick(&[below, below, needed.saturating_sub(RECORD), 131, 0])
        } else {
            let for_records = RECORD * proposal.records.len();
            self.random.pick(&[needed, needed, needed, needed + 1, needed + 200, for_records, 66_000])
        };
        room.min(66_000)
    }

    /// Long sheets, their kinds in turn; seldom a bad last record in one of them.
    pub fn call_c_long(&mut self) {
        let (kind, more) = self.long_choices.take();
        let (name, contexts, pairs) = match kind {
            0 => all_asked(more, &mut self.random),
            1 => long_site(more, &mut self.random),
            _ => too_long_to_send(more, &mut self.random),
        };
        self.mark(name);
        let (mut proposal, mut site) = (proposal_of(&contexts), site_of(&pairs));
        if self.random.chance(20) {
            let spoiled = if self.random.chance(50) { &mut proposal } else { &mut site };
            if let Some(record) = spoiled.records.last_mut() {
                record[131] = 1;
            }
        }
        self.say_choice(&proposal, &site);
    }
}
