//! Random runs of the crate's arena: each line is a call and its answer. The arena's source stands beside this file as
//! `the_arena.rs` when it is built.
//!
//!     arena_oracle SEED CALLS     a run of so many calls, from a seed
//!
//! Calls: `insert V` answers the place; `get P` the value or `none`; `remove P` the value; `take_all` the values by rising
//! place. Only calls that the crate allows are made: places to remove are occupied, and at most CAPACITY values stand at a time.

#[allow(dead_code)]
#[path = "the_arena.rs"]
mod arena;

use arena::Arena;

const CAPACITY: usize = 48;

/// Calls until the share of inserts is drawn anew.
const STRETCH: u64 = 50;

/// A small generator, so that a seed gives the same run everywhere.
struct Chance(u64);

impl Chance {
    fn below(&mut self, n: usize) -> usize {
        self.0 ^= self.0 << 13;
        self.0 ^= self.0 >> 7;
        self.0 ^= self.0 << 17;
        ((self.0 >> 33) as usize) % n
    }
}

fn main() {
    let mut args = std::env::args().skip(1).map(|a| a.parse::<u64>().expect("a number"));
    let seed = args.next().expect("a seed");
    let calls = args.next().expect("how many calls");
    let mut chance = Chance(seed.wrapping_mul(0x9e37_79b9_7f4a_7c15) | 1);
    let mut arena: Arena<usize> = Arena::new();
    let mut ids = Vec::new(); // the identifiers of the occupied places
    let mut issued = Vec::new(); // all that were ever handed out, since `get` allows a vacant place too
    let mut inserts = 0; // of 14 calls; it changes by stretches, so that the arena both fills up and runs empty
    for call in 0..calls {
        if call % STRETCH == 0 {
            inserts = 4 + chance.below(9);
        }
        let kind = chance.below(16);
        if kind < inserts && ids.len() < CAPACITY {
            let id = arena.insert(call as usize);
            ids.push(id);
            issued.push(id);
            println!("insert {call} {}", place(&id));
        } else if (inserts..14).contains(&kind) && !ids.is_empty() {
            let id = ids.swap_remove(chance.below(ids.len()));
            println!("remove {} {}", place(&id), arena.remove(id));
        } else if issued.is_empty() || kind == 14 && chance.below(8) == 0 {
            let all: Vec<usize> = arena.take_all();
            ids.clear();
            let all: String = all.iter().map(|v| format!(" {v}")).collect();
            println!("take_all{all}");
        } else {
            let from = if ids.is_empty() || chance.below(2) == 0 { &issued } else { &ids };
            let id = from[chance.below(from.len())];
            let value = arena.get(id).map_or("none".to_string(), |v| v.to_string());
            println!("get {} {value}", place(&id));
        }
    }
}

/// The place behind an identifier, which the crate shows as `SlotId(PLACE)`.
fn place(id: &impl std::fmt::Debug) -> String {
    format!("{id:?}").chars().filter(char::is_ascii_digit).collect()
}
