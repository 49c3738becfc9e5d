//! Loads of the parts of a cache, each with the sides that play it. The first side is the port's.
use crate::hand_lists::{self, Boxed, ListLoad, Plain, Tagged};
use crate::original_sketch;
use crate::port::{self, AgingLoad, IndexLoad};
use crate::traces::{spread, Random, Zipf};
use std::rc::Rc;

/// A side of a load. `play` takes a number of rounds, and returns a sum that must be the same on all sides.
pub struct Side {
    pub name: &'static str,
    pub play: Box<dyn Fn(usize) -> u64>,
}

/// A load, with the sides that play it.
pub struct Load {
    pub name: String,
    /// Number of operations in a round.
    pub operations: usize,
    pub sides: Vec<Side>,
}

fn side(name: &'static str, play: impl Fn(usize) -> u64 + 'static) -> Side {
    Side {
        name,
        play: Box::new(play),
    }
}

/// Returns the loads of a part, if a part has this name.
pub fn loads_of(part: &str) -> Option<Vec<Load>> {
    match part {
        "sketch" => Some(sketch_loads().into_iter().chain(aging_loads()).collect()),
        "list" => Some(list_loads()),
        "index" => Some(index_loads()),
        _ => None,
    }
}

/// Number of hashes that are counted or read in a round.
const HASHES: usize = 1 << 18;

/// Returns counts and look-ups of the sketch, in tables of three lengths. A few keys make most counts.
fn sketch_loads() -> Vec<Load> {
    let zipf = Zipf::new(1 << 20);
    let mut random = Random(3);
    let hashes: Vec<u64> = (0..HASHES)
        .map(|_| spread(zipf.next(&mut random)))
        .collect();
    let hashes = Rc::new(hashes);
    let mut loads = Vec::new();
    for words in [128, 16_384, 1_048_576] {
        let (mine, theirs) = (hashes.clone(), hashes.clone());
        loads.push(Load {
            name: format!("increment, {words} words"),
            operations: HASHES,
            sides: vec![
                side("port", move |rounds| port::sketch(words, &mine, rounds, 1)),
                side("original", move |rounds| {
                    original_sketch::play(words, &theirs, rounds, 1)
                }),
            ],
        });
        let (mine, theirs) = (hashes.clone(), hashes.clone());
        loads.push(Load {
            name: format!("frequency, {words} words"),
            operations: HASHES,
            sides: vec![
                side("port", move |rounds| port::sketch(words, &mine, 1, rounds)),
                side("original", move |rounds| {
                    original_sketch::play(words, &theirs, 1, rounds)
                }),
            ],
        });
    }
    loads
}

/// Number of words that age in a round, whatever the length of the table.
const WORDS: usize = 1 << 22;

/// Returns agings of tables of three lengths. An operation ages a whole table.
fn aging_loads() -> Vec<Load> {
    let mut loads = Vec::new();
    for words in [128, 16_384, 1_048_576] {
        let table: Vec<u64> = (0..words as u64).map(spread).collect();
        let table = Rc::new(table);
        let agings = WORDS / words;
        let (mine, plain, theirs) = (table.clone(), table.clone(), table.clone());
        loads.push(Load {
            name: format!("aging, {words} words"),
            operations: agings,
            sides: vec![
                side("port", move |rounds| {
                    port::age(AgingLoad::InLanes, &mine, agings * rounds)
                }),
                side("plain loop", move |rounds| {
                    port::age(AgingLoad::WordByWord, &plain, agings * rounds)
                }),
                side("original", move |rounds| {
                    original_sketch::age(&theirs, agings * rounds)
                }),
            ],
        });
    }
    loads
}

/// Number of operations in a round of a list or an index, whatever its length.
const TURNS: usize = 1_000_000;

/// Returns moves, fillings and turns of lists of two lengths.
fn list_loads() -> Vec<Load> {
    let named = [
        ("move", ListLoad::Move),
        ("fill and empty", ListLoad::FillAndEmpty),
        ("take turns", ListLoad::TakeTurns),
    ];
    let mut loads = Vec::new();
    for nodes in [1_000, 1_000_000] {
        let mut random = Random(4);
        let picks: Vec<usize> = (0..TURNS)
            .map(|_| random.below(nodes as u64) as usize)
            .collect();
        // The port and the boxed list use the last of the reserved nodes first, so there the first element has the greatest id.
        let mirrored: Rc<Vec<usize>> = Rc::new(picks.iter().map(|pick| nodes - 1 - pick).collect());
        let picks = Rc::new(picks);
        for (name, load) in named {
            // Moves make one operation a pick, so a round plays them once. The other loads make one operation a node.
            let times = match load {
                ListLoad::Move => 1,
                _ => TURNS / nodes,
            };
            let (mine, boxed) = (mirrored.clone(), mirrored.clone());
            let (plain, tagged) = (picks.clone(), picks.clone());
            loads.push(Load {
                name: format!("{name}, {nodes}"),
                operations: TURNS,
                sides: vec![
                    side("port", move |rounds| {
                        port::list(load, nodes, &mine, times * rounds)
                    }),
                    side("boxed by hand", move |rounds| {
                        hand_lists::play::<Boxed>(load, nodes, &boxed, times * rounds)
                    }),
                    side("by hand", move |rounds| {
                        hand_lists::play::<Plain>(load, nodes, &plain, times * rounds)
                    }),
                    side("tagged by hand", move |rounds| {
                        hand_lists::play::<Tagged>(load, nodes, &tagged, times * rounds)
                    }),
                ],
            });
        }
    }
    loads
}

/// Returns look-ups and replacements of ids by their hashes, in the index and in std's map, both in the static library.
fn index_loads() -> Vec<Load> {
    let mut loads = Vec::new();
    for ids in [10_000, 1_000_000] {
        let hash_of = |number: u64| spread(number);
        let hashes: Vec<u64> = (0..ids).map(hash_of).collect();
        let hashes = Rc::new(hashes);
        let mut random = Random(5);
        let present: Vec<u64> = (0..TURNS).map(|_| hash_of(random.below(ids))).collect();
        let absent: Vec<u64> = (0..TURNS)
            .map(|_| hash_of(ids + random.below(ids)))
            .collect();
        let (present, absent) = (Rc::new(present), Rc::new(absent));
        let named = [
            ("find", IndexLoad::Find, &present),
            ("miss", IndexLoad::Find, &absent),
            (
                "find, take out and add",
                IndexLoad::FindAndReplace,
                &present,
            ),
        ];
        for (name, load, sought) in named {
            let (mine, theirs) = (hashes.clone(), hashes.clone());
            let (sought, also_sought) = (sought.clone(), sought.clone());
            loads.push(Load {
                name: format!("{name}, {ids}"),
                operations: TURNS,
                sides: vec![
                    side("index", move |rounds| {
                        port::index(load, &mine, &sought, rounds)
                    }),
                    side("map", move |rounds| {
                        port::index_by_map(load, &theirs, &also_sought, rounds)
                    }),
                ],
            });
        }
    }
    loads
}
