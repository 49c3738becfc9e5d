//! Caches on traces whose hits are counted by hand.

mod common;

use common::{entries, keys, outcome, trace};
use moka_sim::play::Outcome;
use moka_sim::policies::{Rules, Setting};
use moka_sim::random::Random;
use std::collections::BTreeSet;

/// Returns the hits, and the evictions, rejections and expirations.
fn numbers(outcome: &Outcome) -> (u64, [Option<u64>; 3]) {
    let counts = outcome.counts;
    (
        outcome.tally.hits,
        [counts.evictions, counts.rejections, counts.expirations],
    )
}

#[test]
fn lru_evicts_the_least_recently_used_key() {
    // b, a and c leave.
    let found = entries(&keys("a b a c b a"), Setting::Lru, 2);
    assert_eq!(numbers(&found), (1, [Some(3), Some(0), Some(0)]));
    // 2 is hit between the others, so 1 leaves, and then 3.
    let found = entries(&keys("1 2 3 2 4 2 1 3 3"), Setting::Lru, 3);
    assert_eq!(numbers(&found), (3, [Some(3), Some(0), Some(0)]));
    assert_eq!(found.window_share(), None);
}

#[test]
fn lru_keeps_the_order_when_the_first_the_last_or_the_middle_key_is_hit() {
    // Orders, least recently used first: 123, 231 (hit 1), 321 (hit 2), 321 (hit 1), 214 (4), 214.
    let found = entries(&keys("1 2 3 1 2 2 1 4 2 1 3"), Setting::Lru, 3);
    assert_eq!(numbers(&found), (6, [Some(2), Some(0), Some(0)]));
}

#[test]
fn lru_weighs_entries_and_rejects_those_above_the_capacity() {
    let weighed = trace(
        &["--columns", "key,size"],
        "a 6\nb 3\na 6\nc 5\na 6\nd 11\na 7\nb 4\na 6\n",
    );
    let found = outcome(
        &weighed,
        Setting::Lru,
        Rules {
            capacity: 10,
            is_weighed: true,
            time_to_live: None,
        },
    );
    // c evicts b and a; the next a evicts c; d is too heavy; b fits beside a.
    assert_eq!(numbers(&found), (3, [Some(3), Some(1), Some(0)]));
    // A hit counts the size of its line.
    assert_eq!(found.tally.hit_bytes, 6 + 7 + 6);
}

#[test]
fn a_key_weighs_its_length_at_least() {
    let weighed = trace(
        &["--columns", "key,size"],
        "long-key 1\nother-key 1\nlong-key 1\n",
    );
    let rules = |capacity| Rules {
        capacity,
        is_weighed: true,
        time_to_live: None,
    };
    assert_eq!(outcome(&weighed, Setting::Lru, rules(17)).tally.hits, 1);
    assert_eq!(outcome(&weighed, Setting::Lru, rules(16)).tally.hits, 0);
    let numbers = trace(&["--columns", "key,size"], "1 0\n2 0\n1 0\n");
    assert_eq!(outcome(&numbers, Setting::Lru, rules(16)).tally.hits, 1);
    assert_eq!(outcome(&numbers, Setting::Lru, rules(15)).tally.hits, 0);
}

#[test]
fn entries_expire_at_the_end_of_their_time_to_live() {
    let timed = trace(
        &["--columns", "key,time", "--ttl", "10s"],
        "a 5\na 14\na 15\na 24.9\na 25\nb 30\n",
    );
    let rules = Rules {
        capacity: 5,
        is_weighed: false,
        time_to_live: Some(10_000_000_000),
    };
    let found = outcome(&timed, Setting::Lru, rules);
    assert_eq!(numbers(&found), (2, [Some(0), Some(0), Some(2)]));
    assert_eq!(outcome(&timed, Setting::Belady, rules).tally.hits, 2);
    for setting in [
        Setting::Default,
        Setting::Protected(80),
        Setting::Adaptive,
        Setting::Segments,
    ] {
        let found = outcome(&timed, setting, rules);
        assert_eq!(
            numbers(&found),
            (2, [Some(0), Some(0), Some(2)]),
            "{}",
            setting.name()
        );
    }
}

#[test]
fn belady_keeps_what_is_requested_soonest() {
    // c isn't worth an entry.
    let found = entries(&keys("a b a c b a"), Setting::Belady, 2);
    assert_eq!(numbers(&found), (3, [None, None, None]));
    // b comes later than a each time.
    assert_eq!(
        entries(&keys("a b a b a"), Setting::Belady, 1).tally.hits,
        2
    );
    // Of a loop the first keys stay, though 3 always comes next.
    assert_eq!(
        entries(&keys("1 2 3 1 2 3 1 2 3"), Setting::Belady, 2)
            .tally
            .hits,
        4
    );
}

/// Returns the most hits that any choice of admissions and evictions gives.
fn best(requests: &[u32], stored: &BTreeSet<u32>, capacity: usize) -> u64 {
    let Some((key, rest)) = requests.split_first() else {
        return 0;
    };
    if stored.contains(key) {
        return 1 + best(rest, stored, capacity);
    }
    let mut most = best(rest, stored, capacity);
    let mut with = stored.clone();
    with.insert(*key);
    if with.len() <= capacity {
        return most.max(best(rest, &with, capacity));
    }
    for victim in stored {
        let mut with = with.clone();
        with.remove(victim);
        most = most.max(best(rest, &with, capacity));
    }
    most
}

#[test]
fn belady_is_the_best_possible() {
    let mut random = Random(7);
    for round in 0..25 {
        let text: Vec<String> = (0..9).map(|_| random.below(5).to_string()).collect();
        let trace = keys(&text.join(" "));
        for capacity in 1..4 {
            let most = best(&trace.requests, &BTreeSet::new(), capacity);
            let found = entries(&trace, Setting::Belady, capacity as u64);
            assert_eq!(
                found.tally.hits, most,
                "round {round}, capacity {capacity}: {text:?}"
            );
        }
    }
}

#[test]
fn belady_keeps_its_heap_small_and_right() {
    // Each of 3,000 keys comes three times in a row, so that all but the first request hit.
    let text: Vec<String> = (0..9000).map(|request| (request / 3).to_string()).collect();
    assert_eq!(
        entries(&keys(&text.join(" ")), Setting::Belady, 1)
            .tally
            .hits,
        6000
    );
    // A loop of 200 keys, 50 times: each round keeps 99 of 199 others, so 100 places hit 99.5 of 199.
    let text: Vec<String> = (0..10_000)
        .map(|request| (request % 200).to_string())
        .collect();
    let hits = entries(&keys(&text.join(" ")), Setting::Belady, 100)
        .tally
        .hits;
    assert!((4870..=4900).contains(&hits), "{hits}");
}

#[test]
fn belady_weighs_entries() {
    let weighed = trace(&["--columns", "key,size"], "a 6\nb 3\nc 2\na 6\nb 3\nc 2\n");
    let hits = |capacity| {
        let found = outcome(
            &weighed,
            Setting::Belady,
            Rules {
                capacity,
                is_weighed: true,
                time_to_live: None,
            },
        );
        (found.tally.hits, found.tally.hit_bytes)
    };
    assert_eq!(
        [hits(11), hits(10), hits(8), hits(2)],
        [(3, 11), (2, 9), (2, 8), (1, 2)]
    );
}

#[test]
fn a_full_cache_rejects_keys_that_are_requested_no_more_than_its_victim() {
    // 3 comes once as often as 2, twice as often, and then more often.
    let trace = keys("1 2 1 3 2 1 3 3 3");
    for setting in [Setting::Default, Setting::Segments] {
        let found = entries(&trace, setting, 2);
        assert_eq!(
            numbers(&found),
            (4, [Some(1), Some(2), Some(0)]),
            "{}",
            setting.name()
        );
    }
    let texts = entries(
        &keys("one two one three two one three three three"),
        Setting::Default,
        2,
    );
    assert_eq!(numbers(&texts), (4, [Some(1), Some(2), Some(0)]));
}

#[test]
fn a_protected_share_keeps_a_key_that_was_hit() {
    // The cache counts once it is half full: 2 has no count, so 6 replaces it at once. 7, 8 and 9 replace
    // 3, 4 and 5 when they come again. 10 then replaces 1, and 1 later another key; or if 1 is
    // protected, 10 replaces 7 later, and 1 stays.
    let trace = keys("1 2 3 4 5 1 6 6 7 7 8 8 9 9 10 10 10 1 1 1");
    // 1, 6, 10 and at last 1.
    assert_eq!(entries(&trace, Setting::Default, 5).tally.hits, 4);
    // 1, 6, and 1 three times.
    assert_eq!(entries(&trace, Setting::Protected(80), 5).tally.hits, 5);
    assert_eq!(entries(&trace, Setting::Adaptive, 5).tally.hits, 5);
    assert_eq!(entries(&trace, Setting::Protected(0), 5).tally.hits, 4);
}

#[test]
fn windows_are_those_of_the_settings() {
    // New keys that come again soon after, so that a larger window would have kept them.
    let text: Vec<String> = (0..40_000u64)
        .map(|at| (at - if at % 2 == 0 { 0 } else { at.min(61) }).to_string())
        .collect();
    let trace = keys(&text.join(" "));
    let window = |setting| {
        entries(&trace, setting, 398)
            .parts
            .last()
            .and_then(|part| part.window)
    };
    assert_eq!(window(Setting::Default), Some(3));
    assert_eq!(window(Setting::Protected(80)), Some(3));
    assert_eq!(window(Setting::Window(20)), Some(79));
    assert_eq!(window(Setting::Window(0)), Some(0));
    // Three segments, of 133, 133 and 132 entries.
    assert_eq!(window(Setting::Segments), Some(3));
    assert!(
        window(Setting::Adaptive) > Some(50),
        "{:?}",
        window(Setting::Adaptive)
    );
    // 16 segments of 199 entries.
    let few = keys("1 2");
    assert_eq!(
        entries(&few, Setting::Segments, 3184).parts[1].window,
        Some(16)
    );
    assert_eq!(
        entries(&few, Setting::Default, 3184).parts[1].window,
        Some(31)
    );
    assert_eq!(
        entries(&few, Setting::Default, 3100).window_share(),
        Some(1.0)
    );
}

#[test]
fn the_library_weighs_entries_as_the_others_do() {
    let weighed = trace(&["--columns", "key,size"], "a 6\nb 3\na 6\nc 2\nb 3\na 6\n");
    let rules = |capacity| Rules {
        capacity,
        is_weighed: true,
        time_to_live: None,
    };
    for setting in [
        Setting::Default,
        Setting::Protected(80),
        Setting::Adaptive,
        Setting::Segments,
    ] {
        // c doesn't fit, and isn't requested more often than a.
        let found = outcome(&weighed, setting, rules(10));
        assert_eq!(
            numbers(&found),
            (3, [Some(0), Some(1), Some(0)]),
            "{}",
            setting.name()
        );
        assert_eq!(found.tally.hit_bytes, 15);
        // All fit.
        assert_eq!(
            numbers(&outcome(&weighed, setting, rules(11))),
            (3, [Some(0); 3])
        );
        // a is heavier than the capacity, though c fits.
        assert_eq!(
            numbers(&outcome(&weighed, setting, rules(5))),
            (1, [Some(0), Some(3), Some(0)])
        );
    }
}

#[test]
fn an_entry_above_the_capacity_is_rejected_whatever_its_size() {
    let weighed = trace(
        &["--columns", "key,size"],
        "a 4294967295\nb 5\na 4294967295\nb 5\n",
    );
    for setting in [
        Setting::Default,
        Setting::Adaptive,
        Setting::Segments,
        Setting::Lru,
    ] {
        let found = outcome(
            &weighed,
            setting,
            Rules {
                capacity: 5,
                is_weighed: true,
                time_to_live: None,
            },
        );
        assert_eq!(
            numbers(&found),
            (1, [Some(0), Some(2), Some(0)]),
            "{}",
            setting.name()
        );
    }
}

#[test]
fn the_parts_of_a_play_add_up() {
    let text: Vec<String> = (0..1234).map(|request| (request % 7).to_string()).collect();
    let trace = keys(&text.join(" "));
    let found = entries(&trace, Setting::Lru, 7);
    assert_eq!(found.parts.len(), 100);
    assert_eq!(
        found.parts.iter().map(|part| part.requests).sum::<u64>(),
        1234
    );
    assert_eq!(found.parts.iter().map(|part| part.hits).sum::<u64>(), 1227);
    assert_eq!((found.parts[0].requests, found.parts[0].hits), (12, 5));
    assert_eq!(found.tally.hits, 1227);
    assert_eq!(entries(&keys("1 1 1"), Setting::Lru, 7).parts.len(), 3);
}
