//! The sentence that says which capacity and settings to choose.

use crate::numbers::{grouped, percent};
use crate::play::Outcome;
use crate::policies::Setting;

/// The least capacity with at least 99 of 100 of the hits of the largest one, and its best settings.
#[derive(Clone, Copy, Debug, PartialEq, Eq)]
pub struct Advice {
    pub setting: Setting,
    pub capacity: u64,
    pub hits: u64,
    /// The largest capacity that was played, and the most hits of it.
    pub largest: u64,
    pub most: u64,
    /// A smaller capacity with which an LRU has as many hits, if it was played.
    pub lru: Option<u64>,
}

/// Chooses among the library's caches, or among the others if none was played. Returns `None` if
/// only the best possible cache was played, or if nothing hits.
pub fn advise(outcomes: &[Outcome]) -> Option<Advice> {
    let of = |is_candidate: fn(Setting) -> bool| -> Vec<&Outcome> {
        outcomes
            .iter()
            .filter(|outcome| is_candidate(outcome.play.setting))
            .collect()
    };
    let mut candidates = of(Setting::is_library);
    if candidates.is_empty() {
        candidates = of(|setting| setting == Setting::Lru);
    }
    let largest = candidates
        .iter()
        .map(|outcome| outcome.play.rules.capacity)
        .max()?;
    let most = best(&candidates, largest)?.tally.hits;
    let least = |outcomes: &[&Outcome]| {
        let suffices =
            |outcome: &&&Outcome| u128::from(outcome.tally.hits) * 100 >= u128::from(most) * 99;
        outcomes
            .iter()
            .filter(suffices)
            .map(|outcome| outcome.play.rules.capacity)
            .min()
    };
    let capacity = least(&candidates)?;
    let chosen = best(&candidates, capacity)?;
    let lru = least(&of(|setting| setting == Setting::Lru)).filter(|lru| *lru < capacity);
    let (setting, hits) = (chosen.play.setting, chosen.tally.hits);
    (most > 0).then_some(Advice {
        setting,
        capacity,
        hits,
        largest,
        most,
        lru,
    })
}

/// Returns the first of the outcomes of this capacity that has the most hits.
fn best<'a>(outcomes: &[&'a Outcome], capacity: u64) -> Option<&'a Outcome> {
    let of_capacity = outcomes
        .iter()
        .filter(|outcome| outcome.play.rules.capacity == capacity);
    of_capacity.copied().reduce(|best, other| {
        if other.tally.hits > best.tally.hits {
            other
        } else {
            best
        }
    })
}

/// Returns the sentence, for a trace of so many requests, and for entries that live so many nanoseconds.
pub fn sentence(
    advice: Option<Advice>,
    requests: u64,
    is_weighed: bool,
    time_to_live: Option<u64>,
) -> String {
    let Some(advice) = advice else {
        return "There is nothing to choose: no cache that a program can have had a hit."
            .to_owned();
    };
    let unit = if is_weighed { " bytes" } else { "" };
    let start = format!(
        "Choose a capacity of {}{unit} with `{}` ({}): {} of the requests hit",
        grouped(advice.capacity),
        advice.setting.name(),
        call(advice, is_weighed, time_to_live),
        percent(advice.hits, requests),
    );
    let reason = if advice.capacity == advice.largest {
        ", and no smaller capacity that was played has 99 of 100 of these hits, so a larger one may gain".to_owned()
    } else {
        let (largest, most) = (grouped(advice.largest), percent(advice.most, requests));
        format!(
            ", at least 99 of 100 of the hits of the largest capacity, {largest}, which are {most}"
        )
    };
    let lru = advice.lru.map_or(String::new(), |lru| {
        format!("; an LRU has as many with {}", grouped(lru))
    });
    format!("{start}{reason}{lru}.")
}

/// Returns the call in Rust that makes the cache.
fn call(advice: Advice, is_weighed: bool, time_to_live: Option<u64>) -> String {
    let (cache, weigh) = match is_weighed {
        true => ("ByteCache", ".weigh_bytes()"),
        false => ("Cache", ""),
    };
    let live = time_to_live.map_or(String::new(), |nanoseconds| {
        format!(".time_to_live({})", duration(nanoseconds))
    });
    let built = format!(
        "{cache}::builder().max_capacity({}){weigh}{live}",
        advice.capacity
    );
    match advice.setting {
        Setting::Default => built,
        Setting::Window(percent) => format!("{built}.window_share({percent})"),
        Setting::Protected(percent) => format!("{built}.protected_share({percent})"),
        Setting::Adaptive => format!("{built}.adaptive()"),
        Setting::Segments => format!("sync::{built}"),
        Setting::Lru | Setting::Belady => "not a cache of this library".to_owned(),
    }
}

/// Returns the call in Rust that makes a duration, in the largest unit of which it is a whole number.
fn duration(nanoseconds: u64) -> String {
    let units = [
        ("secs", 1_000_000_000),
        ("millis", 1_000_000),
        ("micros", 1_000),
    ];
    let unit = units.iter().find(|(_, unit)| nanoseconds % unit == 0);
    let (name, unit) = unit.copied().unwrap_or(("nanos", 1));
    format!("Duration::from_{name}({})", nanoseconds / unit)
}

#[cfg(test)]
mod tests {
    use super::*;
    use crate::play::Play;
    use crate::policies::{Counts, Rules, Tally};

    /// Returns what a default cache of this capacity did, with so many hits.
    fn outcome(capacity: u64, hits: u64) -> Outcome {
        let rules = Rules {
            capacity,
            is_weighed: false,
            time_to_live: None,
        };
        Outcome {
            play: Play {
                setting: Setting::Default,
                rules,
            },
            tally: Tally { hits, hit_bytes: 0 },
            counts: Counts::default(),
            parts: Vec::new(),
        }
    }

    #[test]
    fn ninety_nine_of_a_hundred_hits_suffice_and_no_fewer() {
        let capacity_with = |hits| {
            let outcomes = [outcome(10, hits), outcome(20, 1000)];
            advise(&outcomes).map(|advice| advice.capacity)
        };
        assert_eq!(capacity_with(989), Some(20));
        assert_eq!(capacity_with(990), Some(10));
    }
    #[test]
    fn the_call_is_that_of_the_cache_that_was_played() {
        let called = |setting, is_weighed, time_to_live| {
            let advice = Advice {
                setting,
                capacity: 7,
                hits: 1,
                largest: 7,
                most: 1,
                lru: None,
            };
            call(advice, is_weighed, time_to_live)
        };
        let calls = [
            (Setting::Default, "Cache::builder().max_capacity(7)"),
            (
                Setting::Window(5),
                "Cache::builder().max_capacity(7).window_share(5)",
            ),
            (
                Setting::Protected(60),
                "Cache::builder().max_capacity(7).protected_share(60)",
            ),
            (
                Setting::Adaptive,
                "Cache::builder().max_capacity(7).adaptive()",
            ),
            (Setting::Segments, "sync::Cache::builder().max_capacity(7)"),
        ];
        for (setting, wanted) in calls {
            assert_eq!(called(setting, false, None), wanted);
            let live = wanted.replace("(7)", "(7).time_to_live(Duration::from_secs(60))");
            assert_eq!(called(setting, false, Some(60_000_000_000)), live);
            let weighed = wanted.replace("Cache", "ByteCache");
            let weighed = weighed.replace("(7)", "(7).weigh_bytes()");
            assert_eq!(called(setting, true, None), weighed);
        }
    }

    #[test]
    fn a_duration_is_written_in_its_largest_unit() {
        let written = [60_000_000_000, 1_500_000_000, 2_000, 7].map(duration);
        let wanted = ["secs(60)", "millis(1500)", "micros(2)", "nanos(7)"];
        assert_eq!(written, wanted.map(|call| format!("Duration::from_{call}")));
    }
}
