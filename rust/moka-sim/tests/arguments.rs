//! Arguments of the program.

mod common;

use common::{options, owned, run, text};
use moka_sim::args::{parse, Capacity, Command, Output};
use moka_sim::formats::Format;
use moka_sim::make::Kind;
use moka_sim::policies::Setting;

#[test]
fn help_is_printed() {
    let out = run(&["--help"], b"");
    assert_eq!(
        (out.status.code(), text(&out.stderr)),
        (Some(0), String::new())
    );
    let help = text(&out.stdout);
    assert!(help.starts_with("usage: ./moka_sim [OPTIONS] [TRACE]\n"));
    assert!(help.lines().all(|line| line.len() <= 96));
    for (kind, _) in Kind::ALL {
        assert!(help.contains(kind), "{kind}");
    }
    for setting in Setting::USUAL {
        assert!(help.contains(&setting.name()), "{}", setting.name());
    }
}

#[test]
fn wrong_arguments_end_with_status_2_and_a_usage_line() {
    let cases: [(&[&str], &str); 24] = [
        (&["--colour"], "there is no option `--colour`"),
        (&["--entries=5"], "there is no option `=5`"),
        (&["--svg"], "--svg needs a value"),
        (&["--capacity", "0"], "--capacity `0`: it must be above 0, as 5000, 2.5% or 10MB"),
        (&["--capacity", "5,-1%"], "--capacity `-1%`: it must be above 0, as 5000, 2.5% or 10MB"),
        (&["--capacity", "5x"], "--capacity `5x`: it must be above 0, as 5000, 2.5% or 10MB"),
        (&["--settings", "best"], "--settings `best`: it must be of default, windowN, protectedN, adaptive, segments, lru, belady, with N from 0 to 100"),
        (&["--settings", "lru,window101"], "--settings `window101`: it must be of default, windowN, protectedN, adaptive, segments, lru, belady, with N from 0 to 100"),
        (&["--settings", "protected080"], "--settings `protected080`: it must be of default, windowN, protectedN, adaptive, segments, lru, belady, with N from 0 to 100"),
        (&["--format", "xml"], "--format `xml`: it must be lines, columns, csv, arc or lirs"),
        (&["--columns", "key,key"], "--columns `key`: it must be key, size, time or -, each once; key=NAME if a header names the columns"),
        (&["--columns", "key,weight"], "--columns `weight`: it must be key, size, time or -, each once; key=NAME if a header names the columns"),
        (&["--columns", "size"], "--columns has no column `key`"),
        (&["--format", "columns", "--columns", "key=id"], "--columns has names, and only --format csv has a header"),
        (&["--format", "lines", "--columns", "key=id"], "--columns isn't for this format: its columns are fixed"),
        (&["--format", "arc", "--columns", "key"], "--columns isn't for this format: its columns are fixed"),
        (&["--ttl", "0s"], "--ttl `0s`: it must be a time above 0 and below 584 years, as 30s, 5m or 100ms"),
        (&["--ttl", "30"], "--ttl `30`: it must be a time above 0 and below 584 years, as 30s, 5m or 100ms"),
        (&["--time-unit", "year"], "--time-unit `year`: it must be ns, us, ms, s, m, h or d"),
        (&["--output", "html"], "--output `html`: it must be table, csv or json"),
        (&["--jobs", "0"], "--jobs `0`: it must be a whole number above 0"),
        (&["one", "two"], "one trace at a time: `two` is too many"),
        (&["make", "walk"], "there is no kind of trace `walk`: zipf, scan, loop, drift, soon, churn, phases, stress"),
        (&["make"], "make needs a kind of trace: zipf, scan, loop, drift, soon, churn, phases, stress"),
    ];
    for (arguments, message) in cases {
        assert_eq!(
            parse(&owned(arguments)).map_err(|wrong| wrong.to_string()),
            Err(message.to_owned())
        );
    }
    let out = run(&["--colour"], b"");
    assert_eq!(
        (out.status.code(), text(&out.stdout)),
        (Some(2), String::new())
    );
    let usage =
        "usage: ./moka_sim [OPTIONS] [TRACE], or ./moka_sim make KIND [COUNT]; --help says more";
    assert_eq!(
        text(&out.stderr),
        format!("moka_sim: there is no option `--colour`\n{usage}\n")
    );
}

#[test]
fn arguments_are_parsed() {
    let given = options(&[
        "--capacity=1%, 2.5%,700,3k,2KiB,700",
        "--settings",
        "lru,window20, protected0,adaptive,window100",
        "--ttl",
        "1.5m",
        "trace",
    ]);
    assert_eq!(
        given.capacities,
        [
            Capacity::Percent(1.0),
            Capacity::Percent(2.5),
            Capacity::Amount(700),
            Capacity::Amount(3000),
            Capacity::Amount(2048)
        ]
    );
    assert_eq!(
        given.settings,
        [
            Setting::Lru,
            Setting::Window(20),
            Setting::Protected(0),
            Setting::Adaptive,
            Setting::Window(100),
        ]
    );
    assert_eq!(
        (given.time_to_live, given.file.as_deref()),
        (Some(90_000_000_000), Some("trace"))
    );
    assert!(given.plan.has_times);
    assert_eq!(
        (given.output, given.plan.format, given.counts_entries),
        (Output::Table, None, false)
    );
    let given = options(&[
        "--output",
        "json",
        "--format",
        "arc",
        "--entries",
        "--jobs",
        "3",
        "-",
    ]);
    assert_eq!(
        (given.output, given.plan.format, given.counts_entries),
        (Output::Json, Some(Format::Arc), true)
    );
    assert_eq!(
        (
            given.jobs,
            given.file,
            given.settings.len(),
            given.capacities.len()
        ),
        (3, None, 6, 6)
    );
    let made = parse(&owned(&["make", "stress", "1M", "--seed", "7", "--csv"]));
    assert_eq!(
        made,
        Ok(Command::Make {
            kind: Kind::Stress,
            count: 1_000_000,
            seed: 7,
            is_csv: true
        })
    );
    let made = parse(&owned(&["make", "zipf"]));
    assert_eq!(
        made,
        Ok(Command::Make {
            kind: Kind::Zipf,
            count: 100_000,
            seed: 1,
            is_csv: false
        })
    );
}

#[test]
fn a_percent_is_rounded_and_at_least_1() {
    let of = |percent, whole| Capacity::Percent(percent).of(whole);
    assert_eq!(
        [of(1.0, 1000), of(1.0, 1050), of(1.0, 20), of(50.0, 7)],
        [10, 11, 1, 4]
    );
    assert_eq!(Capacity::Amount(5).of(1000), 5);
}
