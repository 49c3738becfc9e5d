//! Each format of a trace, each refusal of a line, and traces that are made.

mod common;

use common::{keys, trace, try_trace};
use moka_sim::keys::Key;
use moka_sim::make::{write, Kind};
use moka_sim::trace::Trace;
use std::collections::BTreeMap;

/// Returns the keys of the requests as texts.
fn requested(trace: &Trace) -> Vec<String> {
    let text = |key: &u32| match trace.keys.get(*key) {
        Key::Number(number) => number.to_string(),
        Key::Text(text) => String::from_utf8_lossy(text).into_owned(),
    };
    trace.requests.iter().map(text).collect()
}

#[test]
fn a_line_is_a_key() {
    let read = trace(&[], "7\r\n\n 9 \n7\n18446744073709551615");
    assert_eq!(requested(&read), ["7", "9", "7", "18446744073709551615"]);
    assert_eq!((read.keys.len(), read.keys.are_numbers()), (3, true));
    let read = trace(&["--format", "lines"], "/a page?x=1,2\n/b\n/a page?x=1,2\n");
    assert_eq!(requested(&read), ["/a page?x=1,2", "/b", "/a page?x=1,2"]);
    assert_eq!((read.sizes, read.times), (None, None));
}

#[test]
fn columns_come_in_the_given_order() {
    let read = trace(
        &["--columns", "time,-,key,size", "--ttl", "1s"],
        "5 x a 70\n5.5 x b 80 more\n7 x a 0\n",
    );
    assert_eq!(requested(&read), ["a", "b", "a"]);
    assert_eq!(read.sizes.as_deref(), Some(&[70, 80, 0][..]));
    assert_eq!(
        read.times.as_deref(),
        Some(&[0, 500_000_000, 2_000_000_000][..])
    );
    let read = trace(&["--columns", "size,key"], "70,a b\n 80 , c \n");
    assert_eq!(requested(&read), ["a b", "c"]);
    assert_eq!(read.sizes.as_deref(), Some(&[70, 80][..]));
}

#[test]
fn times_are_read_only_for_a_time_to_live() {
    assert_eq!(
        trace(&["--columns", "key,time"], "a never\nb 1\n").times,
        None
    );
    let read = trace(
        &["--columns", "key,time", "--ttl", "1s", "--time-unit", "ms"],
        "a 10\nb 12\n",
    );
    assert_eq!(read.times.as_deref(), Some(&[0, 2_000_000][..]));
}

#[test]
fn a_header_names_columns() {
    let csv = "\u{feff}Time,\"Key\",Size\n1,a,5\n2,\"b,c\",6\n";
    let read = trace(&[], csv);
    assert_eq!(requested(&read), ["a", "b,c"]);
    assert_eq!(read.sizes.as_deref(), Some(&[5, 6][..]));
    let csv = "at,id,length\n1,a,5\n3,b,6\n";
    let names = ["--columns", "key=id,size=length,time=at", "--ttl", "9s"];
    // Names imply a header, and so the format.
    for format in [&[][..], &["--format", "csv"]] {
        let read = trace(&[format, &names].concat(), csv);
        assert_eq!(requested(&read), ["a", "b"]);
        assert_eq!(read.sizes.as_deref(), Some(&[5, 6][..]));
        assert_eq!(read.times.as_deref(), Some(&[0, 2_000_000_000][..]));
    }
    let read = trace(&["--columns", "size=length"], "length,KEY\n5,a\n");
    assert_eq!(requested(&read), ["a"]);
    assert_eq!(read.sizes.as_deref(), Some(&[5][..]));
    let read = trace(&["--format", "csv"], "key\na\n");
    assert_eq!((requested(&read), read.sizes), (vec!["a".to_owned()], None));
}

#[test]
fn arc_requests_blocks_and_lirs_one() {
    let read = trace(&["--format", "arc"], "100 3 0 1\n101 1 0 2\n7 0 0 3\n");
    assert_eq!(requested(&read), ["100", "101", "102", "101"]);
    let read = trace(&["OLTP.lis"], "5 2 0 1\n");
    assert_eq!(requested(&read), ["5", "6"]);
    let read = trace(&["--format", "lirs"], "5\n*\n007\n");
    assert_eq!(requested(&read), ["5", "7"]);
    assert_eq!(requested(&trace(&["loop.trc"], "5\n*\n6\n")), ["5", "6"]);
    // Without that name the lines are keys.
    assert_eq!(requested(&trace(&[], "5\n*\n6\n")), ["5", "*", "6"]);
}

/// Asserts that a trace is refused with this message.
fn refused(arguments: &[&str], text: &[u8], message: &str) {
    match try_trace(arguments, text) {
        Ok(trace) => panic!("{message}: read {} requests", trace.len()),
        Err(error) => assert_eq!(error.to_string(), message),
    }
}

#[test]
fn a_bad_line_is_named() {
    let sized = &["--columns", "key,size"][..];
    let timed = &["--columns", "key,time", "--ttl", "1s"][..];
    refused(
        sized,
        b"a 5\nb\n",
        "line 2 of the trace: the size is in column 2, and the line has 1",
    );
    refused(
        sized,
        b"a 5\n\nb -7\n",
        "line 3 of the trace: the size `-7` isn't a number",
    );
    refused(sized, b"a 4294967296\n", "line 1 of the trace: the size 4294967296 is above 4294967295, the most that an entry weighs");
    refused(sized, b"a,5\n,7\n", "line 2 of the trace: the key is empty");
    refused(
        timed,
        b"a 5\nb 4\n",
        "line 2 of the trace: its time is before that of the line above; sort the trace by time",
    );
    refused(
        timed,
        b"a 5\nb x\n",
        "line 2 of the trace: the time `x` isn't a number",
    );
    refused(timed, b"a 99999999999\n", "line 1 of the trace: the time `99999999999` is above 584 years; --time-unit gives its unit");
    refused(
        &[],
        b"key,size\na,5\n\"b,5\n",
        "line 3 of the trace: a quoted field doesn't end",
    );
    refused(
        &["--format", "csv"],
        b"id,size\na,5\n",
        "line 1 of the trace: the header has no column `key`; it has `id`, `size`",
    );
    refused(
        &["--columns", "key,size=length"],
        b"key,size\na,5\n",
        "line 1 of the trace: the header has no column `length`; it has `key`, `size`",
    );
    let wide = (0..25).map(|column| format!("c{column},"));
    let header = wide.collect::<String>() + "last\na,5\n";
    let shown = (0..20).map(|column| format!("`c{column}`, "));
    refused(
        &["--columns", "key=id"],
        header.as_bytes(),
        &format!(
            "line 1 of the trace: the header has no column `id`; it has {}..",
            shown.collect::<String>()
        ),
    );
    refused(
        &["--format", "arc"],
        b"5 2 0 0\n5\n",
        "line 2 of the trace: the count is in column 2, and the line has 1",
    );
    refused(
        &["--format", "arc"],
        b"x 2 0 0\n",
        "line 1 of the trace: the start block `x` isn't a number",
    );
    refused(
        &["--format", "arc"],
        b"18446744073709551615 2 0 0\n",
        "line 1 of the trace: its blocks end above 18446744073709551615",
    );
    refused(
        &["--format", "lirs"],
        b"5\nblock\n",
        "line 2 of the trace: the block `block` isn't a number",
    );
    let long = vec![b'x'; 70_000];
    refused(
        &[],
        &long,
        "line 1 of the trace: it is longer than 65,536 bytes",
    );
}

#[test]
fn a_trace_that_is_no_trace_is_refused() {
    refused(&[], b"", "the trace has no request");
    refused(&[], b"\n \n", "the trace has no request");
    refused(&[], b"key,size\n", "the trace has no request");
    refused(
        &["--ttl", "1s"],
        b"a\n",
        "--ttl needs a column of times, as --columns key,time or key=NAME,time=NAME",
    );
    refused(
        &[],
        b"\x1f\x8b\x08\x00",
        "the trace is compressed: zcat FILE | ./moka_sim",
    );
    refused(
        &[],
        b"BZh91AY\xff\xfe\n",
        "the trace is compressed: bzcat FILE | ./moka_sim",
    );
    assert_eq!(requested(&trace(&[], "BZhappy\n")), ["BZhappy"]);
    let several = "line 1 of the trace: it has several columns; name them with --columns, or say --format lines if the whole line is the key";
    refused(&[], b"a 5\n", several);
    refused(&[], b"a,5\n", several);
}

#[test]
fn progress_is_told_each_65536_lines() {
    let text = "1\n".repeat(140_000);
    let told = std::cell::RefCell::new(Vec::new());
    let plan = common::options(&[]).plan;
    moka_sim::reader::read(text.as_bytes(), &plan, |lines| {
        told.borrow_mut().push(lines)
    })
    .expect("reads");
    assert_eq!(*told.borrow(), [65_536, 131_072]);
}

#[test]
fn a_footprint_is_of_the_distinct_keys() {
    let read = trace(&["--columns", "key,size"], "a 60\nb 30\na 50\nlong-key 1\n");
    assert_eq!(read.footprint(), Ok(50 + 30 + 8));
}

/// Returns the lines that are made.
fn made(kind: Kind, count: u64, seed: u64, is_csv: bool) -> String {
    let mut out = Vec::new();
    write(kind, count, seed, is_csv, &mut out).expect("makes");
    String::from_utf8(out).expect("text")
}

#[test]
fn a_make_is_repeatable() {
    for (name, kind) in Kind::ALL {
        let text = made(kind, 2000, 1, false);
        assert_eq!(text.lines().count(), 2000, "{name}");
        assert_eq!(made(kind, 2000, 1, false), text, "{name}");
        assert_eq!(
            made(kind, 2000, 2, false) == text,
            kind == Kind::Loop,
            "{name}"
        );
    }
}

/// Returns a made trace, as the numbers of its keys.
fn numbers(kind: Kind, count: u64) -> Vec<u64> {
    made(kind, count, 1, false)
        .lines()
        .map(|line| line.parse().expect("a number"))
        .collect()
}

fn counts(keys: &[u64]) -> BTreeMap<u64, usize> {
    let mut counts = BTreeMap::new();
    keys.iter()
        .for_each(|key| *counts.entry(*key).or_default() += 1);
    counts
}

#[test]
fn kinds_are_as_described() {
    // The key of rank 1 has 1/7.5 of the requests of 1,000 keys, and that of rank 2 half of it.
    let zipf = counts(&numbers(Kind::Zipf, 10_000));
    assert!(
        (1200..1450).contains(&zipf[&0]) && (600..750).contains(&zipf[&1]),
        "{} {}",
        zipf[&0],
        zipf[&1]
    );
    assert!(zipf.keys().all(|key| *key < 1000));
    let scan = numbers(Kind::Scan, 10_000);
    assert!(scan[..100].iter().all(|key| *key < 1000));
    assert_eq!(scan[100..200], (1000..1100).collect::<Vec<u64>>());
    assert_eq!(scan[1100..1200], (1000..1100).collect::<Vec<u64>>());
    assert_eq!(
        numbers(Kind::Loop, 1000)[95..105],
        [95, 96, 97, 98, 99, 0, 1, 2, 3, 4]
    );
    let drift = numbers(Kind::Drift, 10_000);
    let popular = |part: usize| {
        counts(&drift[part * 1000..(part + 1) * 1000])
            .into_iter()
            .max_by_key(|(_, count)| *count)
            .map(|(key, _)| key)
    };
    assert_eq!(
        (popular(0), popular(1), popular(9)),
        (Some(0), Some(142), Some(278))
    );
    let soon = numbers(Kind::Soon, 10_000);
    assert!(counts(&soon[..9000])
        .values()
        .all(|count| (1..=4).contains(count)));
    assert!(counts(&soon).values().filter(|count| **count == 4).count() > 2400);
    let churn = numbers(Kind::Churn, 10_000);
    assert!(churn.iter().any(|key| *key >= 1000) && churn.iter().all(|key| *key < 1500));
}

#[test]
fn phases_and_the_stress_test_have_their_parts() {
    let phases = numbers(Kind::Phases, 10_000);
    assert!(phases[..2000].iter().all(|key| (2000..4000).contains(key)));
    assert!(phases[2000..4000].iter().all(|key| *key < 1000));
    assert_eq!(
        phases[4000..4400],
        (1000..1200).chain(1000..1200).collect::<Vec<u64>>()
    );
    assert!(phases[6000..8000].iter().all(|key| *key >= 12_000));
    assert_eq!(
        counts(&phases[8000..])
            .into_iter()
            .max_by_key(|(_, count)| *count)
            .map(|(key, _)| key),
        Some(500)
    );
    let stress = numbers(Kind::Stress, 1700);
    assert!(stress[..700].iter().all(|key| (60..1760).contains(key)));
    assert_eq!(
        stress[700..1000],
        (0..60).cycle().take(300).collect::<Vec<u64>>()
    );
    assert!(stress[1000..].iter().all(|key| *key >= 1760));
}

#[test]
fn a_made_csv_has_sizes_and_times() {
    let text = made(Kind::Zipf, 1000, 1, true);
    let read = trace(&["--ttl", "1s"], &text);
    assert_eq!(
        requested(&read),
        requested(&keys(&made(Kind::Zipf, 1000, 1, false)))
    );
    let sizes = read.sizes.as_ref().expect("sizes");
    assert!(sizes.iter().all(|size| (64..65_536).contains(size)));
    assert!(sizes.iter().any(|size| *size < 128) && sizes.iter().any(|size| *size >= 32_768));
    // A key has one size.
    let of_key: BTreeMap<u32, u32> = read
        .requests
        .iter()
        .copied()
        .zip(sizes.iter().copied())
        .collect();
    assert!(read
        .requests
        .iter()
        .zip(sizes)
        .all(|(key, size)| of_key[key] == *size));
    // 10 ms a request on average.
    let end = read
        .times
        .as_ref()
        .and_then(|times| times.last().copied())
        .expect("times");
    assert!((9_000_000_000..11_000_000_000).contains(&end), "{end}");
}

#[test]
fn the_examples_are_made() {
    let folder = concat!(env!("CARGO_MANIFEST_DIR"), "/../../examples/traces/");
    let example = |name: &str| std::fs::read_to_string(format!("{folder}{name}")).expect(name);
    assert_eq!(example("stress.txt"), made(Kind::Stress, 17_000, 1, false));
    assert_eq!(example("phases.txt"), made(Kind::Phases, 10_000, 1, false));
    assert_eq!(example("sizes.csv"), made(Kind::Churn, 3000, 1, true));
}
