//! What the program prints, and its status.

mod common;

use common::{between, limited_run, run, text};
use moka_sim::policies::Setting;

/// Three keys twice, and one that comes once.
const TRACE: &[u8] = b"a\nb\nc\na\nb\nc\nd\n";

#[test]
fn the_table_has_a_row_for_each_cache() {
    let out = run(
        &["--capacity", "4,2", "--settings", "lru,belady,default"],
        TRACE,
    );
    assert_eq!(
        (out.status.code(), text(&out.stderr)),
        (Some(0), String::new())
    );
    let table = "7 requests of 4 keys; capacities in entries

capacity  settings  hits %  evictions  rejections  window %
       2  lru         0.00          5           0         -
       2  belady     28.57          -           -         -
       2  default    28.57          1           2       0.0

       4  lru        42.86          0           0         -
       4  belady     42.86          -           -         -
       4  default    42.86          0           0       0.0

Choose a capacity of 4 with `default` (Cache::builder().max_capacity(4)): 42.86% of the requests hit, \
and no smaller capacity that was played has 99 of 100 of these hits, so a larger one may gain.
";
    assert_eq!(text(&out.stdout), table);
}

#[test]
fn the_table_has_columns_for_sizes_and_expirations() {
    let arguments = [
        "--columns",
        "key,size,time",
        "--ttl",
        "10s",
        "--capacity",
        "50%,100%",
        "--settings",
        "lru",
    ];
    let out = run(&arguments, b"a,30,1\nb,10,2\na,30,3\na,30,11\nb,10,11.5\n");
    let table = "5 requests of 2 keys, 110 bytes, all keys 40 bytes; capacities in bytes

capacity  settings  hits %  bytes %  evictions  rejections  expirations  window %
      20  lru        20.00     9.09          0           3            0         -

      40  lru        40.00    36.36          0           0            1         -

Choose a capacity of 40 bytes with `lru` (not a cache of this library): 40.00% of the requests hit, \
and no smaller capacity that was played has 99 of 100 of these hits, so a larger one may gain.
";
    assert_eq!(text(&out.stdout), table);
    let out = run(
        &[
            "--columns",
            "key,size",
            "--entries",
            "--capacity",
            "2",
            "--settings",
            "lru",
        ],
        b"a,30\nb,10\na,30\n",
    );
    let table = text(&out.stdout);
    assert!(
        table.starts_with(
            "3 requests of 2 keys, 70 bytes, all keys 40 bytes; capacities in entries\n"
        ),
        "{table}"
    );
    assert!(
        table.contains("\n       2  lru        33.33    42.86          0           0         -\n"),
        "{table}"
    );
}

#[test]
fn the_sentence_chooses_the_least_sufficient_capacity() {
    let sentence = |arguments: &[&str]| {
        let out = run(arguments, TRACE);
        text(&out.stdout)
            .trim_end()
            .lines()
            .last()
            .unwrap_or_default()
            .to_owned()
    };
    assert_eq!(
        sentence(&["--capacity", "1,3,4,1000", "--settings", "adaptive,protected80,lru"]),
        "Choose a capacity of 3 with `adaptive` (Cache::builder().max_capacity(3).adaptive()): 42.86% of the requests hit, \
         at least 99 of 100 of the hits of the largest capacity, 1,000, which are 42.86%."
    );
    assert_eq!(
        sentence(&["--settings", "belady"]),
        "There is nothing to choose: no cache that a program can have had a hit."
    );
    // A cache of one entry keeps the first key, and an LRU the last one.
    let out = run(
        &["--capacity", "1,3", "--settings", "default,lru"],
        b"x\nx\ny\ny\nz\nz\n",
    );
    assert!(text(&out.stdout).ends_with(
        "Choose a capacity of 3 with `default` (Cache::builder().max_capacity(3)): 50.00% of the requests hit, \
         and no smaller capacity that was played has 99 of 100 of these hits, so a larger one may gain; \
         an LRU has as many with 1.\n"
    ));
    assert!(sentence(&["--capacity", "4", "--settings", "protected80"])
        .contains("(Cache::builder().max_capacity(4).protected_share(80))"));
    assert!(sentence(&["--capacity", "4", "--settings", "segments"])
        .contains("(sync::Cache::builder().max_capacity(4))"));
}

#[test]
fn csv_has_a_line_for_each_cache() {
    let out = run(
        &[
            "--capacity",
            "4",
            "--settings",
            "default,belady",
            "--output",
            "csv",
        ],
        TRACE,
    );
    let header = "capacity,settings,requests,hits,bytes,hit_bytes,evictions,rejections,expirations,window_percent";
    assert_eq!(
        text(&out.stdout),
        format!("{header}\n4,default,7,3,,,0,0,0,0.00\n4,belady,7,3,,,,,,\n")
    );
    assert!(text(&out.stderr).starts_with("Choose a capacity of 4 with `default`"));
    let out = run(
        &[
            "--columns",
            "key,size",
            "--capacity",
            "99",
            "--settings",
            "lru",
            "--output",
            "csv",
        ],
        b"a 9\na 9\n",
    );
    assert_eq!(
        text(&out.stdout),
        format!("{header}\n99,lru,2,1,18,9,0,0,0,\n")
    );
}

#[test]
fn json_has_an_object_for_each_cache() {
    let out = run(
        &[
            "--capacity",
            "4",
            "--settings",
            "default,lru",
            "--output",
            "json",
        ],
        TRACE,
    );
    let parts = |window: &str| {
        let hits = [0, 0, 0, 1, 1, 1, 0];
        hits.map(|hits| {
            format!("{{\"requests\": 1, \"hits\": {hits}, \"window_percent\": {window}}}")
        })
        .join(", ")
    };
    let wanted = format!(
        "{{
\"requests\": 7,
\"keys\": 4,
\"bytes\": null,
\"capacities_in\": \"entries\",
\"time_to_live_ns\": null,
\"results\": [
{{\"capacity\": 4, \"settings\": \"default\", \"hits\": 3, \"hit_bytes\": null, \"evictions\": 0, \"rejections\": 0, \
\"expirations\": 0, \"window_percent\": 0.00, \"over_time\": [{}]}},
{{\"capacity\": 4, \"settings\": \"lru\", \"hits\": 3, \"hit_bytes\": null, \"evictions\": 0, \"rejections\": 0, \
\"expirations\": 0, \"window_percent\": null, \"over_time\": [{}]}}
],
\"advice\": {{\"capacity\": 4, \"settings\": \"default\", \"hits\": 3}}
}}
",
        parts("0.00"),
        parts("null")
    );
    assert_eq!(text(&out.stdout), wanted);
}

#[test]
fn an_svg_shows_hits_and_windows() {
    let file = std::env::temp_dir().join(format!("moka_sim_{}.svg", std::process::id()));
    let made = run(&["make", "soon", "3000"], b"").stdout;
    let name = file.to_string_lossy().into_owned();
    let out = run(&["--capacity", "100,500", "--svg", &name], &made);
    assert_eq!(out.status.code(), Some(0), "{}", text(&out.stderr));
    let svg = std::fs::read_to_string(&file).expect("a picture");
    std::fs::remove_file(&file).expect("is removed");
    assert_eq!(
        between(&svg, "font-weight=\"bold\">", "<"),
        "standard input: 3,000 requests of 758 keys"
    );
    for label in [
        "Hits by capacity",
        "capacity, entries",
        "hits, % of requests",
        "window, % of capacity",
        "requests so far",
    ] {
        assert!(svg.contains(&format!(">{label}</text>")), "{label}");
    }
    for tick in ["0", "20", "100", "200", "500", "1k", "3k"] {
        assert!(svg.contains(&format!(">{tick}</text>")), "{tick}");
    }
    // A line of the legend and one in both charts of hits for each cache; the library's four have a window.
    assert_eq!(svg.matches("<polyline").count(), 3 * 6 + 4);
    for setting in Setting::USUAL {
        assert!(
            svg.contains(&format!(">{}</text>", setting.name())),
            "{}",
            setting.name()
        );
    }
}

#[test]
fn a_run_that_fails_has_status_1_and_a_reason() {
    let failed = |arguments: &[&str], input: &[u8], message: &str| {
        let out = run(arguments, input);
        assert_eq!(
            (out.status.code(), text(&out.stderr)),
            (Some(1), format!("moka_sim: {message}\n"))
        );
    };
    failed(
        &["--format", "lirs"],
        b"1\nx\n",
        "line 2 of the trace: the block `x` isn't a number",
    );
    failed(
        &["no-such-file"],
        b"",
        "can't open no-such-file: No such file or directory (os error 2)",
    );
    failed(
        &["--svg", "/no-such-folder/x.svg"],
        b"a\n",
        "can't write /no-such-folder/x.svg: No such file or directory (os error 2)",
    );
    failed(
        &["make", "zipf", "900000000000000000"],
        b"",
        "there is no memory for so long a trace",
    );
    failed(
        &["--format", "arc"],
        b"1 1 0 0\n1 9999999999 0 0\n",
        "line 2 of the trace: the trace has more than 4294967294 requests",
    );
}

#[test]
fn a_trace_that_does_not_fit_into_memory_is_refused() {
    let out = limited_run(40_000, &["--format", "arc"], b"1 1 0 0\n1 90000000 0 0\n");
    assert_eq!(
        text(&out.stderr),
        "moka_sim: line 2 of the trace: the trace doesn't fit into memory\n"
    );
    assert_eq!(out.status.code(), Some(1));
}

#[test]
fn a_weighed_trace_larger_than_the_memory_is_refused() {
    let lines: Vec<String> = (0..40_000).map(|key| format!("{key},4294967295")).collect();
    let out = run(
        &["--columns", "key,size", "--capacity", "100%"],
        lines.join("\n").as_bytes(),
    );
    assert_eq!(out.status.code(), Some(1));
    let message = text(&out.stderr);
    let start = "moka_sim: capacity 171798691800000: a cache of the trace may take 171798702040000 bytes, and ";
    assert!(message.starts_with(start), "{message}");
    assert!(
        message.ends_with(" are available; say a smaller --capacity\n"),
        "{message}"
    );
}
