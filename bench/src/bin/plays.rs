//! Prints the lines that make `bench_load` play the lists of `bench/run threads`, for a profiler: `plays GETS THREADS [TIMES]`. GETS is the number of gets in
//! a hundred calls.
use mini_moka_bench::play_program::{write_filling, write_lists};
use mini_moka_bench::thread_loads::{filling, Mix, CAPACITY};
use std::io::{self, BufWriter, Write};

fn number(word: &str) -> u64 {
    word.parse().expect("each word is a number")
}

fn main() -> io::Result<()> {
    let words: Vec<String> = std::env::args().skip(1).collect();
    let [gets, threads, times @ ..] = words.as_slice() else {
        panic!("usage: plays GETS THREADS [TIMES]");
    };
    let times = times.first().map_or(1, |word| number(word));
    let mix = Mix::new(number(gets), number(threads) as usize);
    let mut requests = BufWriter::new(io::stdout().lock());
    write_filling(&mut requests, CAPACITY, &filling())?;
    write_lists(&mut requests, &mix.lists)?;
    for _ in 0..times {
        writeln!(requests, "play sync")?;
        writeln!(requests, "nanos")?;
    }
    requests.flush()
}
