use mini_moka_bench::port;
use mini_moka_bench::traces::{Operation, Settings, READ_THROUGH};

fn main() {
    let settings = Settings::with_capacity(2).with_durations();
    let read = |key| Operation {
        key,
        value: 1,
        kind: READ_THROUGH,
    };
    let outcome = port::play(&settings, &[read(7), read(8), read(7)]);
    println!("{} hits", outcome.hits);
}
