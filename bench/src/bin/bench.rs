//! Measures the proved reader and the plain Rust reader on the same tables, in the same run.

use noderun_bench::generate::{self, Calls, Random};
use noderun_bench::{plain, proved, reader, Outcome};
use std::hint::black_box;
use std::process::ExitCode;
use std::time::Instant;

const SEED: u64 = 0x6e6f_6465_7275_6e32;
const SET: u8 = 1;
const ROUNDS: usize = 1001;
const READS_PER_ROUND: u32 = 8;

/// The nanoseconds that one read takes, on average over a round.
fn round(read: impl Fn()) -> f64 {
    let start = Instant::now();
    for _ in 0..READS_PER_ROUND {
        read();
    }
    start.elapsed().as_nanos() as f64 / f64::from(READS_PER_ROUND)
}

fn median(mut times: Vec<f64>) -> f64 {
    times.sort_by(f64::total_cmp);
    times[times.len() / 2]
}

/// Measures both readers in turn, round by round, and prints a line for each and their ratio.
fn measure(name: &str, words: &[u32]) -> Result<(), String> {
    let expected = plain(SET, words);
    if !matches!(expected, Outcome::Nodes(_)) || proved::read(SET, words) != Ok(expected) {
        return Err(format!("{name}: the readers do not both accept the table"));
    }
    let (mut proved_times, mut plain_times) = (Vec::new(), Vec::new());
    for _ in 0..ROUNDS {
        proved_times.push(round(|| {
            let mut report = [0; proved::REPORT_WORDS];
            black_box(proved::call(SET, black_box(words), &mut report));
            black_box(&report);
        }));
        plain_times.push(round(|| {
            let _ = black_box(reader::read(SET, black_box(words)));
        }));
    }
    let (proved, plain) = (median(proved_times), median(plain_times));
    let rate = |time: f64| words.len() as f64 * 1e3 / time;
    println!("{name}, {} words:", words.len());
    println!(
        "  proved reader      {:7.1} million words per second",
        rate(proved)
    );
    println!(
        "  plain Rust reader  {:7.1} million words per second",
        rate(plain)
    );
    println!(
        "  the proved reader takes {:.2} times as long",
        proved / plain
    );
    Ok(())
}

fn main() -> ExitCode {
    println!(
        "Median of {ROUNDS} rounds of {READS_PER_ROUND} reads each, the two readers in turn; same words, both release \
         builds. Buffers and caches are not cleared in between. Both readers note where each node and equation stands."
    );
    let mut random = Random::new(SEED);
    let tables = [
        (
            "longest table",
            generate::of_length(&mut random, SET, 16_384, Calls::Few),
        ),
        (
            "longest table, as many calls as fit",
            generate::of_length(&mut random, SET, 16_384, Calls::Many),
        ),
        (
            "longest table without calls",
            generate::without_calls(&mut random, SET),
        ),
    ];
    for (name, words) in &tables {
        if let Err(text) = measure(name, words) {
            eprintln!("{text}");
            return ExitCode::FAILURE;
        }
    }
    ExitCode::SUCCESS
}
