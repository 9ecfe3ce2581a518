//! Runs very many tables through the proved reader and the plain Rust reader, and fails at the first difference.
//!
//! An argument sets how many random tables are tried beside the systematic ones.

use noderun_bench::generate::{self, Calls, Random};
use noderun_bench::{plain, proved, Outcome};
use std::process::ExitCode;

const SEED: u64 = 0x6e6f_6465_7275_6e31;
const SETS: [u8; 2] = [1, 2];
const RANDOM_TABLES: usize = 1_000_000;

/// How many tables were compared, and how many of them had each outcome.
#[derive(Default)]
struct Comparison {
    outcomes: [u64; 7],
}

impl Comparison {
    /// Compares the readers on one table.
    fn check(&mut self, set: u8, words: &[u32]) -> Result<(), String> {
        let expected = plain(set, words);
        match proved::read(set, words) {
            Ok(outcome) if outcome == expected => {
                self.outcomes[expected.number() as usize] += 1;
                Ok(())
            }
            Ok(outcome) => Err(difference(set, words, &format!("{outcome:?}"), expected)),
            Err(answer) => Err(difference(set, words, &answer, expected)),
        }
    }

    fn tables(&self) -> u64 {
        self.outcomes.iter().sum()
    }
}

fn difference(set: u8, words: &[u32], proved: &str, plain: Outcome) -> String {
    let mut text = format!(
        "the readers differ on a table of {} words for set {set}:\n",
        words.len()
    );
    for line in words.chunks(8) {
        let line: Vec<String> = line.iter().map(|word| format!("{word:08X}")).collect();
        text += &format!("    {}\n", line.join(" "));
    }
    text + &format!("proved reader: {proved}\nplain reader:  {plain:?}")
}

/// What the call does beside reading: sets that do not exist, and reports that are too short or longer than needed.
fn check_call(words: &[u32]) -> Result<(), String> {
    for set in (0..=255).filter(|set| !SETS.contains(set)) {
        let mut report = [7; 6];
        let number = proved::call(set, words, &mut report);
        if number != proved::UNKNOWN_SET || report != [0, 0, 0, 0, 7, 7] {
            return Err(format!(
                "set {set} answers {number} with the report {report:?}"
            ));
        }
    }
    for length in 0..proved::REPORT_WORDS {
        let mut report = vec![7; length];
        let number = proved::call(1, words, &mut report);
        if number != plain(1, words).number() || report.iter().any(|&word| word != 7) {
            return Err(format!(
                "a report of {length} words becomes {report:?}, with the number {number}"
            ));
        }
    }
    Ok(())
}

/// Every damage to one word of a table, at every place: each bit, each kind, the word gone, doubled or swapped with the next.
fn check_each_damage(comparison: &mut Comparison, set: u8, table: &[u32]) -> Result<(), String> {
    for length in 0..=table.len() {
        comparison.check(set, &table[..length])?;
    }
    for at in 0..table.len() {
        let mut words = table.to_vec();
        for bit in 0..32 {
            words[at] = table[at] ^ 1 << bit;
            comparison.check(set, &words)?;
        }
        for kind in 0..16 {
            words[at] = table[at] & 0x0fff_ffff | kind << 28;
            comparison.check(set, &words)?;
            words[at] = kind << 28;
            comparison.check(set, &words)?;
        }
        words[at] = table[at];
        words.insert(at, table[at]);
        comparison.check(set, &words)?;
        words.remove(at);
        words.remove(at);
        comparison.check(set, &words)?;
        words.insert((at + 1).min(words.len()), table[at]);
        comparison.check(set, &words)?;
    }
    Ok(())
}

/// Every sequence of up to four words of the alphabet, behind the opening of a second node.
fn check_each_sequence(
    comparison: &mut Comparison,
    set: u8,
    words: &mut Vec<u32>,
    more: usize,
) -> Result<(), String> {
    comparison.check(set, words)?;
    if more > 0 {
        for word in generate::alphabet() {
            words.push(word);
            check_each_sequence(comparison, set, words, more - 1)?;
            words.pop();
        }
    }
    Ok(())
}

fn compare(random_tables: usize) -> Result<Comparison, String> {
    let mut random = Random::new(SEED);
    let mut comparison = Comparison::default();
    check_call(&generate::valid(&mut random, 1))?;
    for set in SETS {
        for table in generate::limits(&mut random, set) {
            comparison.check(set, &table)?;
            comparison.check(3 - set, &table)?;
        }
        for _ in 0..40 {
            let table = generate::valid(&mut random, set);
            check_each_damage(&mut comparison, set, &table[..table.len().min(300)])?;
        }
        check_each_sequence(&mut comparison, set, &mut generate::opening(set), 4)?;
    }
    // The longest table, cut at every length.
    let longest = generate::of_length(&mut random, 1, 16_384, Calls::Few);
    for length in 0..=longest.len() {
        comparison.check(1, &longest[..length])?;
    }
    for _ in 0..2_000 {
        let mut table = longest.clone();
        generate::damage(&mut random, &mut table);
        comparison.check(1, &table)?;
    }
    for round in 0..random_tables {
        let set = SETS[random.below(2)];
        let mut table = generate::valid(&mut random, set);
        match round % 8 {
            0 => {}
            1 => {
                let length = random.below(12);
                table = (0..length)
                    .map(|_| generate::any_word(&mut random))
                    .collect();
            }
            _ => generate::damage(&mut random, &mut table),
        }
        comparison.check(set, &table)?;
    }
    if let Some(missing) = comparison.outcomes.iter().position(|&count| count == 0) {
        return Err(format!("no table has the outcome {missing}"));
    }
    Ok(comparison)
}

fn main() -> ExitCode {
    let random_tables = match std::env::args().nth(1).map(|count| count.parse()) {
        None => RANDOM_TABLES,
        Some(Ok(count)) => count,
        Some(Err(_)) => {
            eprintln!("usage: compare [NUMBER OF RANDOM TABLES]");
            return ExitCode::from(2);
        }
    };
    match compare(random_tables) {
        Ok(comparison) => {
            let outcomes: Vec<String> = comparison
                .outcomes
                .iter()
                .enumerate()
                .map(|(number, count)| format!("{number}: {count}"))
                .collect();
            println!(
                "compared {} tables, no difference; outcomes {}",
                comparison.tables(),
                outcomes.join(", ")
            );
            ExitCode::SUCCESS
        }
        Err(text) => {
            eprintln!("{text}");
            ExitCode::FAILURE
        }
    }
}
