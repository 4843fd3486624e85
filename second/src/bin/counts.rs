//! `counts [SEED [COUNT]]`: makes accepted files and counts the rules in them.

use second::generate::prng::Prng;
use second::generate::{accepted, count_rules, RuleCounts, RULES};
use second::tool::{self, Fault};
use std::io::Write;

fn main() {
    tool::run(env!("CARGO_BIN_NAME"), "[SEED [COUNT]]", program)
}

fn program(arguments: &[String], out: &mut dyn Write) -> Result<u8, Fault> {
    let [seed, count] = tool::numbers(arguments, [1, 10_000])?;
    let mut rng = Prng::new(seed);
    let mut rules: RuleCounts = [[0; 33]; 3];
    let mut files = rules;
    let mut words = 0;
    let mut most = 0;
    let start = std::time::Instant::now();
    for _ in 0..count {
        let bytes = accepted(&mut rng);
        words += bytes.len() / 4;
        most = most.max(bytes.len() / 4);
        let mut here: RuleCounts = [[0; 33]; 3];
        count_rules(&bytes, &mut here);
        for k in 0..3 {
            for r in 0..33 {
                rules[k][r] += here[k][r];
                files[k][r] += u64::from(here[k][r] > 0);
            }
        }
    }
    let seconds = start.elapsed().as_secs_f64();
    writeln!(out, "seed {seed}, {count} accepted files, {words} words, longest {most}, {seconds:.1} s")?;
    for (k, (name, numbers)) in RULES.iter().enumerate() {
        for r in *numbers {
            writeln!(out, "{name} {r}: {} times in {} files", rules[k][*r], files[k][*r])?;
        }
    }
    Ok(0)
}
