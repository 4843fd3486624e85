//! The section on the highest settings.

use super::{figures, thousands};
use crate::highest::{Cost, Measured, Old, Pair};
use std::fmt::Write;

fn milliseconds(nanoseconds: u64) -> String {
    figures(nanoseconds as f64 / 1e6)
}

fn kinds_table(all: &[Cost]) -> String {
    let mut out = String::from("| File | Bytes | Instructions | ÷ fast | ms | Time ÷ fast |\n|---|--:|--:|--:|--:|--:|\n");
    for cost in all {
        let name = format!("{}: {}", cost.name, cost.tries);
        let counts = [cost.file.len() as u64, cost.instructions[0]].map(thousands).join(" | ");
        let [ratio, time] = [cost.instructions, cost.nanoseconds].map(|[proved, fast]| figures(proved as f64 / fast as f64));
        let _ = writeln!(out, "| {name} | {counts} | {ratio} | {} | {time} |", milliseconds(cost.nanoseconds[0]));
    }
    out
}

fn pairs_table(all: &[Pair]) -> String {
    let mut out =
        String::from("| File | Bytes | 10, old settings | 10, highest settings | 16, highest settings | 16 ÷ 10 |\n|---|--:|--:|--:|--:|--:|\n");
    for pair in all {
        let counts = [pair.bytes as u64, pair.ten_old, pair.ten_highest, pair.sixteen].map(thousands);
        let _ = writeln!(out, "| {} | {} | {} |", pair.name, counts.join(" | "), figures(pair.times()));
    }
    out
}

fn failing_table([first, last]: [[u64; 2]; 2]) -> String {
    let mut out = String::from("| The implication fails | Over 16 comparisons | Over 10 |\n|---|--:|--:|\n");
    for (name, counts) in [("in the first block", first), ("only in the last", last)] {
        let _ = writeln!(out, "| {name} | {} |", counts.map(thousands).join(" | "));
    }
    out
}

fn old_table(all: &[Old]) -> String {
    let mut out = String::from("| File | `flow_check` | `flow_check_settings` | Ratio |\n|---|--:|--:|--:|\n");
    for old in all {
        let ratio = old.given as f64 / old.without as f64;
        let counts = [old.without, old.given].map(thousands);
        let _ = writeln!(out, "| {} | {} | {ratio:.4} |", old.name, counts.join(" | "));
    }
    out
}

/// What the worst file takes, what grows and what does not.
fn worst(cost: &Cost) -> String {
    let (name, bytes, [count, _]) = (cost.name, thousands(cost.file.len() as u64), cost.instructions);
    format!(
        "The worst file that we know, {name} of {bytes} bytes, takes {} instructions and {} ms on this machine. {GROWS}",
        thousands(count),
        milliseconds(cost.nanoseconds[0])
    )
}

pub fn section(m: &Measured) -> String {
    let (kinds, pairs) = (kinds_table(&m.kinds), pairs_table(&m.pairs));
    let (failing, old) = (failing_table(m.failing), old_table(&m.old));
    format!("{HIGHEST}\n{}\n{kinds}\n{PAIRS}\n{pairs}\n{FAILING}\n{failing}\n{OLD}\n{old}", worst(m.worst()))
}

const HIGHEST: &str = "## Highest settings

The check of request [6] with 16 comparisons, depth 256 and 128 members, on files of `second/src/benchmark/highest.rs`. The second
implementation takes too long for them.
";

const GROWS: &str = "The
instructions double with each comparison of an implication from the ninth on. The stack grows with the depth (see Stack). No room grows with
the comparisons: the words of four blocks of 64 assignments are made anew for each pass.
";

const PAIRS: &str = "The same file with 10 comparisons for 16, in instructions of the proved check: only constants differ, so that it has as many words and as
many implications, and it is accepted under the old settings too (a set has 64 members here for that, and a chain 105 steps). The benchmark
stops if 16 comparisons cost more than 64 times what 10 cost.
";

const FAILING: &str = "Judging stops at the first four blocks of which one fails. Here a file is refused for one implication, which fails where none of its
comparisons holds, in the first block, or where all of them hold, in the last: instructions of judging, without reading. The benchmark stops
if the first is more than a 64th of the last.
";

const OLD: &str = "The old values given as settings, on the usual files: instructions within the call. The benchmark stops if they cost more than 2 % more
than the call without settings.
";
