//! `compare_calls SEED COUNT [ROWS]`: makes COUNT files with a replacement for a command of each, and settings, and compares the check with
//! masks and the workbench call of the second implementation with those of the fast version and of the first, if one is linked (feature
//! `first`, see build.rs): the answer, every mask and every byte of the file afterwards; and that of each version the check with masks answers
//! as the check does, but for 17. ROWS is a file in the form of tests/calls.tsv, which each version is compared with. Exit status 1 on
//! a difference.

#[path = "first/calls.rs"]
mod first;
#[path = "first/run.rs"]
mod run;
#[path = "first/settings.rs"]
mod settings;

use second::generate::file_prng;
use second::generate::put_cases::put_case;
use second::naive::judge::line_of;
use second::tool::calls::{compare_rows, Call, Given, Left, Version, FAST, NAIVE};
use second::tool::rows::hex_of;
use second::tool::{self, Fault};
use std::collections::BTreeMap;
use std::io::Write;

const FIRST: Version = Version {
    name: "first",
    check: settings::check_settings,
    check_with_masks: first::check_with_masks,
    put: first::put,
    run: run::run,
};

/// The refusal of too few numbers.
const TOO_FEW: u64 = 17 * 65_536;

struct Comparison<'a> {
    out: &'a mut dyn Write,
    compared: u64,
    differences: u64,
    answers: BTreeMap<(&'static str, u64), u64>,
}

impl Comparison<'_> {
    /// The versions against the second implementation, on one call.
    fn call(&mut self, name: &str, given: &Given) -> Result<(), Fault> {
        let want = NAIVE.call(given).expect("the second implementation");
        let which = if matches!(given.call, Call::Masks) { "masks" } else { "put" };
        *self.answers.entry((which, want.packed / 65_536)).or_default() += 1;
        self.answers_as_without_masks(name, given, &want)?;
        for version in [FAST, FIRST] {
            let Some(got) = version.call(given) else { continue };
            self.compared += 1;
            if got != want {
                self.differ(name, given, &[version.name, &given.answer(&got), "second", &given.answer(&want)])?;
            }
        }
        Ok(())
    }

    /// "But for 17 judging answers as without masks."
    fn answers_as_without_masks(&mut self, name: &str, given: &Given, want: &Left) -> Result<(), Fault> {
        if matches!(given.call, Call::Put(..)) || want.packed == TOO_FEW {
            return Ok(());
        }
        for version in [NAIVE, FAST, FIRST] {
            let without = (version.check)(&given.bytes, given.settings);
            let (Some(with), Some(without)) = (version.call(given), without) else { continue };
            if with.packed != u64::from(without) {
                let (with, without) = (line_of(with.packed as u32), line_of(without));
                self.differ(name, given, &[version.name, &with, "without masks", &without])?;
            }
        }
        Ok(())
    }

    fn differ(&mut self, name: &str, given: &Given, said: &[&str]) -> Result<(), Fault> {
        self.differences += 1;
        writeln!(self.out, "{name}: {}\t{}\n  {}", given.text(), hex_of(&given.bytes), said.join(" "))?;
        Ok(())
    }

    /// Both calls on a generated file.
    fn generated(&mut self, seed: u64, i: u64) -> Result<(), Fault> {
        let case = put_case(&mut file_prng(seed, i));
        let name = format!("seed {seed}, case {i}");
        let mut given = Given { bytes: case.bytes, masks: case.lent, settings: case.settings, call: Call::Masks };
        self.call(&name, &given)?;
        given.call = Call::Put(case.place, case.new);
        self.call(&name, &given)
    }

    fn rows(&mut self, text: &str) -> Result<(), Fault> {
        for version in [NAIVE, FAST, FIRST] {
            let (compared, differences) = compare_rows(text, &version)?;
            self.compared += compared;
            self.differences += differences.len() as u64;
            differences.iter().try_for_each(|difference| writeln!(self.out, "{difference}"))?;
        }
        Ok(())
    }
}

fn main() {
    tool::run(env!("CARGO_BIN_NAME"), "SEED COUNT [ROWS]", program)
}

fn program(arguments: &[String], out: &mut dyn Write) -> Result<u8, Fault> {
    let (seed, count, rows) = match arguments {
        [seed, count] => (seed, count, String::new()),
        [seed, count, rows] => (seed, count, tool::read_text(rows)?),
        _ => return Err(Fault::Usage),
    };
    let (seed, count) = (tool::number(seed)?, tool::number(count)?);
    let mut all = Comparison { out, compared: 0, differences: 0, answers: BTreeMap::new() };
    all.rows(&rows)?;
    for i in 0..count {
        all.generated(seed, i)?;
    }
    let Comparison { out, compared, differences, answers } = all;
    for ((call, number), times) in answers {
        let said = if number == 0 { "done".to_string() } else { format!("refused {number}") };
        writeln!(out, "{call}\t{said}\t{times}")?;
    }
    writeln!(out, "seed {seed}: {compared} calls compared, {differences} differences")?;
    Ok(u8::from(differences > 0))
}
