//! `compare [SEED [COUNT [FROM]]] [stop]`: makes COUNT files (from number FROM)
//! and compares the second implementation's answers with those of the fast
//! version and of the first, if one is linked (feature `first`, see
//! build.rs): under the old settings, and every second file under two others,
//! of which one is the higher where both are in range; what raising them may
//! change is tried of each version (request [6]). For a difference the file in
//! hexadecimal and both answers; exit status 1. With `stop`, only up to the
//! first difference.

#[path = "first/check.rs"]
mod first;
#[path = "first/parts.rs"]
mod parts;
#[path = "first/settings.rs"]
mod settings;

use second::compare::raised::may_change;
use second::fast;
use second::generate::settings::{raised, settings as generated};
use second::generate::prng::Prng;
use second::generate::{file_prng, mixed, Kind};
use second::layout::settings::{Settings, STANDARD};
use second::naive::judge::{check, check_settings, line_of, packed_parts, postcondition, precondition, program, Answer};
use second::tool::calls::{FAST, NAIVE};
use second::tool::rows::hex_of;
use second::tool::{self, Fault};
use std::collections::BTreeMap;
use std::io::Write;
use std::time::{Duration, Instant};

/// The three parts are parts of an accepted file, and empty of a refused one; the first implementation has them at the same places.
fn parts_are_right(bytes: &[u8], under: Settings) -> bool {
    let answer = check_settings(bytes, under);
    let all = [program(bytes, under), precondition(bytes, under), postcondition(bytes, under)];
    let places = parts::parts(bytes, under);
    let right = |part: &&[u8]| match answer {
        Answer::Accepted(_) => part.len() >= 4,
        Answer::Refused(_) => part.is_empty(),
    };
    all.iter().all(right) && places.is_none_or(|places| places == packed_parts(bytes, under))
}

/// Each version's check under settings, the second implementation's first.
type Check = fn(&[u8], Settings) -> Option<u32>;
const VERSIONS: [(&str, Check); 3] =
    [("second", NAIVE.check), ("fast", FAST.check), ("first", settings::check_settings)];

/// A file that is compared, and what it is called.
struct File<'a> {
    name: String,
    bytes: &'a [u8],
}

/// The answers of versions, by their names; none of one that is not linked.
type Answers = [(&'static str, Option<u32>); 3];

/// What was made and found.
#[derive(Default)]
struct Tally {
    made: u64,
    answers: BTreeMap<(String, u32), u64>,
    under_settings: BTreeMap<u32, u64>,
    compared: u64,
    differences: u64,
    second_time: Duration,
    first_time: Duration,
}

impl Tally {
    /// File `i` of a seed.
    fn file(&mut self, seed: u64, i: u64, work: &mut fast::Work, out: &mut dyn Write) -> Result<(), Fault> {
        self.made += 1;
        let (kind, bytes) = mixed(seed, i);
        let file = File { name: format!("file {i} of seed {seed} ({kind:?})"), bytes: &bytes };
        let before = Instant::now();
        let answer = check(&bytes);
        self.second_time += before.elapsed();
        *self.answers.entry((format!("{kind:?}"), answer.packed() / 65_536)).or_default() += 1;
        if matches!(kind, Kind::Accepted | Kind::Tidied) && !matches!(answer, Answer::Accepted(_)) {
            self.differ(&file, &format!("made to be accepted: {}", answer.line()), out)?;
        }
        if i % 64 == 0 {
            self.parts(&file, STANDARD, out)?;
        }
        let before = Instant::now();
        let other = first::check(&bytes);
        self.first_time += before.elapsed();
        self.compared += u64::from(other.is_some());
        let second = ("second", Some(answer.packed()));
        self.compare(&file, STANDARD, &[second, ("fast", Some(fast::check(&bytes, work))), ("first", other)], out)?;
        if i % 2 == 0 || kind == Kind::Beyond {
            return self.under_settings(&file, &mut file_prng(!seed, i), out);
        }
        // "The old values give the old answers."
        let [naive, fast, first] = VERSIONS.map(|(name, check)| (name, check(&bytes, STANDARD)));
        self.compare(&file, STANDARD, &[second, naive, fast, first], out)
    }

    fn differ(&mut self, file: &File, said: &str, out: &mut dyn Write) -> Result<(), Fault> {
        self.differences += 1;
        writeln!(out, "{}: {}\n  {said}", file.name, hex_of(file.bytes))?;
        Ok(())
    }

    /// The answers of the versions that are linked are those of the first named.
    fn compare(
        &mut self,
        file: &File,
        under: Settings,
        answers: &[(&str, Option<u32>)],
        out: &mut dyn Write,
    ) -> Result<(), Fault> {
        let (which, want) = answers[0];
        for (other, got) in &answers[1..] {
            let (Some(got), Some(want)) = (*got, want) else { continue };
            if got != want {
                let settings = under.numbers();
                let said = format!("{other} {}, {which} {} under {settings:?}", line_of(got), line_of(want));
                self.differ(file, &said, out)?;
            }
        }
        Ok(())
    }

    fn parts(&mut self, file: &File, under: Settings, out: &mut dyn Write) -> Result<(), Fault> {
        if !parts_are_right(file.bytes, under) {
            self.differ(file, &format!("the program, the precondition or the postcondition under {:?}", under.numbers()), out)?;
        }
        Ok(())
    }

    /// The answers of all versions under settings, compared.
    fn answers(&mut self, file: &File, under: Settings, out: &mut dyn Write) -> Result<Answers, Fault> {
        let answers = VERSIONS.map(|(name, check)| (name, check(file.bytes, under)));
        let packed = answers[0].1.expect("the second implementation");
        *self.under_settings.entry(packed / 65_536).or_default() += 1;
        self.compare(file, under, &answers, out)?;
        Ok(answers)
    }

    /// A file under two settings of its own, the second as high as the first or higher, if they are in range.
    fn under_settings(&mut self, file: &File, rng: &mut Prng, out: &mut dyn Write) -> Result<(), Fault> {
        let low = generated(rng, file.bytes);
        let before = self.answers(file, low, out)?;
        if rng.once_in(16) {
            self.parts(file, low, out)?;
        }
        if !low.in_range() {
            return Ok(());
        }
        let high = raised(rng, low);
        let after = self.answers(file, high, out)?;
        for (i, (which, check)) in VERSIONS.iter().enumerate() {
            let (Some(one), Some(other)) = (before[i].1, after[i].1) else { continue };
            let again = |bytes: &[u8], under| check(bytes, under).expect("linked");
            if one != other && !may_change(one, file.bytes, low, again) {
                let settings = [low.numbers(), high.numbers()];
                let said = format!("{which}: {} became {} from {settings:?}", line_of(one), line_of(other));
                self.differ(file, &said, out)?;
            }
        }
        Ok(())
    }

    fn write_answers(&self, out: &mut dyn Write) -> Result<(), Fault> {
        let mut by_number: BTreeMap<u32, u64> = BTreeMap::new();
        for ((kind, number), times) in &self.answers {
            writeln!(out, "{kind}\t{}\t{times}", name(*number))?;
            *by_number.entry(*number).or_default() += times;
        }
        for (number, times) in &by_number {
            writeln!(out, "all\t{}\t{times}", name(*number))?;
        }
        for (number, times) in &self.under_settings {
            writeln!(out, "under settings\t{}\t{times}", name(*number))?;
        }
        Ok(())
    }
}

fn main() {
    tool::run(env!("CARGO_BIN_NAME"), "[SEED [COUNT [FROM]]] [stop]", compare)
}

fn compare(arguments: &[String], out: &mut dyn Write) -> Result<u8, Fault> {
    let (numbers, stop) = tool::numbers_and("stop", arguments);
    let [seed, count, from] = tool::numbers(numbers, [1, 10_000, 0])?;
    let mut tally = Tally::default();
    let mut work = fast::Work::new();
    let start = Instant::now();
    for i in from..from.saturating_add(count) {
        if stop && tally.differences > 0 {
            break;
        }
        tally.file(seed, i, &mut work, out)?;
    }
    let Tally { made, compared, differences, second_time, first_time, .. } = tally;
    writeln!(out, "seed {seed}, files {from} to {}", from + made)?;
    tally.write_answers(out)?;
    let seconds = start.elapsed().as_secs_f64();
    writeln!(out, "{:.0} files a second (with making them)", made as f64 / seconds)?;
    writeln!(out, "{:.0} checks a second (second)", made as f64 / second_time.as_secs_f64())?;
    if compared > 0 {
        writeln!(out, "{:.0} checks a second (first)", compared as f64 / first_time.as_secs_f64())?;
    }
    writeln!(out, "{compared} compared, {differences} differences")?;
    Ok(u8::from(differences > 0))
}

fn name(number: u32) -> String {
    if number == 0 {
        "accepted".to_string()
    } else {
        format!("refused {number}")
    }
}
