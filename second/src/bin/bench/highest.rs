//! What the settings of request [6] cost, and that they keep its promises: what is dear under the highest ones, the same files with 10
//! comparisons for 16, an implication that fails early, and the old settings given.

use super::measure::{count_within, Bench, CHECK};
use second::benchmark::highest::{failing, over_ten, KINDS, OVER_SIXTEEN};
use second::benchmark::worst::Kind;
use second::layout::settings::{Settings, HIGHEST, STANDARD};

/// A file over 16 comparisons may cost so many times what it costs over 10.
const MOST_TIMES: u64 = 64;
/// An implication that fails in the last block costs so many times what one costs that fails in the first, or more.
const LEAST_TIMES: u64 = 64;
/// The call with the old settings may cost so many hundredths of the call without settings.
const MOST_HUNDREDTHS: u64 = 102;

/// Of the proved check and the fast one: instructions without start-up, and nanoseconds.
pub struct Cost {
    pub name: &'static str,
    pub tries: &'static str,
    pub file: Vec<u8>,
    pub instructions: [u64; 2],
    pub nanoseconds: [u64; 2],
}

/// The proved check's instructions on a file over 16 comparisons and on the same over 10.
pub struct Pair {
    pub name: &'static str,
    pub bytes: usize,
    pub ten_old: u64,
    pub ten_highest: u64,
    pub sixteen: u64,
}

impl Pair {
    pub fn times(&self) -> f64 {
        self.sixteen as f64 / self.ten_old.min(self.ten_highest) as f64
    }
}

/// Instructions of the call without settings and of the one with the old ones.
pub struct Old {
    pub name: String,
    pub without: u64,
    pub given: u64,
}

pub struct Measured {
    pub kinds: Vec<Cost>,
    pub pairs: Vec<Pair>,
    /// Instructions of judging an implication that fails in the first block, and of one that fails in the last: over 16 comparisons, over 10.
    pub failing: [[u64; 2]; 2],
    pub old: Vec<Old>,
}

impl Measured {
    /// The file that takes the most instructions.
    pub fn worst(&self) -> &Cost {
        self.kinds.iter().max_by_key(|cost| cost.instructions[0]).expect("a kind")
    }

    /// Stops where a promise is not kept, and says all that are not.
    pub fn keeps_promises(&self) {
        let mut broken = Vec::new();
        for pair in self.pairs.iter().filter(|pair| pair.times() > MOST_TIMES as f64) {
            broken.push(format!("{}: {:.1} times the cost at 10 comparisons", pair.name, pair.times()));
        }
        let [first, last] = self.failing.map(|[sixteen, _]| sixteen);
        if first * LEAST_TIMES > last {
            broken.push(format!("an implication that fails in the first block takes {first}, in the last {last}"));
        }
        for old in self.old.iter().filter(|old| old.given * 100 > old.without * MOST_HUNDREDTHS) {
            broken.push(format!("{}: {} with the old settings, {} without", old.name, old.given, old.without));
        }
        assert!(broken.is_empty(), "the settings cost more than they may: {}", broken.join("; "));
    }
}

/// Settings as arguments of `bench_check`.
pub fn options(settings: Settings) -> Vec<String> {
    let names = ["--comparisons", "--depth", "--members"];
    names.iter().zip(settings.numbers()).flat_map(|(name, number)| [name.to_string(), number.to_string()]).collect()
}

/// The instructions within a function of the proved call with settings, and its line.
fn within(function: &str, bytes: &[u8], settings: Settings) -> (u64, String) {
    let options = options(settings);
    let program: Vec<&str> = [CHECK, "settings"].into_iter().chain(options.iter().map(String::as_str)).collect();
    count_within(function, &program, bytes)
}

/// The instructions of the proved call with settings, which accepts the file.
fn accepted(name: &str, bytes: &[u8], settings: Settings) -> u64 {
    let (instructions, line) = within("flow_check_settings", bytes, settings);
    assert!(line.starts_with("accepted"), "{name}: {line}");
    instructions
}

fn cost(bench: &Bench, kind: &Kind) -> Cost {
    let file = kind.file(8_192);
    let options = options(HIGHEST);
    let options: Vec<&str> = options.iter().map(String::as_str).collect();
    let (instructions, nanoseconds) = bench.check_under(kind.name, &file, &options);
    println!("{} ({} bytes): {instructions:?}; {nanoseconds:?}", kind.name, file.len());
    Cost { name: kind.name, tries: kind.tries, file, instructions, nanoseconds }
}

/// A file that was measured is not measured again.
fn pair(costs: &[Cost], kind: &Kind) -> Pair {
    let (name, file) = (kind.name, kind.file(8_192));
    let known = costs.iter().find(|cost| cost.file == file);
    let sixteen = known.map_or_else(|| accepted(name, &file, HIGHEST), |cost| cost.instructions[0]);
    let ten = over_ten(&file);
    let [ten_old, ten_highest] = [STANDARD, HIGHEST].map(|settings| accepted(name, &ten, settings));
    println!("{name} ({} bytes): {sixteen}; over 10 comparisons {ten_old}, under the highest settings {ten_highest}", file.len());
    Pair { name, bytes: file.len(), ten_old, ten_highest, sixteen }
}

/// What judging a file takes that is refused for its implication.
fn refused(bytes: &[u8]) -> u64 {
    let (instructions, line) = within("judge::judge", bytes, HIGHEST);
    assert!(line.starts_with("refused 8 "), "a condition that fails: {line}");
    instructions
}

fn fails() -> [[u64; 2]; 2] {
    let all = failing().map(|file| [refused(&file), refused(&over_ten(&file))]);
    println!("judging what fails in the first block {:?}, in the last {:?}: over 16 comparisons, over 10", all[0], all[1]);
    all
}

/// On a usual file.
fn old(name: &str, bytes: &[u8]) -> Old {
    let (without, line) = count_within("flow_check", &[CHECK, "proved"], bytes);
    let (given, other) = within("flow_check_settings", bytes, STANDARD);
    assert_eq!(line, other, "{name}: the old settings given");
    println!("{name}: {without}; with the old settings given {given}");
    Old { name: name.to_string(), without, given }
}

pub fn measure(bench: &Bench) -> Measured {
    println!("under the highest settings: proved, fast");
    let kinds: Vec<Cost> = KINDS.iter().map(|kind| cost(bench, kind)).collect();
    let pairs = OVER_SIXTEEN.iter().map(|kind| pair(&kinds, kind)).collect();
    let usual = super::expected("usual");
    Measured { pairs, failing: fails(), old: usual.iter().map(|file| old(&file.name, &file.bytes)).collect(), kinds }
}
