//! `bench`, from the repository's root (see `./benchmark`): the proved check and runner against the fast version and the second
//! implementation. Prints what it measures, and writes docs/PERFORMANCE.md and its pictures. `bench stack`: only the stack. `bench masks`:
//! only the calls with masks, and their tables; `bench highest`: only what the settings cost, and its tables; nothing is written.

mod highest;
mod machine;
mod masks;
mod measure;
mod plot;
mod puts;
mod refused;
mod report;
mod stack;

use measure::{Bench, Row};
use second::benchmark::programs::PROGRAMS;
use second::benchmark::worst::KINDS;
use second::tool::{self, Fault};
use std::path::Path;

/// The sizes of the growing files, in words.
const SIZES: [usize; 4] = [1_024, 2_048, 4_096, 8_192];

/// Everything that was measured.
pub struct Measured {
    pub usual: Vec<Row>,
    pub worst: Vec<Row>,
    /// For each kind of growing files, a row for each size.
    pub growing: Vec<Vec<Row>>,
    pub masks: masks::Measured,
    pub highest: highest::Measured,
    pub runs: Vec<Row>,
    pub stack: Vec<stack::Used>,
}

/// A file of tests, its answer and, where it was counted, the instructions of the yardstick.
pub struct Expected {
    pub name: String,
    pub bytes: Vec<u8>,
    line: String,
    yardstick: Option<u64>,
}

/// The files of a folder of tests.
pub fn expected(folder: &str) -> Vec<Expected> {
    let folder = Path::new("tests").join(folder);
    let all = std::fs::read_to_string(folder.join("expected")).expect("the file `expected`");
    let one = |line: &str| {
        let fields: Vec<&str> = line.split('\t').collect();
        Expected {
            name: fields[0].to_string(),
            bytes: std::fs::read(folder.join(fields[0])).expect("a file of tests"),
            line: fields[1].to_string(),
            yardstick: (fields[2] != "-").then(|| fields[2].parse().expect("the yardstick's instructions")),
        }
    };
    all.lines().map(one).collect()
}

fn folder(bench: &Bench, name: &str) -> Vec<Row> {
    let check = |file: Expected| Row { yardstick: file.yardstick, ..bench.check(&file.name, &file.bytes, Some(&file.line)) };
    expected(name).into_iter().map(|file| bench.show(check(file))).collect()
}

fn growing(bench: &Bench) -> Vec<Vec<Row>> {
    let of_kind = |kind: &second::benchmark::worst::Kind| {
        let one = |words: &usize| bench.show(bench.check(kind.name, &kind.file(*words), None));
        SIZES.iter().map(one).collect()
    };
    KINDS.iter().map(of_kind).collect()
}

fn main() {
    tool::run(env!("CARGO_BIN_NAME"), "[stack|masks|highest]", program)
}

/// The exit status is not 0 where the stack is more than it may be; the other promises stop the program.
fn program(arguments: &[String], _: &mut dyn std::io::Write) -> Result<u8, Fault> {
    match arguments {
        [] => {
            let measured = measure();
            write(&measured);
            return Ok(u8::from(!stack::suffices(&measured.stack)));
        }
        [word] if word == "stack" => return Ok(u8::from(!stack::suffices(&stack::measure()))),
        [word] if word == "masks" => {
            let measured = masks::measure(&Bench::new());
            println!("\n{}", report::masks(&measured));
            measured.puts_as_cheap_as_reading();
        }
        [word] if word == "highest" => {
            let measured = highest::measure(&Bench::new());
            println!("\n{}", report::highest::section(&measured));
            measured.keeps_promises();
        }
        _ => return Err(Fault::Usage),
    }
    Ok(0)
}

fn measure() -> Measured {
    let bench = Bench::new();
    println!("instructions without start-up: proved, fast, second; nanoseconds: proved, fast, second");
    let usual = folder(&bench, "usual");
    let worst = folder(&bench, "worst");
    let growing = growing(&bench);
    let masks = masks::measure(&bench);
    masks.puts_as_cheap_as_reading();
    let highest = highest::measure(&bench);
    highest.keeps_promises();
    let runs = PROGRAMS.iter().map(|program| bench.show(bench.run(program.name))).collect();
    let stack = stack::measure();
    Measured { usual, worst, growing, masks, highest, runs, stack }
}

fn write(measured: &Measured) {
    let write = |name: &str, text: String| std::fs::write(Path::new("docs").join(name), text).expect("docs");
    write("performance-ratios.svg", plot::ratios(measured));
    write("performance-growth.svg", plot::growth(measured));
    let text = report::text(measured);
    println!("\n{text}");
    write("PERFORMANCE.md", text);
    println!("written: docs/PERFORMANCE.md and its pictures");
}
