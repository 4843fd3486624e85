//! The machine and the tools of a measurement.

use std::process::Command;

/// The first line of what a program writes.
fn first_line(program: &str, argument: &str) -> String {
    let output = Command::new(program).arg(argument).output();
    let text = output.map(|o| String::from_utf8_lossy(&o.stdout).into_owned()).unwrap_or_default();
    text.lines().next().unwrap_or("unknown").trim().to_string()
}

fn processor() -> String {
    let text = std::fs::read_to_string("/proc/cpuinfo").unwrap_or_default();
    let model = text.lines().find_map(|line| line.strip_prefix("model name")?.split_once(": "));
    model.map_or("unknown", |(_, name)| name).trim().to_string()
}

pub fn lines() -> Vec<String> {
    let cores = std::thread::available_parallelism().map_or(1, |n| n.get());
    let rustc = first_line("rustc", "--version");
    let rustc = rustc.split(" (").next().unwrap_or_default().to_string();
    vec![
        format!("{}, {cores} cores", processor()),
        format!("{rustc}; {}; {}", first_line("rt", "--version"), first_line("valgrind", "--version")),
    ]
}
