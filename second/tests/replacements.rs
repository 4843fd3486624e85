//! What the generated replacements of request [5] try, by the second implementation: that none of the sorts is missing or rare.

use second::generate::file_prng;
use second::generate::put_cases::{put_case, PutCase};
use second::layout::syntax::{Command, File};
use second::naive::commands::{all_commands, with_inner};
use second::naive::masks::{is_simple, masks_of, put, with_words, words_of_command};
use second::naive::read::{read, read_command};
use std::collections::BTreeMap;

/// How many of the generated replacements are of each sort.
#[derive(Default, Debug)]
struct Shares {
    cases: u64,
    put: u64,
    same: u64,
    /// Put in the main program, in a procedure, in a carried command.
    put_at: [u64; 3],
    /// Put, by the kind of its first word.
    put_kinds: BTreeMap<u32, u64>,
    /// Put, and a mask changed: of a command around it, of one that calls it.
    changed_around: u64,
    changed_caller: u64,
    /// The file's own refusals, and 17.
    refused: BTreeMap<u32, u64>,
    /// 18 at a simple command.
    seven: u64,
    seven_by_call: u64,
    too_deep: u64,
    /// The file so changed could be read, but the words are another whole command, or no one whole command.
    other_form: u64,
    not_whole: u64,
    other_length: u64,
    no_command: u64,
    /// No simple command of the length at a simple command, by the kind of its first word.
    wrong_kinds: BTreeMap<u32, u64>,
    no_words: u64,
    empty: u64,
    other_place: u64,
    past: u64,
}

/// The kind of the first word, 64 if there is none.
fn first_kind(bytes: &[u8]) -> u32 {
    bytes.get(3).map_or(64, |byte| u32::from(*byte) >> 2)
}

fn end_of(command: &Command) -> usize {
    command.place + words_of_command(command).len()
}

impl Shares {
    fn add(&mut self, case: &PutCase) {
        self.cases += 1;
        let (mut bytes, mut masks) = (case.bytes.clone(), case.lent.clone());
        match put(&mut bytes, &mut masks, case.place, &case.new, case.settings) {
            Ok(()) => self.add_put(case, &bytes),
            Err(refusal) if refusal.number == 18 => self.add_18(case),
            Err(refusal) => *self.refused.entry(refusal.number).or_default() += 1,
        }
    }

    fn add_put(&mut self, case: &PutCase, bytes: &[u8]) {
        self.put += 1;
        self.same += u64::from(bytes == case.bytes);
        let [old, new] = [&case.bytes[..], bytes].map(|bytes| read(bytes, case.settings).expect("readable"));
        self.put_at[part(&new, case.place)] += 1;
        *self.put_kinds.entry(first_kind(&case.new)).or_default() += 1;
        let count = bytes.len() / 4;
        let (before, after) = (masks_of(&old, count), masks_of(&new, count));
        let changed = |around: bool| {
            let holds = |command: &Command| (command.place..end_of(command)).contains(&case.place) == around;
            let other = |command: &&Command| command.place != case.place && before[command.place] != after[command.place];
            u64::from(all_commands(&new).into_iter().filter(other).any(holds))
        };
        self.changed_around += changed(true);
        self.changed_caller += changed(false);
    }

    fn add_18(&mut self, case: &PutCase) {
        let file = read(&case.bytes, case.settings).expect("readable");
        self.past += u64::from(case.place >= case.bytes.len() / 4);
        let commands = all_commands(&file);
        let Some(old) = commands.iter().find(|command| command.place == case.place && is_simple(command)) else {
            self.other_place += 1;
            return;
        };
        self.no_words += u64::from(case.new.len() % 4 != 0);
        self.empty += u64::from(case.new.is_empty());
        if case.new.len() != 4 * words_of_command(old).len() {
            self.other_length += 1;
            return;
        }
        let new = read_command(&case.new, case.settings);
        let whole = new.as_ref().is_some_and(is_simple);
        if !whole {
            *self.wrong_kinds.entry(first_kind(&case.new)).or_default() += 1;
        }
        match read(&with_words(&case.bytes, case.place, &case.new), case.settings) {
            Ok(_) => *if new.is_some() { &mut self.other_form } else { &mut self.not_whole } += 1,
            Err(_) if !whole => self.no_command += 1,
            Err(refusal) if refusal.number == 4 => self.too_deep += 1,
            Err(refusal) => {
                assert_eq!(refusal.number, 7);
                let around = commands.iter().find(|command| command.place == refusal.place).expect("a for");
                let direct = (around.place..end_of(around)).contains(&case.place);
                *if direct { &mut self.seven } else { &mut self.seven_by_call } += 1;
            }
        }
    }
}

/// 0 in the main program, 1 in a procedure, 2 in a carried command.
fn part(file: &File, place: usize) -> usize {
    let within = |command: &Command| with_inner(command).iter().any(|inner| inner.place == place);
    if within(&file.command) {
        return 0;
    }
    if file.procedures.iter().any(|procedure| within(&procedure.command)) {
        1
    } else {
        2
    }
}

/// The generator makes replacements of every sort, a good share of them right.
#[test]
fn shares_of_generated_replacements() {
    let mut shares = Shares::default();
    (0..6_000).for_each(|i| shares.add(&put_case(&mut file_prng(16, i))));
    println!("{shares:?}");
    let s = &shares;
    let floors = [
        (s.put, 1_400),
        (s.same, 100),
        (*s.put_at.iter().min().expect("three"), 250),
        (s.changed_around, 600),
        (s.changed_caller, 120),
        (s.seven, 80),
        (s.seven_by_call, 40),
        (s.too_deep, 30),
        (s.other_form, 30),
        (s.not_whole, 60),
        (s.other_length, 80),
        (s.no_command, 150),
        (s.no_words, 5),
        (s.empty, 20),
        (s.other_place, 120),
        (s.past, 50),
    ];
    for (n, (count, floor)) in floors.iter().enumerate() {
        assert!(count >= floor, "share {n}: {shares:?}");
    }
    let has = |counts: &BTreeMap<u32, u64>, kinds: &[u32], floor: u64| {
        kinds.iter().all(|kind| counts.get(kind).is_some_and(|count| *count >= floor))
    };
    assert!(has(&s.put_kinds, &[24, 26, 27, 28], 50), "{shares:?}");
    assert!(has(&s.wrong_kinds, &[24, 25, 26, 27, 28, 29, 30, 31, 32, 33, 38], 2), "{shares:?}");
    assert!(has(&s.refused, &[1, 2, 3, 4, 5, 6, 7, 16], 2) && has(&s.refused, &[17, 19], 100), "{shares:?}");
}
