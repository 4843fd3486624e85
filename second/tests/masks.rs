//! Request [5], sentence by sentence, by the second implementation and by the fast one.

use second::layout::settings::STANDARD;
use second::layout::words::{bytes_of, pack};
use second::naive::masks::with_words;
use second::naive::read::read;
use second::tool::calls::{Call, Given, FAST, NAIVE};

fn words(text: &str) -> Vec<u32> {
    let word = |text: &str| {
        let (kind, payload) = text.split_once(':').expect("kind:payload");
        pack(kind.parse().expect("a kind"), payload.parse().expect("a payload"))
    };
    text.split_whitespace().map(word).collect()
}

/// Words `kind:payload` behind the word that counts them.
fn file(text: &str) -> Vec<u8> {
    let mut all = vec![0];
    all.extend(words(text));
    all[0] = pack(63, all.len() as u32);
    bytes_of(&all)
}

/// The answer of both versions, in the form of tests/calls.tsv, with so many numbers lent.
fn answer(bytes: &[u8], lent: usize, call: &Call) -> String {
    let masks = (0..lent as u64).map(|i| !i).collect();
    let given = Given { bytes: bytes.to_vec(), masks, settings: STANDARD, call: call.clone() };
    let [naive, fast] = [NAIVE, FAST].map(|version| given.answer(&version.call(&given).expect("linked")));
    assert_eq!(naive, fast, "{given:?}");
    naive
}

/// The masks of a file, as place=mask.
fn check_masks(rows: &[(&str, &str, &str)]) {
    for (text, line, masks) in rows {
        let bytes = file(text);
        let space = if masks.is_empty() { "" } else { " " };
        let want = |past: usize| format!("{line} | masks{space}{masks} past {past}");
        let count = bytes.len() / 4;
        assert_eq!(answer(&bytes, count, &Call::Masks), want(0), "{text}");
        assert_eq!(answer(&bytes, count + 3, &Call::Masks), want(3), "{text}");
        let few = "refused 17 0 | masks unchanged";
        assert_eq!(answer(&bytes, count - 1, &Call::Masks), few, "{text}");
    }
}

const END: &str = " 32:0 32:0 33:10";

/// "At each command word the mask of what it modifies (bit i scalar i, bit 32 + i array i) and 0 at other words."
#[test]
fn masks_of_commands() {
    let end = |text: &str| format!("{text}{END}");
    check_masks(&[
        (&end("24:0"), "accepted 1", ""),
        (&end("26:0 8:0 2:3 4:0 16:2 1:0"), "accepted 1", ""),
        (&end("27:0 2:7"), "accepted 1", "1=1"),
        (&end("27:31 2:7"), "accepted 1", "1=80000000"),
        (&end("28:0 16:7"), "accepted 1", "1=100000000"),
        (&end("28:31 18:0 16:31 2:1 2:2"), "accepted 1", "1=8000000000000000"),
        (&end("25:0 27:1 2:0 25:0 24:0 28:1 17:0"), "accepted 1", "1=200000002 2=2 4=200000000 6=200000000"),
        (&end("29:0 9:1 27:1 2:0 27:2 2:0"), "accepted 1", "1=6 3=2 5=4"),
        (&end("30:0 9:1 27:1 2:0"), "accepted 1", "1=2 3=2"),
    ]);
}

/// A `for` modifies its q, and not its m.
#[test]
fn masks_of_for() {
    check_masks(&[
        (&format!("31:32 24:0{END}"), "accepted 1", "1=1"),
        (&format!("31:37 27:7 2:0{END}"), "accepted 1", "1=a0 2=80"),
        (&format!("31:32 31:98 27:4 2:0{END}"), "accepted 1", "1=15 2=14 3=10"),
    ]);
}

/// A call modifies what its procedure's body modifies, through any number of calls.
#[test]
fn masks_of_calls() {
    let table = "62:2 25:0 27:3 2:0 28:1 17:0 32:0 32:0 33:10 31:197 38:0 32:0 32:0 33:10 ";
    check_masks(&[(
        &format!("{table} 25:0 38:1 25:0 38:0 27:0 2:0{END}"),
        "accepted 3",
        "2=200000008 3=8 5=200000000 10=200000028 11=200000008 15=200000029 16=200000028 17=200000009 18=200000008 19=1",
    )]);
}

/// A carried command has its masks too, in a procedure and in the main program, by rules 14 and 30.
#[test]
fn masks_of_carried_commands() {
    let meaning = "25:0 27:0 1:1 30:0 8:2 2:0 2:1 25:0 24:0 27:0 3:0 2:0 1:1";
    let carried = "6=1 7=1 9=1 13=1 15=1";
    check_masks(&[
        (&format!("31:32 24:0 32:0 32:0 33:14 {meaning} 33:10"), "accepted 2", &format!("1=1 {carried}")),
        (
            "24:0 32:1 9:1 2:0 32:1 9:1 2:0 33:11 35:30 25:0 27:3 2:0 28:4 17:0 35:29",
            "refused 8 9",
            "10=1000000008 11=8 13=1000000000",
        ),
        ("62:1 24:0 32:0 32:0 33:14 27:5 2:0 33:10 24:0 32:0 32:0 33:10", "refused 8 5", "6=20"),
    ]);
}

/// "Judging reads first, so 8 and 9 leave the masks stored"; rules 10, 11 and 27 ask what was stored.
#[test]
fn judged_with_masks() {
    let set = |x: u32| format!("32:1 9:1 2:{x} ");
    let kept = |x: u32, evidence: &str| format!("27:0 2:1 {} {} {evidence}", set(x), set(x));
    let test = |x: u32| format!("27:0 2:1 32:1 8:0 2:{x} 1:0 2:5 32:1 8:0 2:{x} 1:0 2:5 33:11 35:27");
    let many: String = (0..11).map(|i| format!("10:0 8:0 2:0 1:{i} ")).collect();
    let ninth = format!("27:3 2:0 32:0 32:1 {many} 9:1 2:5 33:8 32:0 33:10 34:14");
    check_masks(&[
        (&kept(1, "33:10"), "accepted 1", "1=1"),
        (&kept(0, "33:10"), "refused 8 9", "1=1"),
        (&kept(1, "33:11 35:29"), "accepted 2", "1=1"),
        (&kept(0, "33:11 35:29"), "refused 8 9", "1=1"),
        (&test(1), "accepted 2", "1=1"),
        (&test(0), "refused 8 14", "1=1"),
        (&ninth, "refused 9 54", "1=8"),
    ]);
}

/// "A call refused at reading, or as 17 or 18, changes neither", and the order of the refusals.
#[test]
fn order_of_refusals() {
    let put = Call::Put(1, bytes_of(&words("24:0")));
    let no_place = Call::Put(99, Vec::new());
    let deep = format!("{}24:0{END}", "30:0 9:0 ".repeat(128));
    let mut uncounted = file(&format!("24:0{END}"));
    uncounted[0] += 1;
    let rows = [
        (Vec::new(), "refused 1 0", "refused 1 0"),
        (vec![0; 7], "refused 1 0", "refused 1 0"),
        (vec![0; 32_772], "refused 1 0", "refused 1 0"),
        (uncounted, "refused 2 0", "refused 2 0"),
        (file("24:0 32:0 32:0"), "refused 17 0", "refused 3 4"),
        (file(&deep), "refused 17 0", "refused 4 256"),
        (file("24:1 32:0 32:0 33:1"), "refused 17 0", "refused 5 1"),
        (file("24:0 32:0 32:0 33:1 24:0"), "refused 17 0", "refused 6 5"),
        (file("25:0 31:33 24:0 38:0 32:0 32:0 33:1"), "refused 17 0", "refused 16 4"),
        (file("31:33 24:0 32:0 32:0 33:1"), "refused 17 0", "refused 7 1"),
    ];
    for (bytes, few, enough) in rows {
        for call in [&put, &no_place, &Call::Masks] {
            let unchanged = |line: &str| format!("{line} | masks unchanged");
            assert_eq!(answer(&bytes, 0, call), unchanged(few));
            assert_eq!(answer(&bytes, (bytes.len() / 4).saturating_sub(1), call), unchanged(few));
            assert_eq!(answer(&bytes, bytes.len() / 4 + 1, call), unchanged(enough));
        }
    }
    let right = file(&format!("24:0{END}"));
    assert_eq!(answer(&right, 4, &no_place), "refused 17 0 | masks unchanged");
    assert_eq!(answer(&right, 5, &no_place), "refused 18 0 | masks unchanged");
}

fn put(text: &str, place: usize, new: &str) -> String {
    let bytes = file(text);
    answer(&bytes, bytes.len() / 4 + 2, &Call::Put(place, bytes_of(&words(new))))
}

/// The new file and its masks.
fn puts(text: &str, place: usize, new: &str, changed: &str, masks: &str) {
    let count = changed.split_whitespace().count() + 1;
    assert_eq!(put(text, place, new), format!("put 63:{count} {changed} | masks {masks} past 2"), "{new} at {place}");
}

fn refused(text: &str, place: usize, new: &str) {
    assert_eq!(put(text, place, new), "refused 18 0 | masks unchanged", "{new} at {place} of {text}");
}

/// "Another skip, assert or assignment of equal length in the place of one such command"; the masks of the commands around it and of
/// its callers follow. The workbench call doesn't judge.
#[test]
fn put_commands() {
    let pair = "25:0 27:0 1:1 28:1 17:0 32:0 32:0 33:3";
    puts(pair, 2, "27:0 1:1", pair, "1=200000001 2=1 4=200000000");
    puts(pair, 2, "27:9 2:4", "25:0 27:9 2:4 28:1 17:0 32:0 32:0 33:3", "1=200000200 2=200 4=200000000");
    puts(pair, 2, "28:3 16:1", "25:0 28:3 16:1 28:1 17:0 32:0 32:0 33:3", "1=a00000000 2=800000000 4=200000000");
    puts(pair, 4, "26:0 9:0", "25:0 27:0 1:1 26:0 9:0 32:0 32:0 33:3", "1=1 2=1");
    let called = "62:1 27:4 2:0 32:0 32:0 33:10 31:32 38:0 32:0 32:0 33:10";
    let changed = "62:1 27:5 2:0 32:0 32:0 33:10 31:32 38:0 32:0 32:0 33:10";
    puts(called, 2, "27:5 2:0", changed, "2=20 7=21 8=20");
    let carried = "24:0 32:0 32:0 33:14 25:0 24:0 27:2 1:0 33:10";
    puts(carried, 7, "27:3 1:0", "24:0 32:0 32:0 33:14 25:0 24:0 27:3 1:0 33:10", "5=8 7=8");
    puts(carried, 1, "24:0", carried, "5=4 7=4");
}

/// Simple commands at 2, 7 and 9.
const THREE: &str = "25:0 27:0 3:0 2:0 1:1 25:0 24:0 31:32 28:1 17:0 32:0 32:0 33:10";

/// "18: the place (..) isn't as described."
#[test]
fn wrong_places() {
    let text = THREE;
    for place in [0, 1, 3, 6, 8, 11, 13, 14, 15, 1 << 32, 7 + (1 << 62), 7 + (1 << 32), usize::MAX] {
        refused(text, place, "24:0");
    }
    refused(text, 6, "25:0 24:0 31:32 28:1 17:0");
    refused(text, 8, "31:32 28:1 17:0");
}

/// "18: (..) the new command isn't as described."
#[test]
fn wrong_commands() {
    let text = THREE;
    for new in [
        "24:0",
        "27:0 1:1",
        "27:0 3:0 3:0 2:0 1:1 2:0",
        "25:0 24:0 27:0 1:1",
        "25:0 24:0 24:0 24:0",
        "27:0 1:1 27:0 1:1",
        "30:0 9:0 27:0 1:1",
        "29:0 9:0 24:0 24:0",
        "31:96 27:0 3:0 2:0",
        "32:1 9:1 2:0 24:0",
        "33:1 33:1 33:1 33:1",
        "3:0 2:0 1:1 24:0",
        "27:32 3:0 2:0 1:1",
        "27:0 3:0 2:32 1:1",
        "28:0 3:0 2:0 1:1",
        "26:0 3:0 2:0 1:1",
        "26:0 12:0 12:0 12:0",
        "24:0 26:0 12:0 9:0",
        "26:0 12:0 9:0 24:0",
        "26:1 12:0 12:0 9:0",
        "63:1 24:0 24:0 24:0",
        "",
    ] {
        refused(text, 2, new);
    }
    refused(text, 7, "38:0");
    refused(text, 7, "24:1");
}

/// Of all byte counts only that of the old command will do.
#[test]
fn byte_counts() {
    let bytes = file(THREE);
    let right = bytes_of(&words("26:0 12:0 12:0 9:0"));
    for count in 0..24 {
        let new: Vec<u8> = right.iter().chain(&right).copied().take(count).collect();
        let line = answer(&bytes, 99, &Call::Put(2, new));
        assert_eq!(line.starts_with("put "), count == 16, "{count} bytes: {line}");
    }
}

/// Words that are no one whole command, though the file with them could be read.
#[test]
fn not_one_whole_command() {
    let rows = [
        ("25:0 26:0 12:0 9:1 24:0", 2, "24:0 25:0 24:0"),
        ("29:0 9:1 26:0 12:0 9:1 24:0", 3, "24:0 25:0 24:0"),
        ("25:0 27:0 3:0 2:0 2:1 27:2 2:3", 2, "24:0 25:0 26:0 9:0"),
        ("62:1 25:0 27:0 3:0 2:0 2:1 24:0 32:0 32:0 33:10 38:0", 3, "27:0 2:0 25:0 24:0"),
    ];
    for (text, place, new) in rows {
        let text = format!("{text}{END}");
        let changed = with_words(&file(&text), place, &bytes_of(&words(new)));
        assert!(read(&changed, STANDARD).is_ok(), "{text}");
        refused(&text, place, new);
    }
}

/// "Or the file so changed would not be read": refusal 7, through calls too, and 4.
#[test]
fn not_readable_then() {
    let text = "31:32 25:0 27:3 2:0 31:98 27:5 2:0 32:0 32:0 33:10";
    for x in 0..6 {
        let new = format!("27:{x} 2:0");
        match x {
            0 | 1 => refused(text, 3, &new),
            2 => puts(text, 3, &new, &text.replace("27:3", "27:2"), "1=25 2=24 3=4 5=24 6=20"),
            _ => assert!(put(text, 3, &new).starts_with("put ")),
        }
        assert_eq!(put(text, 6, &new).starts_with("put "), x > 3, "{new}");
    }
    let called = "62:2 27:4 2:0 32:0 32:0 33:10 38:0 32:0 32:0 33:10 31:32 38:1 32:0 32:0 33:10";
    refused(called, 2, "27:0 2:0");
    refused(called, 2, "27:1 2:0");
    assert!(put(called, 2, "27:2 2:0").starts_with("put "));
    // a carried for, and one in a procedure
    refused("24:0 32:0 32:0 33:14 31:32 27:2 2:0 33:10", 6, "27:1 2:0");
    refused("62:1 31:32 27:2 2:0 32:0 32:0 33:10 24:0 32:0 32:0 33:10", 3, "27:0 2:0");
    assert!(put("62:1 31:32 27:2 2:0 32:0 32:0 33:10 24:0 32:0 32:0 33:10", 3, "28:0 17:0").starts_with("put "));
    let deep = |levels: usize, inner: &str| format!("{}{inner}{END}", "30:0 9:0 ".repeat(levels));
    let (chain, flat) = ("26:0 12:0 12:0 12:0 12:0 12:0 9:1", "26:0 10:0 8:0 2:0 2:0 12:0 9:1");
    for (levels, fits) in [(120, true), (121, true), (122, false), (123, false)] {
        let line = put(&deep(levels, flat), 2 * levels + 1, chain);
        assert_eq!(line.starts_with("put "), fits, "{levels} levels: {line}");
    }
    // too deep by itself
    let long = |words: usize| format!("26:0 {}9:1", "12:0 ".repeat(words - 2));
    let wide =
        |words: usize| format!("26:0 {}{}9:1", "10:0 9:1 ".repeat(words / 2 - 1), if words % 2 == 1 { "12:0 " } else { "" });
    for (words, fits) in [(128, true), (129, false)] {
        let line = put(&format!("{}{END}", wide(words)), 1, &long(words));
        assert_eq!(line.starts_with("put "), fits, "{words} words: {line}");
    }
}
