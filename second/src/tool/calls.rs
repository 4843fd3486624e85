//! The calls that read a file, on rows and generated files, under the settings of request [6]: what a version leaves of what it was lent,
//! and rows in the form of the vectors' calls.txt: name, call with what it is given, answer, bytes in hexadecimal, note.

use super::rows::{bytes_of_hex, hex_of};
use crate::fast;
use crate::layout::settings::{Settings, STANDARD};
use crate::layout::words::take_apart;
use crate::naive::judge::{check_settings, line_of, Answer};
use crate::naive::run::{run, ARRAY_VALUES, INDEXES, SCALARS};
use crate::naive::masks;
use std::collections::BTreeMap;
use std::sync::Mutex;

/// What a call is given.
#[derive(Clone, Debug)]
pub struct Given {
    pub bytes: Vec<u8>,
    pub masks: Vec<u64>,
    pub settings: Settings,
    pub call: Call,
}

#[derive(Clone, Debug)]
pub enum Call {
    /// The check alone.
    Check,
    /// The check with masks.
    Masks,
    /// The workbench call, with a place and the new command's bytes.
    Put(usize, Vec<u8>),
    /// A run, with a budget and a store, scalars first.
    Run(u64, Vec<i64>),
}

/// What a call left.
#[derive(Clone, PartialEq, Eq, Debug)]
pub struct Left {
    /// As for C: number × 65,536 + place if refused, else the count of evidence words, or 0 if the command was put or the run ended; of a
    /// run with steps × 2^32.
    pub packed: u64,
    pub bytes: Vec<u8>,
    pub masks: Vec<u64>,
    pub store: Vec<i64>,
    /// Nothing beside what was lent changed.
    pub beside_stayed: bool,
}

/// A version of the calls; each gives none where it is not linked.
pub struct Version {
    pub name: &'static str,
    pub check: fn(&[u8], Settings) -> Option<u32>,
    pub check_with_masks: fn(&[u8], &mut [u64], Settings) -> Option<u32>,
    pub put: fn(&mut [u8], &mut [u64], usize, &[u8], Settings) -> Option<u32>,
    pub run: fn(&[u8], u64, &mut [i64], &mut [i64], Settings) -> Option<u64>,
}

pub const NAIVE: Version = Version {
    name: "second",
    check: |bytes, settings| Some(check_settings(bytes, settings).packed()),
    check_with_masks: |bytes, masks, settings| Some(masks::check_with_masks(bytes, masks, settings).packed()),
    put: |bytes, masks, place, new, settings| {
        let done = masks::put(bytes, masks, place, new, settings);
        Some(done.map_or_else(|refusal| Answer::Refused(refusal).packed(), |()| 0))
    },
    run: |bytes, budget, scalars, values, settings| Some(run(bytes, budget, scalars, values, settings).packed()),
};

static WORK: Mutex<fast::Work> = Mutex::new(fast::Work::new());

/// A call of the fast version.
fn fast<T>(settings: Settings, call: impl FnOnce(fast::Settings, &mut fast::Work) -> T) -> Option<T> {
    Some(call(settings.numbers().into(), &mut WORK.lock().expect("no call panics")))
}

pub const FAST: Version = Version {
    name: "fast",
    check: |bytes, settings| fast(settings, |settings, work| fast::check_settings(bytes, settings, work)),
    check_with_masks: |bytes, masks, settings| {
        fast(settings, |settings, work| fast::check_with_masks(bytes, masks, settings, work))
    },
    put: |bytes, masks, place, new, settings| {
        fast(settings, |settings, work| fast::put(bytes, masks, place, new, settings, work))
    },
    run: |bytes, budget, scalars, values, settings| {
        fast(settings, |settings, work| fast::run(bytes, budget, scalars, values, settings, work))
    },
};

impl Version {
    pub fn call(&self, given: &Given) -> Option<Left> {
        let mut bytes = Surrounded::new(&given.bytes, 0xa5);
        let mut masks = Surrounded::new(&given.masks, 0xa5a5_a5a5_a5a5_a5a5);
        let mut store = Surrounded::new(given.store(), 0x5a5a_5a5a_5a5a_5a5a);
        let packed = match &given.call {
            Call::Check => (self.check)(bytes.inner(), given.settings).map(u64::from),
            Call::Masks => (self.check_with_masks)(bytes.inner(), masks.inner(), given.settings).map(u64::from),
            Call::Put(place, new) => {
                (self.put)(bytes.inner(), masks.inner(), *place, new, given.settings).map(u64::from)
            }
            Call::Run(budget, _) => {
                let (scalars, values) = store.inner().split_at_mut(SCALARS);
                (self.run)(bytes.inner(), *budget, scalars, values, given.settings)
            }
        }?;
        let beside_stayed = bytes.sides_stayed() && masks.sides_stayed() && store.sides_stayed();
        Some(Left { packed, bytes: bytes.taken(), masks: masks.taken(), store: store.taken(), beside_stayed })
    }
}

/// What is lent, between values of which none may change.
struct Surrounded<T> {
    all: Vec<T>,
    side: T,
}

const SIDE: usize = 8;

impl<T: Copy + PartialEq> Surrounded<T> {
    fn new(lent: &[T], side: T) -> Surrounded<T> {
        Surrounded { all: [&[side; SIDE], lent, &[side; SIDE]].concat(), side }
    }

    fn inner(&mut self) -> &mut [T] {
        let end = self.all.len() - SIDE;
        &mut self.all[SIDE..end]
    }

    fn taken(mut self) -> Vec<T> {
        self.inner().to_vec()
    }

    fn sides_stayed(&self) -> bool {
        let (first, last) = (&self.all[..SIDE], &self.all[self.all.len() - SIDE..]);
        first.iter().chain(last).all(|value| *value == self.side)
    }
}

impl Given {
    /// The store that is lent, for a run.
    fn store(&self) -> &[i64] {
        match &self.call {
            Call::Run(_, store) => store,
            _ => &[],
        }
    }

    /// The call in the form of the rows; of a store only the scalars.
    pub fn text(&self) -> String {
        let lent = self.masks.len();
        let said = match &self.call {
            Call::Check => "check".to_string(),
            Call::Masks => format!("masks lent={lent}"),
            Call::Put(place, new) => format!("put lent={lent} place={place} new={}", hex_of(new)),
            Call::Run(budget, store) => {
                let scalars = store_text(&store[..SCALARS]).replace(' ', ",");
                format!("run budget={budget} short=[0, 0, 0] store={scalars}")
            }
        };
        format!("{said} settings={}", self.settings.numbers().map(|number| number.to_string()).join(","))
    }

    /// The answer in the form of the rows.
    pub fn answer(&self, left: &Left) -> String {
        let line = match (&self.call, left.packed) {
            (Call::Run(..), packed) => run_line(packed),
            (Call::Put(..), 0) => format!("put{}", words_text(&left.bytes)),
            (Call::Put(..), packed @ ..=65_535) => format!("no answer of this call: {packed}"),
            (_, packed) => line_of(packed as u32),
        };
        let put = matches!(self.call, Call::Put(..)) && left.packed == 0;
        let faults = [(!put && left.bytes != self.bytes, "file changed"), (!left.beside_stayed, "more changed")];
        let faults: String = faults.iter().filter(|fault| fault.0).map(|fault| format!(" | {}", fault.1)).collect();
        let lent = match self.call {
            Call::Check => String::new(),
            Call::Masks | Call::Put(..) => format!(" | masks{}", self.masks_text(&left.masks)),
            Call::Run(..) => format!(" | {}", store_text(&left.store)),
        };
        format!("{line}{lent}{faults}")
    }

    /// Masks that are 0 are left out; those past the words are counted.
    fn masks_text(&self, masks: &[u64]) -> String {
        if masks == self.masks {
            return " unchanged".to_string();
        }
        let words = self.bytes.len() / 4;
        let mut text = String::new();
        for (place, mask) in masks.iter().enumerate().take(words).filter(|(_, mask)| **mask != 0) {
            text.push_str(&format!(" {place}={mask:x}"));
        }
        let stayed = masks.get(words..) == self.masks.get(words..);
        text + &format!(" past {}{}", masks.len().saturating_sub(words), if stayed { "" } else { " changed" })
    }
}

/// How a run ended, and its steps.
fn run_line(packed: u64) -> String {
    let end = match packed as u32 {
        0 => "ended".to_string(),
        code => line_of(code),
    };
    format!("{end} steps {}", packed >> 32)
}

/// The values that are not 0.
fn store_text(store: &[i64]) -> String {
    let name = |place: usize| match place.checked_sub(SCALARS) {
        None => format!("x{place}"),
        Some(value) => format!("a{}[{}]", value / INDEXES, value % INDEXES),
    };
    let values = store.iter().enumerate().filter(|(_, value)| **value != 0);
    values.map(|(place, value)| format!("{}={value}", name(place))).collect::<Vec<_>>().join(" ")
}

fn words_text(bytes: &[u8]) -> String {
    let mut text = String::new();
    for (place, four) in bytes.chunks_exact(4).enumerate() {
        let word = take_apart(place, u32::from_le_bytes([four[0], four[1], four[2], four[3]]));
        text.push_str(&format!(" {}:{}", word.kind, word.payload));
    }
    text
}

pub struct Row {
    pub name: String,
    pub given: Given,
    pub answer: String,
}

/// A row of calls.tsv. The numbers that it lends are not said there: any that are no masks will do.
pub fn row_of(row: &str) -> Result<Row, String> {
    let fields: Vec<&str> = row.split('\t').collect();
    let [name, call, answer, hex, ..] = fields.as_slice() else {
        return Err(format!("a row has less than four fields: {row}"));
    };
    let given = given_of(call, bytes_of_hex(hex)?).ok_or(format!("{name}: `{call}` is no call"))?;
    Ok(Row { name: name.to_string(), given, answer: answer.to_string() })
}

/// A call's name, and `key=value` for all that it is given; settings that are not said are the old ones.
fn given_of(call: &str, bytes: Vec<u8>) -> Option<Given> {
    let call = call.replace(", ", ",");
    let mut parts = call.split(' ');
    let name = parts.next()?;
    let mut values: BTreeMap<&str, &str> = parts.map(|part| part.split_once('=')).collect::<Option<_>>()?;
    let settings = values.remove("settings").map_or(Some(STANDARD), settings_of)?;
    let masks = values.remove("lent").map_or(Some(Vec::new()), lent_of)?;
    let call = match name {
        "check" => Call::Check,
        "masks" => Call::Masks,
        "put" => {
            let new = bytes_of_hex(values.remove("new")?).ok()?;
            Call::Put(values.remove("place")?.parse().ok()?, new)
        }
        "run" => {
            // a store of the right size
            values.remove("short").filter(|short| *short == "[0,0,0]")?;
            Call::Run(values.remove("budget")?.parse().ok()?, scalars_of(values.remove("store")?)?)
        }
        _ => return None,
    };
    values.is_empty().then_some(Given { bytes, masks, settings, call })
}

fn lent_of(count: &str) -> Option<Vec<u64>> {
    let count: u64 = count.parse().ok()?;
    Some((1..=count).map(|i| i.wrapping_mul(0x9e37_79b9_7f4a_7c15)).collect())
}

/// Comparisons, depth and members.
fn settings_of(text: &str) -> Option<Settings> {
    let numbers: Vec<u64> = text.split(',').map(|number| number.parse().ok()).collect::<Option<_>>()?;
    Some(Settings::of(numbers.try_into().ok()?))
}

/// A store by its scalars that are not 0, as x0=1,x1=2.
fn scalars_of(text: &str) -> Option<Vec<i64>> {
    let mut store = vec![0; SCALARS + ARRAY_VALUES];
    for part in text.split(',').filter(|part| !part.is_empty()) {
        let (name, value) = part.split_once('=')?;
        let x: usize = name.strip_prefix('x')?.parse().ok().filter(|x| *x < SCALARS)?;
        store[x] = value.parse().ok()?;
    }
    Some(store)
}

/// How the rows of a text differ from the answers of a version, if it is linked; and how many were compared.
pub fn compare_rows(text: &str, version: &Version) -> Result<(u64, Vec<String>), String> {
    let (mut compared, mut differences) = (0, Vec::new());
    for row in text.lines().filter(|row| !row.starts_with('#')) {
        let row = row_of(row)?;
        let Some(left) = version.call(&row.given) else { continue };
        compared += 1;
        let answer = row.given.answer(&left);
        if answer != row.answer {
            differences.push(format!("{}, {}: {answer}\n  wanted {}", row.name, version.name, row.answer));
        }
    }
    Ok((compared, differences))
}
