//! Structured random files: the grammar of document 01, "Layout", followed
//! word by word, with a wrong word now and then; the evidence often fits the
//! command, seldom the sets.

use super::mutate::{any_word, mend};
use super::parts::{self, Callable, Pool};
use super::prng::Prng;
use crate::layout::syntax::*;
use crate::layout::words::{bytes_of, pack};
use crate::layout::write;
use crate::naive::modified::Identifiers;

struct Writer<'a> {
    rng: &'a mut Prng,
    pool: Pool,
    /// A few members that come again and again, so that sets meet.
    members: Vec<Member>,
    booleans: Vec<Bool>,
    /// The bodies of the procedures so far.
    bodies: Vec<Command>,
    words: Vec<u32>,
    fuel: usize,
}

pub fn nearly(rng: &mut Prng) -> Vec<u8> {
    let pool = Pool::new(rng);
    let members = (0..1 + rng.below(3)).map(|_| parts::member(rng, &pool)).collect();
    let booleans = (0..1 + rng.below(2)).map(|_| parts::boolean(rng, &pool, 1)).collect();
    let wrong = rng.once_in(3);
    let mut w = Writer { rng, pool, members, booleans, bodies: Vec::new(), words: vec![0], fuel: 30 };
    if w.rng.once_in(3) {
        w.table();
    }
    w.four();
    let mut words = w.words;
    if wrong {
        let at = 1 + rng.below(words.len() - 1);
        match rng.below(3) {
            0 => words[at] = any_word(rng),
            1 => words.insert(at, any_word(rng)),
            _ => {
                words.remove(at);
            }
        }
    }
    mend(&mut words);
    bytes_of(&words)
}

impl Writer<'_> {
    /// One to four procedures. Now and then the one that is written may be called too, or one that is in no table.
    fn table(&mut self) {
        let count = 1 + self.rng.below(4) as u32;
        self.words.push(pack(62, count));
        for i in 0..count {
            if self.rng.once_in(12) {
                let number = i + self.rng.below(3) as u32;
                self.pool.callable.push(Callable { number, modified: Identifiers::none() });
            }
            let body = self.four();
            self.pool.callable.push(Callable { number: i, modified: Identifiers::none() });
            self.bodies.push(body);
        }
    }

    /// A command, two sets and evidence; the command is handed back.
    fn four(&mut self) -> Command {
        let size = self.rng.below(3);
        let command = parts::random_command(self.rng, &self.pool, size, &[]);
        write::command(&command, &mut self.words);
        self.set();
        self.set();
        self.flow(&command);
        command
    }

    fn set(&mut self) {
        let mut set = Set::new();
        for _ in 0..self.rng.below(3) {
            set.push(self.rng.pick(&self.members).clone());
        }
        write::set(&set, &mut self.words);
    }

    fn boolean(&mut self) {
        let b = match self.rng.below(4) {
            0 => Bool::Truth(true),
            1 => self.rng.pick(&self.members).phi.clone(),
            2 => parts::boolean(self.rng, &self.pool, 2),
            _ => self.rng.pick(&self.booleans).clone(),
        };
        write::boolean(&b, &mut self.words);
    }

    fn spend(&mut self) -> bool {
        self.fuel = self.fuel.saturating_sub(1);
        self.fuel > 0
    }

    /// The rule for the command, one of those for any command, or any one; the last when nothing is left to spend.
    fn rule(&mut self, by_command: u32, free: &[u32], any: &[u32], last: u32) -> u32 {
        let rule = match self.rng.below(10) {
            0..=4 => by_command,
            5..=7 => *self.rng.pick(free),
            _ => *self.rng.pick(any),
        };
        if self.spend() {
            rule
        } else {
            last
        }
    }

    fn flow(&mut self, c: &Command) {
        let rule = self.rule(flow_rule_of(c), &[7, 8, 9, 10, 11, 12], &FLOW_RULES, 10);
        self.words.push(pack(33, rule));
        let (first, second) = parts_of(c);
        match rule {
            2 => {
                self.set();
                self.flow(&first);
                self.flow(&second);
            }
            6 => {
                self.set();
                self.set();
                self.boolean();
                self.flow(&first);
                self.flow(&second);
                self.before(c);
            }
            7 => {
                self.set();
                self.implication();
                self.flow(c);
            }
            8 => {
                self.set();
                self.flow(c);
                self.implication();
            }
            9 => {
                for _ in 0..4 {
                    self.set();
                }
                self.flow(c);
                self.flow(c);
            }
            11 => self.before(c),
            12 => {
                self.set();
                self.set();
                self.boolean();
                self.boolean();
                self.flow(c);
                self.before(c);
            }
            13 => self.flow(&first),
            14 => {
                let d = self.carried(c);
                self.flow(&d);
            }
            _ => {}
        }
    }

    fn carried(&mut self, c: &Command) -> Command {
        let d = match &c.form {
            Form::For(q, m, body) if !self.rng.once_in(8) => meaning_of_for(*q, *m, body),
            _ => parts::random_command(self.rng, &self.pool, 1, &[]),
        };
        write::command(&d, &mut self.words);
        d
    }

    /// The body that a call runs, or skip where there is none.
    fn body_of(&self, c: &Command) -> Command {
        match &c.form {
            Form::Call(p) => self.bodies.get(*p as usize).cloned().unwrap_or(skip()),
            _ => skip(),
        }
    }

    fn implication(&mut self) {
        let mut rule = 13 + self.rng.below(7) as u32;
        if !self.spend() {
            rule = 13;
        }
        self.words.push(pack(34, rule));
        let sets = match rule {
            16 => 4,
            17 => 3,
            _ => return,
        };
        for _ in 0..sets {
            self.set();
        }
        self.implication();
        self.implication();
    }

    fn before(&mut self, c: &Command) {
        let rule = self.rule(before_rule_of(c), &[27, 28, 29], &PRECONDITION_RULES, 27);
        self.words.push(pack(35, rule));
        let (first, second) = parts_of(c);
        match rule {
            20 => {
                self.boolean();
                self.boolean();
                self.before(&first);
                self.before(&second);
            }
            21 => {
                self.boolean();
                self.before(&first);
            }
            23 => {
                self.boolean();
                self.before(&first);
                self.before(&second);
            }
            28 => {
                self.boolean();
                self.before(c);
            }
            30 => {
                let d = self.carried(c);
                self.before(&d);
            }
            32 => {
                let body = self.body_of(c);
                self.before(&body);
            }
            _ => {}
        }
    }
}

const FLOW_RULES: [u32; 15] = [1, 2, 3, 4, 5, 6, 7, 8, 9, 10, 11, 12, 13, 14, 31];
const PRECONDITION_RULES: [u32; 12] = [20, 21, 22, 23, 24, 25, 26, 27, 28, 29, 30, 32];

/// The flow rule for the command.
fn flow_rule_of(c: &Command) -> u32 {
    match &c.form {
        Form::Skip => 1,
        Form::Sequence(..) => 2,
        Form::AssignScalar(..) => 3,
        Form::AssignArray(..) => 4,
        Form::Assert(..) => 5,
        Form::If(..) => 6,
        Form::While(..) => 13,
        Form::For(..) => 14,
        Form::Call(..) => 31,
    }
}

/// The precondition rule for the command.
fn before_rule_of(c: &Command) -> u32 {
    match &c.form {
        Form::If(..) => 20,
        Form::While(..) => 21,
        Form::Skip => 22,
        Form::Sequence(..) => 23,
        Form::AssignScalar(..) => 24,
        Form::AssignArray(..) => 25,
        Form::Assert(..) => 26,
        Form::For(..) => 30,
        Form::Call(..) => 32,
    }
}

/// C1 and C2, or skip where there is none.
fn parts_of(c: &Command) -> (Command, Command) {
    match &c.form {
        Form::Sequence(a, b) | Form::If(_, a, b) => ((**a).clone(), (**b).clone()),
        Form::While(_, body) | Form::For(_, _, body) => ((**body).clone(), skip()),
        _ => (skip(), skip()),
    }
}
