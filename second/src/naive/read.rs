//! Bytes to words to trees: refusal 19 of request [6], 1 to 7 of document 01, "Judging order", and 16 of request [3], between 6
//! and 7. "Walking, 3 to 5 go word by word, in that order at a word."

use super::commands::check_commands;
use crate::layout::settings::Settings;
use crate::layout::syntax::*;
use crate::layout::words::*;

struct Reader<'a> {
    words: &'a [u32],
    at: usize,
    settings: Settings,
}

type Read<T> = Result<T, Refusal>;

/// Refusal 5 at a word.
fn not_allowed<T>(word: Word) -> Read<T> {
    refuse(5, word.place)
}

impl Reader<'_> {
    /// The word that is due, at this depth: refusals 3 and 4.
    fn word(&mut self, depth: usize) -> Read<Word> {
        if self.at >= self.words.len() {
            return refuse(3, self.words.len());
        }
        if depth as u64 > self.settings.depth {
            return refuse(4, self.at);
        }
        let word = take_apart(self.at, self.words[self.at]);
        self.at += 1;
        Ok(word)
    }

    fn arith(&mut self, depth: usize) -> Read<Arith> {
        let word = self.word(depth)?;
        self.arith_from(word, depth)
    }

    fn arith_from(&mut self, word: Word, depth: usize) -> Read<Arith> {
        match (word.kind, word.payload) {
            (1, p) => Ok(Arith::Constant(constant_of(p))),
            (2, p) if p < 32 => Ok(Arith::Scalar(p)),
            (3, p) if p < 3 => {
                let operator = [Operator::Plus, Operator::Minus, Operator::Times][p as usize];
                let left = self.arith(depth + 1)?;
                let right = self.arith(depth + 1)?;
                Ok(operate(operator, left, right))
            }
            (4, 0) => {
                let array = self.array(depth + 1)?;
                let index = self.arith(depth + 1)?;
                Ok(Arith::Select(Box::new(array), Box::new(index)))
            }
            _ => not_allowed(word),
        }
    }

    fn boolean(&mut self, depth: usize) -> Read<Bool> {
        let word = self.word(depth)?;
        self.boolean_from(word, depth)
    }

    fn boolean_from(&mut self, word: Word, depth: usize) -> Read<Bool> {
        match (word.kind, word.payload) {
            (8, p) if p < 3 => {
                let all = [Comparison::Equal, Comparison::Less, Comparison::LessOrEqual];
                let left = self.arith(depth + 1)?;
                let right = self.arith(depth + 1)?;
                Ok(compare(all[p as usize], left, right))
            }
            (9, 0) => Ok(Bool::Truth(false)),
            (9, 1) => Ok(Bool::Truth(true)),
            (10, 0) => {
                let left = self.boolean(depth + 1)?;
                let right = self.boolean(depth + 1)?;
                Ok(and(left, right))
            }
            (11, 0) => {
                let left = self.boolean(depth + 1)?;
                let right = self.boolean(depth + 1)?;
                Ok(or(left, right))
            }
            (12, 0) => Ok(not(self.boolean(depth + 1)?)),
            _ => not_allowed(word),
        }
    }

    fn array(&mut self, depth: usize) -> Read<Array> {
        let word = self.word(depth)?;
        self.array_from(word, depth)
    }

    fn array_from(&mut self, word: Word, depth: usize) -> Read<Array> {
        match (word.kind, word.payload) {
            (16, p) if p < 32 => Ok(Array::Identifier(p)),
            (17, 0) => Ok(Array::Zero),
            (18, 0) => {
                let array = self.array(depth + 1)?;
                let index = self.arith(depth + 1)?;
                let value = self.arith(depth + 1)?;
                Ok(Array::Update(Box::new(array), Box::new(index), Box::new(value)))
            }
            _ => not_allowed(word),
        }
    }

    /// An expression of any sort: the kind tells the sort.
    fn expression(&mut self, depth: usize) -> Read<Expression> {
        let word = self.word(depth)?;
        match word.kind {
            1..=4 => Ok(Expression::Arith(self.arith_from(word, depth)?)),
            8..=12 => Ok(Expression::Bool(self.boolean_from(word, depth)?)),
            16..=18 => Ok(Expression::Array(self.array_from(word, depth)?)),
            _ => not_allowed(word),
        }
    }

    fn command(&mut self, depth: usize) -> Read<Command> {
        let word = self.word(depth)?;
        let form = match (word.kind, word.payload) {
            (24, 0) => Form::Skip,
            (25, 0) => {
                let first = self.command(depth + 1)?;
                let second = self.command(depth + 1)?;
                Form::Sequence(Box::new(first), Box::new(second))
            }
            (26, 0) => Form::Assert(self.boolean(depth + 1)?),
            (27, p) if p < 32 => Form::AssignScalar(p, self.arith(depth + 1)?),
            (28, p) if p < 32 => Form::AssignArray(p, self.array(depth + 1)?),
            (29, 0) => {
                let test = self.boolean(depth + 1)?;
                let then = self.command(depth + 1)?;
                let otherwise = self.command(depth + 1)?;
                Form::If(test, Box::new(then), Box::new(otherwise))
            }
            (30, 0) => {
                let test = self.boolean(depth + 1)?;
                let body = self.command(depth + 1)?;
                Form::While(test, Box::new(body))
            }
            (31, p) if p < 32 * 32 => Form::For(p % 32, p / 32, Box::new(self.command(depth + 1)?)),
            (38, p) => Form::Call(p),
            _ => return not_allowed(word),
        };
        Ok(Command { place: word.place, form })
    }

    fn set(&mut self, depth: usize) -> Read<Set> {
        let word = self.word(depth)?;
        if word.kind != 32 || u64::from(word.payload) > self.settings.members {
            return not_allowed(word);
        }
        let mut set = Set::new();
        for _ in 0..word.payload {
            let phi = self.boolean(depth + 1)?;
            let e = self.expression(depth + 1)?;
            set.push(Member { phi, e });
        }
        Ok(set)
    }

    fn flow(&mut self, depth: usize) -> Read<Flow> {
        let word = self.word(depth)?;
        if word.kind != 33 {
            return not_allowed(word);
        }
        let below = depth + 1;
        let rule = match word.payload {
            1 => FlowRule::F1,
            2 => {
                let m = self.set(below)?;
                let first = Box::new(self.flow(below)?);
                let second = Box::new(self.flow(below)?);
                FlowRule::F2 { m, first, second }
            }
            3 => FlowRule::F3,
            4 => FlowRule::F4,
            5 => FlowRule::F5,
            6 => self.flow_6(below)?,
            7 => {
                let m = self.set(below)?;
                let set = Box::new(self.implication(below)?);
                let flow = Box::new(self.flow(below)?);
                FlowRule::F7 { m, set, flow }
            }
            8 => {
                let m = self.set(below)?;
                let flow = Box::new(self.flow(below)?);
                let set = Box::new(self.implication(below)?);
                FlowRule::F8 { m, flow, set }
            }
            9 => self.flow_9(below)?,
            10 => FlowRule::F10,
            11 => FlowRule::F11 { before: Box::new(self.before(below)?) },
            12 => self.flow_12(below)?,
            13 => FlowRule::F13 { body: Box::new(self.flow(below)?) },
            14 => {
                let d = self.command(below)?;
                let flow = Box::new(self.flow(below)?);
                FlowRule::F14 { d, flow }
            }
            31 => FlowRule::F31,
            _ => return not_allowed(word),
        };
        Ok(Flow { place: word.place, rule })
    }

    fn flow_6(&mut self, below: usize) -> Read<FlowRule> {
        let s = self.set(below)?;
        let t = self.set(below)?;
        let phi0 = self.boolean(below)?;
        let then = Box::new(self.flow(below)?);
        let otherwise = Box::new(self.flow(below)?);
        let before = Box::new(self.before(below)?);
        Ok(FlowRule::F6 { s, t, phi0, then, otherwise, before })
    }

    fn flow_9(&mut self, below: usize) -> Read<FlowRule> {
        let s = self.set(below)?;
        let s2 = self.set(below)?;
        let t = self.set(below)?;
        let t2 = self.set(below)?;
        let first = Box::new(self.flow(below)?);
        let second = Box::new(self.flow(below)?);
        Ok(FlowRule::F9 { s, s2, t, t2, first, second })
    }

    fn flow_12(&mut self, below: usize) -> Read<FlowRule> {
        let s = self.set(below)?;
        let s2 = self.set(below)?;
        let phi = self.boolean(below)?;
        let phi2 = self.boolean(below)?;
        let flow = Box::new(self.flow(below)?);
        let before = Box::new(self.before(below)?);
        Ok(FlowRule::F12 { s, s2, phi, phi2, flow, before })
    }

    fn implication(&mut self, depth: usize) -> Read<Implication> {
        let word = self.word(depth)?;
        if word.kind != 34 {
            return not_allowed(word);
        }
        let below = depth + 1;
        let rule = match word.payload {
            13 => ImplicationRule::S13,
            14 => ImplicationRule::S14,
            15 => ImplicationRule::S15,
            16 => {
                let s = self.set(below)?;
                let s2 = self.set(below)?;
                let t = self.set(below)?;
                let t2 = self.set(below)?;
                let first = Box::new(self.implication(below)?);
                let second = Box::new(self.implication(below)?);
                ImplicationRule::S16 { s, s2, t, t2, first, second }
            }
            17 => {
                let s = self.set(below)?;
                let s2 = self.set(below)?;
                let t = self.set(below)?;
                let first = Box::new(self.implication(below)?);
                let second = Box::new(self.implication(below)?);
                ImplicationRule::S17 { s, s2, t, first, second }
            }
            18 => ImplicationRule::S18,
            19 => ImplicationRule::S19,
            _ => return not_allowed(word),
        };
        Ok(Implication { place: word.place, rule })
    }

    fn before(&mut self, depth: usize) -> Read<Before> {
        let word = self.word(depth)?;
        if word.kind != 35 {
            return not_allowed(word);
        }
        let below = depth + 1;
        let rule = match word.payload {
            20 => {
                let phi1 = self.boolean(below)?;
                let phi2 = self.boolean(below)?;
                let then = Box::new(self.before(below)?);
                let otherwise = Box::new(self.before(below)?);
                BeforeRule::B20 { phi1, phi2, then, otherwise }
            }
            21 => {
                let phi0 = self.boolean(below)?;
                let body = Box::new(self.before(below)?);
                BeforeRule::B21 { phi0, body }
            }
            22 => BeforeRule::B22,
            23 => {
                let phi1 = self.boolean(below)?;
                let first = Box::new(self.before(below)?);
                let second = Box::new(self.before(below)?);
                BeforeRule::B23 { phi1, first, second }
            }
            24 => BeforeRule::B24,
            25 => BeforeRule::B25,
            26 => BeforeRule::B26,
            27 => BeforeRule::B27,
            28 => {
                let phi1 = self.boolean(below)?;
                let inner = Box::new(self.before(below)?);
                BeforeRule::B28 { phi1, inner }
            }
            29 => BeforeRule::B29,
            30 => {
                let d = self.command(below)?;
                let inner = Box::new(self.before(below)?);
                BeforeRule::B30 { d, inner }
            }
            32 => BeforeRule::B32 { inner: Box::new(self.before(below)?) },
            _ => return not_allowed(word),
        };
        Ok(Before { place: word.place, rule })
    }
}

/// The outermost parts.
impl Reader<'_> {
    /// The table of procedures, if word 1 is 62:k, k from 1 to 16. Any other 62 is no command, and so refused as 5.
    fn procedures(&mut self) -> Read<Vec<Procedure>> {
        let mut procedures = Vec::new();
        for _ in 0..self.procedure_count() {
            procedures.push(self.procedure()?);
        }
        Ok(procedures)
    }

    fn procedure_count(&mut self) -> u32 {
        let Some(word) = self.words.get(self.at) else { return 0 };
        let word = take_apart(self.at, *word);
        if word.kind != 62 || word.payload == 0 || word.payload > MOST_PROCEDURES {
            return 0;
        }
        self.at += 1;
        word.payload
    }

    fn procedure(&mut self) -> Read<Procedure> {
        let command = self.command(1)?;
        let pre = self.set(1)?;
        let post = self.set(1)?;
        let evidence = self.flow(1)?;
        Ok(Procedure { command, pre, post, evidence })
    }

    /// All words but word 0: refusals 3 to 6.
    fn file(&mut self) -> Read<File> {
        let procedures = self.procedures()?;
        let command = self.command(1)?;
        let pre_start = self.at;
        let pre = self.set(1)?;
        let post_start = self.at;
        let post = self.set(1)?;
        let post_end = self.at;
        let evidence = self.flow(1)?;
        if self.at < self.words.len() {
            return refuse(6, self.at);
        }
        let (pre_words, post_words) = ((pre_start, post_start), (post_start, post_end));
        Ok(File { procedures, command, pre, post, evidence, pre_words, post_words })
    }
}

/// Refusals 19, 1 and 2: the words of a file, if word 0 counts them.
pub fn counted_words(bytes: &[u8], settings: Settings) -> Result<Vec<u32>, Refusal> {
    settings.tried()?;
    let words = words_of(bytes)?;
    if words[0] != pack(63, words.len() as u32) {
        return refuse(2, 0);
    }
    Ok(words)
}

/// Refusals 19, 1 to 7, and 16 between 6 and 7.
pub fn read(bytes: &[u8], settings: Settings) -> Result<File, Refusal> {
    let words = counted_words(bytes, settings)?;
    let file = Reader { words: &words, at: 1, settings }.file()?;
    check_commands(&file)?;
    Ok(file)
}

/// The command whose words these bytes are, all of them and no others, read by itself (request [5]).
pub fn read_command(bytes: &[u8], settings: Settings) -> Option<Command> {
    let words = words_of(bytes).ok()?;
    let mut reader = Reader { words: &words, at: 0, settings };
    let command = reader.command(1).ok()?;
    (reader.at == words.len()).then_some(command)
}
