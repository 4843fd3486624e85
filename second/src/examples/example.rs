//! Certificates of `examples/` as trees: the text and the file of one, and short ways to write the trees.

use crate::generate::plain::booleans::{Booleans, Stands};
use crate::layout::settings::STANDARD;
use crate::layout::syntax::*;
use crate::layout::words::bytes_of;
use crate::layout::write::file_words_with;
use crate::naive::judge::operands_of;
use crate::naive::modified::of_expression;
use crate::naive::plain::plain;
use crate::naive::read::read;
use crate::view::annotate::annotate;
use crate::view::show::Names;

/// One certificate: its text and file are `examples/NAME.txt` and `examples/NAME.cert`.
pub struct Example {
    pub name: &'static str,
    pub about: &'static str,
    pub names: Names,
    pub procedures: Vec<Procedure>,
    pub program: Command,
    pub pre: Set,
    pub post: Set,
    pub evidence: Box<Flow>,
}

impl Example {
    pub fn bytes(&self) -> Vec<u8> {
        bytes_of(&file_words_with(&self.procedures, &self.program, &self.pre, &self.post, &self.evidence))
    }

    pub fn text(&self) -> String {
        let file = read(&self.bytes(), STANDARD).expect("an example reads");
        let mut head = String::new();
        for line in self.about.lines() {
            head.push_str(&format!("# {line}\n"));
        }
        head.push_str("#\n");
        for (title, kind, names) in [("Scalars", 2, self.names.scalars), ("Arrays", 16, self.names.arrays)] {
            let named: Vec<String> = names.iter().enumerate().map(|(i, name)| format!("{kind}:{i} {name}")).collect();
            for (i, line) in named.chunks(5).enumerate() {
                let title = if i == 0 { format!("# {title}:") } else { "#  ".to_string() };
                head.push_str(&format!("{title} {}\n", line.join(", ")));
            }
        }
        let body = annotate(&file, &self.names).expect("each rule fits its command");
        format!("{head}\n{body}")
    }
}

/// The certificate with every antecedent and every carried assertion plain; consequents and commands are as they were.
pub fn tidied(example: Example) -> Example {
    let mut file = read(&example.bytes(), STANDARD).expect("an example reads");
    let mut change = |stands, b: &mut Bool| {
        if matches!(stands, Stands::Antecedent | Stands::Without) {
            *b = plain(b);
        }
    };
    Booleans { change: &mut change }.file(&mut file);
    let File { procedures, command, pre, post, evidence, .. } = file;
    Example { procedures, program: command, pre, post, evidence: Box::new(evidence), ..example }
}

/// A flag: an integer that is 1 when it is set.
pub fn flag(x: u32) -> Bool {
    compare(Comparison::Equal, Arith::Scalar(x), Arith::Constant(1))
}

/// true ⇒ each of these.
macro_rules! agree {
    ($($e:expr),*) => { vec![$(crate::layout::syntax::member(crate::layout::syntax::always(), $e)),*] };
}
pub(crate) use agree;

pub fn assign(x: u32, a: Arith) -> Command {
    command(Form::AssignScalar(x, a))
}

pub fn by_sequence(m: Set, first: Box<Flow>, second: Box<Flow>) -> Box<Flow> {
    flow_of(FlowRule::F2 { m, first, second })
}

/// (P, Q), each member of Q in P or among the new ones. P grows by one new member at a time, by rule 17: from the members
/// that its rule asks for. At the end each of Q stands in it.
pub fn grow(p: &[Member], new: &[Member]) -> Box<Implication> {
    let [first, rest @ ..] = new else { return implication_of(ImplicationRule::S13) };
    let (s, rule) = source(p, first);
    let t = [p, std::slice::from_ref(first)].concat();
    let second = grow(&t, rest);
    implication_of(ImplicationRule::S17 { s, s2: vec![first.clone()], t, first: implication_of(rule), second })
}

/// What one member follows from, and by which rule: 15 if it names nothing, 18 if P has its consequent, else 19.
fn source(p: &[Member], new: &Member) -> (Set, ImplicationRule) {
    if of_expression(&new.e).is_empty() {
        return (Set::new(), ImplicationRule::S15);
    }
    if let Some(same) = p.iter().find(|other| other.e == new.e) {
        return (vec![same.clone()], ImplicationRule::S18);
    }
    let operands = operands_of(&new.e).into_iter();
    (operands.map(|e| member(new.phi.clone(), e)).collect(), ImplicationRule::S19)
}
