//! The commands of a file that was read: those of the procedures and of the main program, and those that evidence carries; and
//! refusals 16 and 7, which are of these.

use super::modified::modified_by;
use crate::layout::syntax::*;
use crate::layout::words::{refuse, Refusal};

/// Refusal 16, then refusal 7, each at the first place in file order.
pub fn check_commands(file: &File) -> Result<(), Refusal> {
    let all = commands_of(file);
    for (callable, command) in &all {
        check_calls(command, *callable)?;
    }
    for (_, command) in &all {
        check_fors(command, &file.procedures)?;
    }
    Ok(())
}

/// The commands of a file in file order, the carried ones too; each with the count of procedures that it may call: in
/// procedure i the i before it, in the main program all.
fn commands_of(file: &File) -> Vec<(usize, &Command)> {
    let mut all = Vec::new();
    for (i, procedure) in file.procedures.iter().enumerate() {
        all.push((i, &procedure.command));
        all.extend(carried_in_flow(&procedure.evidence).into_iter().map(|command| (i, command)));
    }
    let count = file.procedures.len();
    all.push((count, &file.command));
    all.extend(carried_in_flow(&file.evidence).into_iter().map(|command| (count, command)));
    all
}

/// Every command of a file in file order, those within others too.
pub fn all_commands(file: &File) -> Vec<&Command> {
    commands_of(file).into_iter().flat_map(|(_, command)| with_inner(command)).collect()
}

/// A command and those within it, in file order.
pub fn with_inner(command: &Command) -> Vec<&Command> {
    let mut all = vec![command];
    match &command.form {
        Form::Skip | Form::Assert(_) | Form::AssignScalar(..) | Form::AssignArray(..) | Form::Call(_) => {}
        Form::Sequence(a, b) | Form::If(_, a, b) => {
            all.extend(with_inner(a));
            all.extend(with_inner(b));
        }
        Form::While(_, body) | Form::For(_, _, body) => all.extend(with_inner(body)),
    }
    all
}

/// Refusal 16 in a command: the first call of a procedure that it may not call.
fn check_calls(command: &Command, callable: usize) -> Result<(), Refusal> {
    match &command.form {
        Form::Skip | Form::Assert(_) | Form::AssignScalar(..) | Form::AssignArray(..) => Ok(()),
        Form::Sequence(a, b) | Form::If(_, a, b) => {
            check_calls(a, callable)?;
            check_calls(b, callable)
        }
        Form::While(_, body) | Form::For(_, _, body) => check_calls(body, callable),
        Form::Call(p) if (*p as usize) < callable => Ok(()),
        Form::Call(_) => refuse(16, command.place),
    }
}

/// Refusal 7 in a command: the first `for` in file order whose q is m, or
/// whose body modifies q or m.
fn check_fors(command: &Command, procedures: &[Procedure]) -> Result<(), Refusal> {
    match &command.form {
        Form::Skip | Form::Assert(_) | Form::AssignScalar(..) | Form::AssignArray(..) | Form::Call(_) => Ok(()),
        Form::Sequence(a, b) | Form::If(_, a, b) => {
            check_fors(a, procedures)?;
            check_fors(b, procedures)
        }
        Form::While(_, body) => check_fors(body, procedures),
        Form::For(q, m, body) => {
            let modified = modified_by(body, procedures);
            if q == m || modified.has_scalar(*q) || modified.has_scalar(*m) {
                return refuse(7, command.place);
            }
            check_fors(body, procedures)
        }
    }
}

/// The commands that evidence carries, in file order.
fn carried_in_flow(flow: &Flow) -> Vec<&Command> {
    match &flow.rule {
        FlowRule::F1 | FlowRule::F3 | FlowRule::F4 | FlowRule::F5 | FlowRule::F10 | FlowRule::F31 => Vec::new(),
        FlowRule::F2 { first, second, .. } | FlowRule::F9 { first, second, .. } => {
            [carried_in_flow(first), carried_in_flow(second)].concat()
        }
        FlowRule::F6 { then, otherwise, before, .. } => {
            [carried_in_flow(then), carried_in_flow(otherwise), carried_in_before(before)].concat()
        }
        FlowRule::F7 { flow, .. } | FlowRule::F8 { flow, .. } => carried_in_flow(flow),
        FlowRule::F11 { before } => carried_in_before(before),
        FlowRule::F12 { flow, before, .. } => [carried_in_flow(flow), carried_in_before(before)].concat(),
        FlowRule::F13 { body } => carried_in_flow(body),
        FlowRule::F14 { d, flow } => [vec![d], carried_in_flow(flow)].concat(),
    }
}

fn carried_in_before(before: &Before) -> Vec<&Command> {
    match &before.rule {
        BeforeRule::B20 { then, otherwise, .. } => [carried_in_before(then), carried_in_before(otherwise)].concat(),
        BeforeRule::B21 { body, .. } => carried_in_before(body),
        BeforeRule::B23 { first, second, .. } => [carried_in_before(first), carried_in_before(second)].concat(),
        BeforeRule::B28 { inner, .. } | BeforeRule::B32 { inner } => carried_in_before(inner),
        BeforeRule::B30 { d, inner } => [vec![d], carried_in_before(inner)].concat(),
        BeforeRule::B22
        | BeforeRule::B24
        | BeforeRule::B25
        | BeforeRule::B26
        | BeforeRule::B27
        | BeforeRule::B29 => Vec::new(),
    }
}
