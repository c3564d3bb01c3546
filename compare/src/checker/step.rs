//! What the step from a statement to the listed vertex does, by the cases of Table 3. It says nothing of
//! the calls that are open: each replay keeps those in its own way.

use super::program::{Action, Expression, Procedure, Program, Vertex, ERROR};

/// What a step does beside moving on.
#[derive(Clone, Copy)]
pub enum Effect<'p> {
    None,
    Set {
        column: usize,
        value: i64,
    },
    /// A call begins.
    Call {
        callee: &'p Procedure,
        actuals: &'p [Expression],
    },
}

/// The effect of the step from a statement to a vertex, if there is one. `value` is that of an expression
/// before the step.
#[inline]
pub fn effect<'p>(
    program: &'p Program,
    action: &'p Action,
    to: Vertex,
    value: impl Fn(&Expression) -> i64,
) -> Option<Effect<'p>> {
    match action {
        Action::Skip { next } => (to == *next).then_some(Effect::None),
        Action::Assign {
            next,
            column,
            expression,
        } => (to == *next).then(|| Effect::Set {
            column: *column,
            value: value(expression),
        }),
        Action::Branch {
            on_true,
            on_false,
            guard,
        } => {
            let is_allowed = match guard.operator.decides(value(&guard.expression)) {
                Some(true) => to == *on_true,
                Some(false) => to == *on_false,
                None => to == *on_true || to == *on_false,
            };
            is_allowed.then_some(Effect::None)
        }
        Action::Assert { next, guard } => {
            let holds = guard.operator.decides(value(&guard.expression));
            let successor = if holds == Some(true) { *next } else { ERROR };
            (to == successor).then_some(Effect::None)
        }
        Action::Call {
            procedure, actuals, ..
        } => {
            let callee = &program.procedures[*procedure];
            (to == callee.statements.start).then_some(Effect::Call { callee, actuals })
        }
    }
}
