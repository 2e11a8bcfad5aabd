//! Replies as traces have them, for the examples that play lines.

use gcflip::{Step, Value};

/// Returns what a read saw.
pub fn seen(value: Value) -> String {
    match value {
        Value::Nil => "saw nil".into(),
        Value::Number(number) => format!("saw num {number}"),
        Value::Object { kind, fields } => format!("saw obj {kind} {fields}"),
        Value::RawObject { kind, fields } => format!("saw raw {kind} {fields}"),
    }
}

/// Returns what a step did.
pub fn stepped(step: Step) -> String {
    match step {
        Step::Begun => "begun".into(),
        Step::Clean => "clean".into(),
        Step::Copied => "copied".into(),
        Step::Passed => "passed".into(),
        Step::Scanned => "scanned".into(),
        Step::Applied => "applied".into(),
        Step::Flipped { pairs } => format!("flipped {pairs}"),
        Step::NoRoom => "no room".into(),
    }
}
