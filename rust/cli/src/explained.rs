//! `explain --json`: an answer, what is missing, and the changes that would end
//! a race, each with its edits and the answer after it.

use crate::answers::put;
use format::Object;
use mend::{steps_text, Cure, Outcome};
use words::{named, Advice, Explanation, Near};

/// An explanation, with the file's name if there is one: the members of the
/// check's answer, then its own.
pub fn object(file: Option<&str>, explanation: &Explanation) -> Object {
    let mut object = Object::default();
    if let Some(file) = file {
        object.text("file", file);
    }
    put(&explanation.answer.borrowed(), &mut object);
    if let Some(near) = &explanation.near {
        object.put("nearest", nearest(explanation, near));
    }
    let changes = explanation.cures.iter().zip(&explanation.advice);
    let changes: Vec<Object> = changes.map(|(cure, advice)| change(cure, advice)).collect();
    if explanation.near.is_some() {
        object.list("changes", &changes);
    }
    let words = explanation.lines.iter().map(|line| line.trim().to_string());
    object.texts("words", &words.collect::<Vec<_>>());
    object
}

/// The rule that comes nearest, its rows and what it lacks.
fn nearest(explanation: &Explanation, near: &Near) -> Object {
    let mut object = Object::default();
    object.text("rule", &format!("L{}", near.rule));
    object.put("before", near.before);
    object.put("after", near.after);
    let lacks = near.lacks.iter();
    let lacks: Vec<String> = lacks.map(|lack| named(&explanation.notes, lack)).collect();
    object.texts("lacks", &lacks);
    object
}

fn change(cure: &Cure, advice: &Advice) -> Object {
    let mut object = Object::default();
    object.texts("reasons", &advice.reasons);
    if cure.has_room {
        object.text("edit", &steps_text(&cure.steps()));
        object.text("answer", &cure.answer.to_string());
    }
    let (outcome, left) = match cure.outcome {
        Outcome::RaceFree => ("race-free", Some(0)),
        Outcome::OtherRace { left } => ("other races", Some(left)),
        Outcome::OtherByte => ("another byte", None),
        Outcome::Impossible => ("impossible", None),
    };
    object.text("outcome", outcome);
    if let Some(left) = left {
        object.put("left", left);
    }
    object.put("orders", !cure.is_silent());
    object.put("has-room", cure.has_room);
    object.texts("glsl", &advice.glsl);
    object.texts("spirv", &advice.spirv);
    object
}
