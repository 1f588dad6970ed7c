//! Values and names as text, and values compared.

use pages::{Definition, Evaluator, Expr, Found, Value};

/// A list of numbers.
pub fn numbers<N: Copy + Into<u64>>(numbers: &[N]) -> Value {
    Value::list(numbers.iter().map(|number| Value::Number((*number).into())))
}

/// `crate/Page.name`
pub fn full(definition: &Definition) -> String {
    format!("{}.{}", definition.page, definition.name)
}

/// What a definition gives, with all that it holds, as text.
pub fn told(pages: &mut Evaluator, definition: &str, arguments: &[Value]) -> Found<String> {
    let value = pages.ask(definition, arguments)?;
    text(pages, &value)
}

fn text(pages: &mut Evaluator, value: &Value) -> Found<String> {
    let value = pages.force(value)?;
    let parts = value.parts().iter().map(|part| text(pages, part));
    let parts = parts.collect::<Found<Vec<String>>>()?.join(" ");
    Ok(match &value {
        Value::Number(number) => number.to_string(),
        Value::Truth(truth) => truth.to_string(),
        Value::List(_) => format!("[{parts}]"),
        Value::Function(function) => match function.code {
            Expr::Record(_) => format!("{{{parts}}}"),
            Expr::Constructor(name) => format!("{name} {parts}").trim_end().to_string(),
            _ => return Err("a function".into()),
        },
        Value::Later(_) => return Err("a value that is put off".into()),
    })
}

/// Whether two values hold the same; that of functions isn't known.
pub fn same(pages: &mut Evaluator, one: &Value, two: &Value) -> Found<bool> {
    let (one, two) = (pages.force(one)?, pages.force(two)?);
    let is_alike = match (&one, &two) {
        (Value::Number(one), Value::Number(two)) => one == two,
        (Value::Truth(one), Value::Truth(two)) => one == two,
        (Value::List(_), Value::List(_)) => true,
        (Value::Function(one), Value::Function(two)) => match (one.code, two.code) {
            (Expr::Constructor(one), Expr::Constructor(two)) => one == two,
            (Expr::Record(_), Expr::Record(_)) => true,
            _ => return Err("a function".into()),
        },
        _ => false,
    };
    let mut is_same = is_alike && one.parts().len() == two.parts().len();
    for (one, two) in one.parts().iter().zip(two.parts()) {
        is_same = is_same && same(pages, one, two)?;
    }
    Ok(is_same)
}
