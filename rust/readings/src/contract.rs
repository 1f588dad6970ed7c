//! The contracts of the functions that C and Rust link, as a page: what each
//! answers, and what it leaves in every lent buffer, `function:part`.

const EXPORTED: &str = "pub extern \"C\" fn ";

/// The page's text, and the names of its definitions. The answer is part
/// `result`.
pub fn contracts(code: &str) -> (String, Vec<String>) {
    let uses = code.lines().filter_map(|line| line.strip_prefix("ghost "));
    let uses = uses.filter(|line| line.starts_with("use "));
    let mut page: String = uses
        .map(|line| line.trim_end_matches(';').to_string() + "\n")
        .collect();
    let mut names = Vec::new();
    for text in code.split(EXPORTED).skip(1) {
        let end = text.find("\n{").unwrap_or(text.len());
        let (head, clauses) = text[..end].split_once(" ensures ").unwrap_or((text, ""));
        let (name, arguments) = head.split_once('(').unwrap_or((head, ""));
        let name = name.split_once('<').map_or(name, |(name, _)| name);
        let arguments = arguments.lines().flat_map(|line| line.split(", "));
        let arguments = arguments.filter_map(|part| part.trim().split_once(": "));
        let arguments: Vec<&str> = arguments.map(|(argument, _)| argument).collect();
        for (part, value) in clauses.split(" ensures ").flat_map(parts) {
            let full = format!("{name}:{part}");
            page += &format!("{full} : Part\n{full} {} = {value}\n", arguments.join(" "));
            names.push(full);
        }
    }
    (page, names)
}

/// Of `{ let .. in (result ≡ ..) × (buffer.new ≡ ..) }`, with or without a name
/// before it, each name before a `≡` with what is after it.
fn parts(clause: &str) -> Vec<(String, String)> {
    let text = clause.replace('\n', " ");
    // Of a lent buffer all but the part's own name is what it held before.
    let text = text.replace(".old", "").replace(".now", "");
    let inside = text.split_once('{').map_or("", |(_, rest)| rest);
    let inside = inside.rsplit_once('}').map_or("", |(inside, _)| inside);
    let (before, inside) = match inside.rfind(" in ") {
        Some(end) => inside.split_at(end + 4),
        None => ("", inside),
    };
    let mut found = Vec::new();
    for part in split(inside, '×') {
        let part = part.trim();
        let part = part
            .strip_prefix('(')
            .and_then(|part| part.strip_suffix(')'))
            .unwrap_or(part);
        let [left, right] = split(part, '≡')[..] else {
            continue;
        };
        let name = left.trim().trim_end_matches(".new");
        found.push((name.to_string(), format!("{before}{right}")));
    }
    found
}

/// Cut wherever this letter stands in no parentheses.
fn split(text: &str, at: char) -> Vec<&str> {
    let mut depth = 0;
    text.split(move |letter| {
        depth += i32::from(letter == '(') - i32::from(letter == ')');
        depth == 0 && letter == at
    })
    .collect()
}
