//! The word that somebody may have meant.

/// The nearest of some words to one that none of them is, if it is near enough:
/// two letters wrong, missing, too many or exchanged, of a short word one.
pub fn near<'a>(word: &str, words: impl Iterator<Item = &'a str>) -> Option<&'a str> {
    let most = if word.len() < 5 { 1 } else { 2 };
    let distances = words.map(|other| (distance(word, other), other));
    let nearest = distances.min_by_key(|(distance, _)| *distance);
    nearest
        .filter(|(distance, _)| *distance <= most)
        .map(|(_, other)| other)
}

/// `; did you mean check?`, or nothing.
pub fn meant<'a>(word: &str, words: impl Iterator<Item = &'a str>) -> String {
    near(word, words).map_or(String::new(), |other| format!("; did you mean {other}?"))
}

/// How many letters must be changed, taken out, put in or exchanged with the next.
fn distance(one: &str, other: &str) -> usize {
    let (one, other): (Vec<char>, Vec<char>) = (one.chars().collect(), other.chars().collect());
    let mut rows: Vec<Vec<usize>> = vec![(0..=other.len()).collect()];
    for (i, letter) in one.iter().enumerate() {
        let mut row = vec![i + 1];
        for (j, aim) in other.iter().enumerate() {
            let mut least = rows[i][j] + usize::from(letter != aim);
            least = least.min(rows[i][j + 1] + 1).min(row[j] + 1);
            let is_exchanged = i > 0 && j > 0 && *letter == other[j - 1] && one[i - 1] == *aim;
            if is_exchanged {
                least = least.min(rows[i - 1][j - 1] + 1);
            }
            row.push(least);
        }
        rows.push(row);
    }
    rows[one.len()][other.len()]
}

#[cfg(test)]
mod tests {
    use super::*;

    #[test]
    fn near_words_are_meant() {
        let words = || ["check", "fill", "report", "--json", "--json-lines"].into_iter();
        for (word, expected) in [
            ("chek", Some("check")),
            ("chekc", Some("check")),
            ("reprot", Some("report")),
            ("fil", Some("fill")),
            ("--jsno", Some("--json")),
            ("--json-line", Some("--json-lines")),
            ("draw", None),
            ("x", None),
            ("", None),
        ] {
            assert_eq!(near(word, words()), expected, "{word}");
        }
        assert_eq!(meant("chek", words()), "; did you mean check?");
        assert_eq!(meant("draw", words()), "");
    }
}
