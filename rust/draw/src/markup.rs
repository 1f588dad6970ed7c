//! Small helpers for text that stands in SVG and HTML.

/// Text with the letters that have a meaning in markup written out.
pub fn escaped(text: &str) -> String {
    let mut safe = String::with_capacity(text.len());
    for letter in text.chars() {
        match letter {
            '&' => safe.push_str("&amp;"),
            '<' => safe.push_str("&lt;"),
            '>' => safe.push_str("&gt;"),
            '"' => safe.push_str("&quot;"),
            '\'' => safe.push_str("&#39;"),
            // Other control letters may not stand in XML at all.
            _ if letter.is_control() && letter != '\n' && letter != '\t' => safe.push('\u{FFFD}'),
            _ => safe.push(letter),
        }
    }
    safe
}

#[cfg(test)]
mod tests {
    use super::escaped;

    #[test]
    fn letters_with_a_meaning_are_written_out() {
        assert_eq!(
            escaped("a<b & 'c' > \"d\""),
            "a&lt;b &amp; &#39;c&#39; &gt; &quot;d&quot;"
        );
        assert_eq!(escaped("1\u{7}2\n3"), "1\u{FFFD}2\n3");
    }
}
