//! Texts as they stand in a picture.

/// The text with the signs that XML keeps for itself written as entities.
pub fn escape(text: &str) -> String {
    let mut escaped = String::with_capacity(text.len());
    for sign in text.chars() {
        match sign {
            '&' => escaped.push_str("&amp;"),
            '<' => escaped.push_str("&lt;"),
            '>' => escaped.push_str("&gt;"),
            '"' => escaped.push_str("&quot;"),
            '\t' | '\n' | '\r' => escaped.push(' '),
            '\u{fffe}' | '\u{ffff}' => escaped.push('\u{fffd}'),
            sign if sign.is_control() => escaped.push('\u{fffd}'),
            sign => escaped.push(sign),
        }
    }
    escaped
}

/// Cuts a text at its spaces into lines of about `most` signs, at most `rows`
/// of them; what is left out shows as `…`.
pub fn lines(text: &str, most: usize, rows: usize) -> Vec<String> {
    let mut lines: Vec<String> = Vec::new();
    for word in text.split_whitespace() {
        let word = shorten(word, most);
        match lines.last_mut() {
            Some(line) if line.chars().count() + 1 + word.chars().count() <= most => {
                line.push(' ');
                line.push_str(&word);
            }
            _ => lines.push(word),
        }
    }
    if lines.len() > rows {
        lines.truncate(rows);
        if let Some(line) = lines.last_mut() {
            line.push_str(" …");
        }
    }
    lines
}

/// The word, cut to `most` signs.
fn shorten(word: &str, most: usize) -> String {
    if word.chars().count() <= most {
        return word.to_string();
    }
    let mut short: String = word.chars().take(most.saturating_sub(1)).collect();
    short.push('…');
    short
}

/// About how wide a text is in a sans-serif font of that size.
pub fn width(text: &str, size: f64) -> f64 {
    let units: f64 = text
        .chars()
        .map(|sign| if sign.is_ascii() { 0.6 } else { 1.0 })
        .sum();
    units * size
}
