//! Text for a page: escaped, counted, never rounded.

use crate::letters::is_hidden;
use std::fmt::Write;

/// The text without characters that would hide or reorder what follows.
fn clean(typed: &str) -> String {
    typed.chars().map(|character| if is_hidden(character) { '\u{FFFD}' } else { character }).collect()
}

/// Typed text in HTML, between tags and in quoted attributes.
pub fn text(typed: &str) -> String {
    let mut escaped = String::new();
    for character in clean(typed).chars() {
        match character {
            '&' => escaped.push_str("&amp;"),
            '<' => escaped.push_str("&lt;"),
            '>' => escaped.push_str("&gt;"),
            '"' => escaped.push_str("&quot;"),
            '\'' => escaped.push_str("&#39;"),
            other => escaped.push(other),
        }
    }
    escaped
}

/// Typed text as a CSS string.
pub fn css(typed: &str) -> String {
    let mut escaped = "\"".to_string();
    for character in clean(typed).chars() {
        match character {
            plain if plain.is_ascii_alphanumeric() || " ,.:-".contains(plain) => escaped.push(plain),
            other => {
                let _ = write!(escaped, "\\{:x} ", u32::from(other));
            }
        }
    }
    escaped + "\""
}

/// A name of which no more than so many characters are shown.
pub fn short(name: &str, most: usize) -> String {
    match name.chars().count() <= most {
        true => name.to_string(),
        false => name.chars().take(most - 1).chain(['…']).collect(),
    }
}

/// A number with its thousands set apart.
pub fn grouped(number: u64) -> String {
    let digits = number.to_string();
    let mut text = String::new();
    for (at, digit) in digits.chars().enumerate() {
        if at > 0 && (digits.len() - at).is_multiple_of(3) {
            text.push(',');
        }
        text.push(digit);
    }
    text
}

/// So many of something.
pub fn many(number: u64, one: &str, more: &str) -> String {
    format!("{} {}", grouped(number), if number == 1 { one } else { more })
}

/// `120`, or `120 to 131`.
pub fn from_to(first: u64, last: u64) -> String {
    match first == last {
        true => grouped(first),
        false => format!("{} to {}", grouped(first), grouped(last)),
    }
}

/// A line may end before "to" and "in", not inside a time.
pub fn unbroken(text: &str) -> String {
    text.replace(' ', "&nbsp;").replace("&nbsp;to&nbsp;", " to&nbsp;").replace("&nbsp;in&nbsp;", " in&nbsp;")
}

#[cfg(test)]
mod tests {
    use super::{css, from_to, grouped, many, short, text, unbroken};

    #[test]
    fn typed_text_does_no_harm() {
        let hostile = "</style><script>\"'&\u{202E}\u{0}\\";
        assert_eq!(text(hostile), "&lt;/style&gt;&lt;script&gt;&quot;&#39;&amp;\u{FFFD}\u{FFFD}\\");
        let bare = "\\3c \\2f style\\3e \\3c script\\3e \\22 \\27 \\26 \\fffd \\fffd \\5c ";
        assert_eq!(css(hostile), format!("\"{bare}\""));
        assert_eq!(css("kiosk 3, hall"), "\"kiosk 3, hall\"");
    }

    #[test]
    fn numbers_and_spans() {
        assert_eq!([0, 999, 1_000, 1_234_567].map(grouped), ["0", "999", "1,000", "1,234,567"]);
        assert_eq!((many(1, "no", "nos"), many(2_000, "no", "nos")), ("1 no".to_string(), "2,000 nos".to_string()));
        assert_eq!((from_to(7, 7), from_to(999, 1_000)), ("7".to_string(), "999 to 1,000".to_string()));
        assert_eq!(unbroken("Mon 9 Nov to Tue 1"), "Mon&nbsp;9&nbsp;Nov to&nbsp;Tue&nbsp;1");
        assert_eq!((short("äöü", 3), short("äöüa", 3)), ("äöü".to_string(), "äö…".to_string()));
    }
}
