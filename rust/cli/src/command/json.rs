//! JSON, as much of it as the commands print.

use std::fmt;

/// A value.
pub enum Json {
    Null,
    Truth(bool),
    Number(u64),
    Text(String),
    List(Vec<Json>),
    Object(Vec<(&'static str, Json)>),
}

impl From<bool> for Json {
    fn from(truth: bool) -> Json {
        Json::Truth(truth)
    }
}

impl From<u64> for Json {
    fn from(number: u64) -> Json {
        Json::Number(number)
    }
}

impl From<&str> for Json {
    fn from(text: &str) -> Json {
        Json::Text(text.to_string())
    }
}

impl From<String> for Json {
    fn from(text: String) -> Json {
        Json::Text(text)
    }
}

impl<T: Into<Json>> From<Option<T>> for Json {
    fn from(value: Option<T>) -> Json {
        value.map_or(Json::Null, Into::into)
    }
}

impl FromIterator<Json> for Json {
    fn from_iter<I: IntoIterator<Item = Json>>(items: I) -> Json {
        Json::List(items.into_iter().collect())
    }
}

/// Lists and objects longer than this stand in several lines.
const WIDTH: usize = 80;

impl Json {
    /// In one line.
    fn line(&self) -> String {
        match self {
            Json::Null => "null".to_string(),
            Json::Truth(truth) => truth.to_string(),
            Json::Number(number) => number.to_string(),
            Json::Text(text) => quoted(text),
            Json::List(items) => format!("[{}]", items.iter().map(Json::line).collect::<Vec<_>>().join(", ")),
            Json::Object(members) => {
                let member = |(name, value): &(&str, Json)| format!("{}: {}", quoted(name), value.line());
                format!("{{{}}}", members.iter().map(member).collect::<Vec<_>>().join(", "))
            }
        }
    }

    /// So many columns in, with a part to a line where it is too long for one.
    fn lines(&self, indent: usize) -> String {
        let line = self.line();
        let inner = indent + 2;
        let parts: Vec<String> = match self {
            _ if indent + line.len() <= WIDTH => return line,
            Json::List(items) => items.iter().map(|item| item.lines(inner)).collect(),
            Json::Object(members) => {
                members.iter().map(|(name, value)| format!("{}: {}", quoted(name), value.lines(inner))).collect()
            }
            _ => return line,
        };
        let (open, close) = if let Json::List(_) = self { ('[', ']') } else { ('{', '}') };
        let between = format!(",\n{:inner$}", "");
        format!("{open}\n{:inner$}{}\n{:indent$}{close}", "", parts.join(&between), "")
    }
}

impl fmt::Display for Json {
    fn fmt(&self, f: &mut fmt::Formatter<'_>) -> fmt::Result {
        writeln!(f, "{}", self.lines(0))
    }
}

fn quoted(text: &str) -> String {
    let mut quoted = String::from('"');
    for letter in text.chars() {
        match letter {
            '"' | '\\' => quoted.extend(['\\', letter]),
            '\n' => quoted.push_str("\\n"),
            _ if letter.is_control() => quoted.push_str(&format!("\\u{:04x}", letter as u32)),
            _ => quoted.push(letter),
        }
    }
    quoted.push('"');
    quoted
}

#[cfg(test)]
mod tests {
    use super::Json;

    #[test]
    fn written_by_hand() {
        let text = Json::from("a \"b\" \\ c\n\t\u{7f}é");
        assert_eq!(text.to_string(), concat!(r#""a \"b\" \\ c\n\u0009\u007fé""#, "\n"));
        let items: Json = [Json::from(3), Json::from(None::<u64>), Json::from(Some(true))].into_iter().collect();
        let short = Json::Object(vec![("a", items), ("b", Json::from(""))]);
        assert_eq!(short.to_string(), "{\"a\": [3, null, true], \"b\": \"\"}\n");
        assert_eq!(Json::Object(Vec::new()).to_string(), "{}\n");
        let long = "x".repeat(40);
        let both: Json = [Json::from(long.as_str()), Json::from(long.as_str())].into_iter().collect();
        let long = Json::Object(vec![("short", Json::List(Vec::new())), ("long", both)]);
        let x = "x".repeat(40);
        let text = format!("{{\n  \"short\": [],\n  \"long\": [\n    \"{x}\",\n    \"{x}\"\n  ]\n}}\n");
        assert_eq!(long.to_string(), text);
    }
}
