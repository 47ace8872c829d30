//! JSON, written with indentation.

pub enum Json {
    Null,
    Truth(bool),
    Number(i64),
    Text(String),
    List(Vec<Json>),
    Object(Vec<(String, Json)>),
}

impl Json {
    pub fn text(text: impl Into<String>) -> Json {
        Json::Text(text.into())
    }

    pub fn number(number: impl TryInto<i64>) -> Json {
        number.try_into().map_or(Json::Null, Json::Number)
    }

    pub fn numbers(numbers: &[i64]) -> Json {
        Json::List(numbers.iter().map(|number| Json::Number(*number)).collect())
    }

    pub fn object<const KEYS: usize>(entries: [(&str, Json); KEYS]) -> Json {
        Json::Object(entries.into_iter().map(|(key, value)| (key.to_string(), value)).collect())
    }

    /// The object with an entry more; anything else stays as it is.
    pub fn with(mut self, key: &str, value: Json) -> Json {
        if let Json::Object(entries) = &mut self {
            entries.push((key.to_string(), value));
        }
        self
    }

    /// The value and a line end.
    pub fn written(&self) -> String {
        let mut text = String::new();
        self.write(&mut text, 0);
        text + "\n"
    }

    fn write(&self, text: &mut String, depth: usize) {
        match self {
            Json::Null => *text += "null",
            Json::Truth(truth) => *text += if *truth { "true" } else { "false" },
            Json::Number(number) => *text += &number.to_string(),
            Json::Text(content) => write_text(text, content),
            Json::List(values) if values.iter().all(Json::is_short) => {
                write_all(text, values, ['[', ']'], None, |text, value| value.write(text, depth));
            }
            Json::List(values) => {
                write_all(text, values, ['[', ']'], Some(depth), |text, value| value.write(text, depth + 1));
            }
            Json::Object(entries) => {
                let is_short = entries.iter().all(|(_, value)| value.is_short());
                write_all(text, entries, ['{', '}'], (!is_short).then_some(depth), |text, (key, value)| {
                    write_text(text, key);
                    *text += ": ";
                    value.write(text, depth + 1);
                });
            }
        }
    }

    /// Numbers stand in one line.
    fn is_short(&self) -> bool {
        matches!(self, Json::Number(_))
    }
}

/// Values between two brackets, each on a line of its own where a depth is given.
fn write_all<T>(
    text: &mut String,
    values: &[T],
    ends: [char; 2],
    depth: Option<usize>,
    write: impl Fn(&mut String, &T),
) {
    let line_end = |text: &mut String, depth: usize| *text += &format!("\n{}", "  ".repeat(depth));
    text.push(ends[0]);
    for (place, value) in values.iter().enumerate() {
        if place > 0 {
            *text += if depth.is_some() { "," } else { ", " };
        }
        if let Some(depth) = depth {
            line_end(text, depth + 1);
        }
        write(text, value);
    }
    if let Some(depth) = depth.filter(|_| !values.is_empty()) {
        line_end(text, depth);
    }
    text.push(ends[1]);
}

fn write_text(text: &mut String, content: &str) {
    text.push('"');
    for character in content.chars() {
        match character {
            '"' => *text += "\\\"",
            '\\' => *text += "\\\\",
            '\n' => *text += "\\n",
            control if control < ' ' => *text += &format!("\\u{:04x}", u32::from(control)),
            other => text.push(other),
        }
    }
    text.push('"');
}

#[cfg(test)]
mod tests {
    use super::*;

    #[test]
    fn values_are_written_as_json() {
        let value = Json::object([
            ("text", Json::text("a\"b\\c\n\u{1}\u{e9}")),
            ("list", Json::numbers(&[1, -2])),
            ("none", Json::List(Vec::new())),
            ("object", Json::object([("yes", Json::Truth(true)), ("no", Json::Null)])),
        ]);
        let wanted = "{\n  \"text\": \"a\\\"b\\\\c\\n\\u0001\u{e9}\",\n  \"list\": [1, -2],\n  \"none\": [],\n  \
                      \"object\": {\n    \"yes\": true,\n    \"no\": null\n  }\n}\n";
        assert_eq!(value.written(), wanted);
    }

    #[test]
    fn a_number_that_does_not_fit_is_null() {
        assert!(matches!(Json::number(u64::MAX), Json::Null));
        assert!(matches!(Json::number(3_u8), Json::Number(3)));
    }
}
