//! Values written as JSON that may stand inside a page.

pub enum Value {
    Null,
    Number(u64),
    Text(String),
    List(Vec<Value>),
    Object(Vec<(&'static str, Value)>),
}

impl Value {
    pub fn index(index: usize) -> Value {
        Value::Number(index as u64)
    }

    pub fn text(text: &str) -> Value {
        Value::Text(text.to_string())
    }

    pub fn list(values: impl IntoIterator<Item = Value>) -> Value {
        Value::List(values.into_iter().collect())
    }

    pub fn write(&self, output: &mut String) {
        match self {
            Value::Null => output.push_str("null"),
            Value::Number(number) => output.push_str(&number.to_string()),
            Value::Text(text) => write_text(text, output),
            Value::List(values) => {
                let pieces = values.iter().map(|value| move |output: &mut String| value.write(output));
                write_between('[', pieces, ']', output);
            }
            Value::Object(fields) => {
                let pieces = fields.iter().map(|(name, value)| {
                    move |output: &mut String| {
                        write_text(name, output);
                        output.push(':');
                        value.write(output);
                    }
                });
                write_between('{', pieces, '}', output);
            }
        }
    }
}

impl std::fmt::Display for Value {
    fn fmt(&self, formatter: &mut std::fmt::Formatter) -> std::fmt::Result {
        let mut output = String::new();
        self.write(&mut output);
        formatter.write_str(&output)
    }
}

fn write_between<W: Fn(&mut String)>(open: char, pieces: impl Iterator<Item = W>, close: char, output: &mut String) {
    output.push(open);
    for (index, piece) in pieces.enumerate() {
        if index > 0 {
            output.push(',');
        }
        piece(output);
    }
    output.push(close);
}

/// `<` would end the page's script, so it has a code.
fn write_text(text: &str, output: &mut String) {
    output.push('"');
    for character in text.chars() {
        match character {
            '"' | '\\' => output.extend(['\\', character]),
            '<' | '>' | '&' | '\u{2028}' | '\u{2029}' | '\0'..='\u{1f}' => {
                output.push_str(&format!("\\u{:04x}", u32::from(character)));
            }
            _ => output.push(character),
        }
    }
    output.push('"');
}

#[cfg(test)]
mod tests {
    use super::Value;

    #[test]
    fn nothing_ends_a_script() {
        let value = Value::Object(vec![
            ("a", Value::text("</script>\n\"\\")),
            ("b", Value::list([Value::Null, Value::Number(7)])),
        ]);
        assert_eq!(value.to_string(), r#"{"a":"\u003c/script\u003e\u000a\"\\","b":[null,7]}"#);
    }
}
