//! An object of JSON.
use std::io::{self, Write};

/// The members of an object, in their order, each as it is written.
#[derive(Default)]
pub struct Object(Vec<String>);

impl Object {
    pub fn number(&mut self, name: &str, number: usize) {
        self.0.push(format!("{}: {number}", quoted(name)));
    }

    pub fn flag(&mut self, name: &str, flag: bool) {
        self.0.push(format!("{}: {flag}", quoted(name)));
    }

    pub fn text(&mut self, name: &str, text: &str) {
        self.0.push(format!("{}: {}", quoted(name), quoted(text)));
    }

    /// Writes the object, a member a line.
    pub fn write(&self, out: &mut dyn Write) -> io::Result<()> {
        writeln!(out, "{{\n  {}\n}}", self.0.join(",\n  "))
    }
}

/// A text as JSON has it.
fn quoted(text: &str) -> String {
    let escaped = |letter: char| match letter {
        '"' | '\\' => format!("\\{letter}"),
        _ if letter.is_control() => {
            letter.encode_utf16(&mut [0; 2]).iter().map(|unit| format!("\\u{unit:04x}")).collect()
        }
        _ => letter.to_string(),
    };
    format!("\"{}\"", text.chars().map(escaped).collect::<String>())
}
