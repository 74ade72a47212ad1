//! Colour, for a terminal alone.

/// Whether there is colour.
#[derive(Clone, Copy, Debug, PartialEq, Eq)]
pub enum Paint {
    Plain,
    Colour,
}

impl Paint {
    /// What matters most: a no.
    pub fn bad(self, text: &str) -> String {
        self.with("1;31", text)
    }

    /// What will matter soon.
    pub fn soon(self, text: &str) -> String {
        self.with("1;33", text)
    }

    fn with(self, code: &str, text: &str) -> String {
        match self {
            Paint::Plain => text.to_string(),
            Paint::Colour => format!("\x1b[{code}m{text}\x1b[0m"),
        }
    }

    /// How many no there are: painted, if there are any.
    pub fn number_of_no(self, no: u64) -> String {
        let text = format!("{no} no");
        match no {
            0 => text,
            _ => self.bad(&text),
        }
    }
}
