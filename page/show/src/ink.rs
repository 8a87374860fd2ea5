//! Colours for a terminal. They say nothing that the words beside them do not say.

/// Whether text is coloured.
#[derive(Clone, Copy, Debug, PartialEq, Eq)]
pub enum Ink {
    Plain,
    Coloured,
}

impl Ink {
    /// A fault, or a contract that is refused.
    pub fn bad(self, text: &str) -> String {
        self.paint("1;31", text)
    }

    /// A contract that is accepted.
    pub fn good(self, text: &str) -> String {
        self.paint("1;32", text)
    }

    /// No answer.
    pub fn open(self, text: &str) -> String {
        self.paint("1;33", text)
    }

    /// A related place.
    pub fn also(self, text: &str) -> String {
        self.paint("1;34", text)
    }

    pub fn strong(self, text: &str) -> String {
        self.paint("1", text)
    }

    fn paint(self, colour: &str, text: &str) -> String {
        match self {
            Ink::Plain => text.to_string(),
            Ink::Coloured => format!("\u{1b}[{colour}m{text}\u{1b}[0m"),
        }
    }
}
