//! Names for letters, typed in a file: what a letter of the log stands for in the shop.

use crate::convert::digits;
use havdrims::save::checksum_from;
use std::fmt;

/// The characters of a name, at most.
pub const LONGEST: usize = 80;

/// The names of letters 0 to 31, of those that have one.
#[derive(Clone, Debug, Default, PartialEq, Eq)]
pub struct Letters {
    names: [Option<String>; 32],
}

/// What is wrong with a line of names.
#[derive(Clone, Debug, PartialEq, Eq)]
pub enum Fault {
    Number { word: String },
    Twice { letter: usize },
    SameName { letter: usize },
    NoName { letter: usize },
    Long { characters: usize },
    Hidden { character: char },
    Space { character: char },
    TwoSpaces,
    Quote,
}

/// What is wrong, and in which line, counted from 1.
#[derive(Clone, Debug, PartialEq, Eq)]
pub struct Wrong {
    pub line: usize,
    pub fault: Fault,
}

impl fmt::Display for Wrong {
    fn fmt(&self, f: &mut fmt::Formatter<'_>) -> fmt::Result {
        write!(f, "line {}: ", self.line)?;
        match &self.fault {
            Fault::Number { word } => {
                write!(f, "`{}` is no letter's number: a line has a number, 0 to 31, and a name", word.escape_debug())
            }
            Fault::Twice { letter } => write!(f, "letter {letter} has a name already"),
            Fault::SameName { letter } => write!(f, "letter {letter} has this name already"),
            Fault::NoName { letter } => write!(f, "letter {letter} has no name here: a line has a number and a name"),
            Fault::Long { characters } => {
                write!(f, "the name has {characters} characters; at most {LONGEST} are shown well")
            }
            Fault::Hidden { character } => {
                let number = u32::from(*character);
                write!(f, "the name has a character that is not seen, or turns the text round: U+{number:04X}")
            }
            Fault::Space { character } => {
                let number = u32::from(*character);
                write!(f, "the name has a space that is no plain one, and may look like it: U+{number:04X}")
            }
            Fault::TwoSpaces => write!(f, "the name has two spaces in a row, which may look like one"),
            Fault::Quote => write!(f, "the name has a double quote: names are shown between them"),
        }
    }
}

/// Whether a character hides or reorders what stands beside it: control and direction characters, ends of lines, and spaces without width.
pub fn is_hidden(character: char) -> bool {
    let others = ['\u{61C}', '\u{200B}', '\u{200E}', '\u{200F}', '\u{FEFF}'];
    character.is_control()
        || others.contains(&character)
        || ('\u{2028}'..='\u{202E}').contains(&character)
        || ('\u{2066}'..='\u{2069}').contains(&character)
}

/// Whether one plain space stands between two words of a name: two names that differ in spaces alone look the same.
fn spaced(name: &str) -> Result<(), Fault> {
    match name.chars().find(|&character| character.is_whitespace() && character != ' ') {
        Some(character) => Err(Fault::Space { character }),
        None if name.contains("  ") => Err(Fault::TwoSpaces),
        None => Ok(()),
    }
}

impl Letters {
    /// The names in a text: a line for each letter, its number and its name, as `0 head warm`. Empty lines, and those that begin
    /// with #, are passed over.
    pub fn read(text: &str) -> Result<Letters, Wrong> {
        Letters::of(text, spaced)
    }

    /// The same, where each name passes this besides.
    fn of(text: &str, passes: fn(&str) -> Result<(), Fault>) -> Result<Letters, Wrong> {
        let mut letters = Letters::default();
        for (at, line) in text.lines().enumerate() {
            let line = line.trim();
            if !line.is_empty() && !line.starts_with('#') {
                let added = letters.add(line, passes);
                added.map_err(|fault| Wrong { line: at + 1, fault })?;
            }
        }
        Ok(letters)
    }

    fn add(&mut self, line: &str, passes: fn(&str) -> Result<(), Fault>) -> Result<(), Fault> {
        let (word, name) = line.split_once([' ', '\t']).unwrap_or((line, ""));
        let number = digits(word).filter(|&number: &usize| number < 32);
        let letter = number.ok_or_else(|| Fault::Number { word: word.to_string() })?;
        let name = name.trim();
        if self.names[letter].is_some() {
            return Err(Fault::Twice { letter });
        }
        if name.is_empty() {
            return Err(Fault::NoName { letter });
        }
        if let Some(character) = name.chars().find(|&character| is_hidden(character)) {
            return Err(Fault::Hidden { character });
        }
        passes(name)?;
        if name.contains('"') {
            return Err(Fault::Quote);
        }
        let characters = name.chars().count();
        if characters > LONGEST {
            return Err(Fault::Long { characters });
        }
        if let Some(letter) = self.names.iter().position(|other| other.as_deref() == Some(name)) {
            return Err(Fault::SameName { letter });
        }
        self.names[letter] = Some(name.to_string());
        Ok(())
    }

    pub fn is_empty(&self) -> bool {
        self.names.iter().all(Option::is_none)
    }

    /// How many letters have a name.
    pub fn count(&self) -> usize {
        self.names.iter().flatten().count()
    }

    /// A letter as people read it: its name between quotes, or as rules are typed.
    pub fn name(&self, letter: u8) -> String {
        match &self.names[usize::from(letter)] {
            Some(name) => format!("\"{name}\""),
            None => format!("e{letter}"),
        }
    }

    /// A formula with its letters by their names.
    pub fn in_formula(&self, formula: &str) -> String {
        let letter = |word: &str| word.strip_prefix('e')?.parse().ok().filter(|&letter| letter < 32);
        let mut text = String::new();
        let mut rest = formula;
        while !rest.is_empty() {
            let is_word = |c: char| c.is_ascii_alphanumeric();
            let end = rest.find(|c| !is_word(c)).unwrap_or(rest.len());
            match letter(&rest[..end]) {
                Some(letter) => text.push_str(&self.name(letter)),
                None => text.push_str(&rest[..end]),
            }
            let next = rest[end..].find(is_word).map_or(rest.len(), |at| end + at);
            text.push_str(&rest[end..next]);
            rest = &rest[next..];
        }
        text
    }

    /// The names as a file has them.
    pub fn lines(&self) -> String {
        let named = self.names.iter().enumerate().filter_map(|(letter, name)| Some((letter, name.as_ref()?)));
        named.map(|(letter, name)| format!("{letter} {name}\n")).collect()
    }

    /// The file of a card: the lines, and their checksum, bound to the card and its rule.
    pub fn encode(&self, bound: u64) -> Vec<u8> {
        let lines = self.lines();
        format!("{lines}checksum {:016x}\n", checksum_from(bound, lines.as_bytes())).into_bytes()
    }

    /// What such a file holds, unless it is damaged or another card's.
    pub fn decode(bytes: &[u8], bound: u64) -> Option<Letters> {
        let text = std::str::from_utf8(bytes).ok()?;
        let (lines, _) = text.split_at(text.rfind("checksum ")?);
        // An earlier program took any spaces.
        let letters = Letters::of(lines, |_| Ok(())).ok()?;
        (letters.encode(bound) == bytes).then_some(letters)
    }
}

#[cfg(test)]
mod tests {
    use super::{is_hidden, Letters};

    fn named(text: &str) -> Letters {
        Letters::read(text).unwrap()
    }

    #[test]
    fn names_are_read_and_shown() {
        let letters = named("# the kiosk at the door\n\n0 head warm\n 31\ttest print #2 \r\n7 it's e3\n");
        assert_eq!(letters.count(), 3);
        assert_eq!(
            [0, 7, 31, 3].map(|letter| letters.name(letter)),
            ["\"head warm\"", "\"it's e3\"", "\"test print #2\"", "e3"]
        );
        assert_eq!(letters.lines(), "0 head warm\n7 it's e3\n31 test print #2\n");
        assert_eq!(named(&letters.lines()), letters);
        let formula = "not e2 or (e0 since[0,inf] e31) until[0,7] prev[3,7] e7 or next[0,1] e30";
        let shown = "not e2 or (\"head warm\" since[0,inf] \"test print #2\") until[0,7] prev[3,7] \"it's e3\" or next[0,1] e30";
        assert_eq!(letters.in_formula(formula), shown);
        assert!(named("").is_empty() && !letters.is_empty());
        assert_eq!(named("").in_formula(formula), formula);
    }

    #[test]
    fn what_is_wrong_and_where() {
        let wrong = |text: &str| Letters::read(text).unwrap_err().to_string();
        let number = "is no letter's number: a line has a number, 0 to 31, and a name";
        for word in ["32", "e0", "+1", "-1", "99999999999999999999", "0head"] {
            assert_eq!(wrong(&format!("1 lamp\n{word} head\n")), format!("line 2: `{word}` {number}"));
        }
        assert_eq!(wrong("\u{202E}0 a"), format!("line 1: `\\u{{202e}}0` {number}"));
        assert_eq!(wrong("1 lamp\n\n1 lamps\n"), "line 3: letter 1 has a name already");
        assert_eq!(wrong("1 lamp\n2 lamp\n"), "line 2: letter 1 has this name already");
        assert_eq!(wrong("4 \n"), "line 1: letter 4 has no name here: a line has a number and a name");
        assert_eq!(wrong("4"), "line 1: letter 4 has no name here: a line has a number and a name");
        assert_eq!(wrong("4 a \"b\""), "line 1: the name has a double quote: names are shown between them");
        assert!(Letters::read(&format!("3 {}", "ü".repeat(80))).is_ok());
        let long = "line 1: the name has 81 characters; at most 80 are shown well";
        assert_eq!(wrong(&format!("3 {}", "ü".repeat(81))), long);
        let hidden = "line 1: the name has a character that is not seen, or turns the text round: U+";
        for character in ['\u{1}', '\u{1B}', '\u{7F}', '\u{9B}', '\u{200B}', '\u{202E}', '\u{2066}', '\u{FEFF}'] {
            assert_eq!(wrong(&format!("3 a{character}b")), format!("{hidden}{:04X}", u32::from(character)));
        }
        assert!(!"aä字–'<&\u{200D}".chars().any(is_hidden));
        let space = "line 1: the name has a space that is no plain one, and may look like it: U+";
        for character in ['\u{A0}', '\u{2003}', '\u{202F}', '\u{3000}'] {
            assert_eq!(wrong(&format!("3 head{character}warm")), format!("{space}{:04X}", u32::from(character)));
            // at its ends no space counts
            assert_eq!(named(&format!("3 {character}warm{character}")), named("3 warm"));
        }
        assert_eq!(wrong("3   head  warm"), "line 1: the name has two spaces in a row, which may look like one");
    }

    /// Names that an earlier program took are kept, though they are no longer taken.
    #[test]
    fn spaces_of_an_earlier_program() {
        for name in ["head  warm", "head\u{A0}warm"] {
            let letters = Letters::of(&format!("0 {name}\n"), |_| Ok(())).unwrap();
            assert!(Letters::read(&letters.lines()).is_err());
            assert_eq!(letters.name(0), format!("\"{name}\""));
            assert_eq!(Letters::decode(&letters.encode(17), 17), Some(letters));
        }
    }

    #[test]
    fn there_and_back_and_every_damaged_byte() {
        let letters = named("0 head warm\n3 checksum of it\n");
        let bytes = letters.encode(17);
        assert_eq!(Letters::decode(&bytes, 17), Some(letters));
        assert_eq!(Letters::decode(&bytes, 18), None);
        for at in 0..bytes.len() {
            for bit in 0..8 {
                let mut damaged = bytes.clone();
                damaged[at] ^= 1 << bit;
                assert_eq!(Letters::decode(&damaged, 17), None, "bit {bit} of byte {at}");
            }
            assert_eq!(Letters::decode(&bytes[..at], 17), None, "cut at byte {at}");
        }
    }
}
