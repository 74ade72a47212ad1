//! Which cards go on from a card, written down in it: from then on the log is theirs.

use crate::letters::is_hidden;
use havdrims::save::checksum_from;

/// A card that was made with `--after`, by the name that was typed, and the record at which it begins.
#[derive(Clone, Debug, PartialEq, Eq)]
pub struct Follower {
    name: String,
    pub record: u64,
}

impl Follower {
    pub fn new(folder: &str, record: u64) -> Follower {
        // In one line, and as it is read, whatever is in it.
        let shown = |c: char| if is_hidden(c) { c.escape_debug().to_string() } else { c.to_string() };
        Follower { name: folder.trim_end_matches('/').chars().map(shown).collect(), record }
    }

    pub fn name(&self) -> &str {
        &self.name
    }
}

/// All cards that go on from one.
#[derive(Clone, Debug, Default, PartialEq, Eq)]
pub struct Followed(Vec<Follower>);

impl Followed {
    pub fn is_empty(&self) -> bool {
        self.0.is_empty()
    }

    pub fn cards(&self) -> &[Follower] {
        &self.0
    }

    /// With one more. One of the same name was taken away before it could be made again.
    pub fn with(mut self, follower: Follower) -> Followed {
        self.0.retain(|other| other.name != follower.name);
        self.0.push(follower);
        self
    }

    /// Their names, in a sentence.
    pub fn names(&self) -> String {
        let names: Vec<String> = self.0.iter().map(|card| format!("`{}`", card.name)).collect();
        names.join(" and ")
    }

    /// Who goes on from the card, and where.
    pub fn says(&self) -> String {
        self.going_on("from this card")
    }

    fn going_on(&self, from: &str) -> String {
        let card = |(at, Follower { name, record }): (usize, &Follower)| match at {
            0 => format!("`{name}` goes on {from} at record {record}"),
            _ => format!(", `{name}` at record {record}"),
        };
        self.0.iter().enumerate().map(card).collect()
    }

    /// What is said to a further card, which goes on from the old one beside these.
    pub fn already(mut self, old: &str, new: &Follower) -> String {
        self.0.retain(|other| other.name != new.name);
        if self.is_empty() {
            return String::new();
        }
        let all = if self.0.len() == 1 { "both cards" } else { "all these cards" };
        format!(
            "{}: a record may be overwritten only if {all} name it\n",
            self.going_on(&format!("from {old} already,"))
        )
    }

    /// The same as a line, if there is anyone.
    pub fn line(&self) -> String {
        if self.is_empty() {
            return String::new();
        }
        format!("{}\n", self.says())
    }

    /// The file of a card: a line for each, and their checksum, bound to the card and its rule.
    pub fn encode(&self, bound: u64) -> Vec<u8> {
        let line = |Follower { name, record }: &Follower| format!("at record {record} {name}\n");
        let lines: String = self.0.iter().map(line).collect();
        format!("{lines}checksum {:016x}\n", checksum_from(bound, lines.as_bytes())).into_bytes()
    }

    /// What such a file holds, unless it is damaged or another card's.
    pub fn decode(bytes: &[u8], bound: u64) -> Option<Followed> {
        let text = std::str::from_utf8(bytes).ok()?;
        let (lines, _) = text.split_at(text.rfind("checksum ")?);
        let card = |line: &str| {
            let (record, name) = line.strip_prefix("at record ")?.split_once(' ')?;
            Some(Follower { name: name.to_string(), record: record.parse().ok()? })
        };
        let followed = Followed(lines.lines().map(card).collect::<Option<_>>()?);
        (followed.encode(bound) == bytes).then_some(followed)
    }
}

#[cfg(test)]
mod tests {
    use super::{Followed, Follower};

    #[test]
    fn who_goes_on() {
        let none = Followed::default();
        assert_eq!((none.is_empty(), none.line()), (true, String::new()));
        let one = none.with(Follower::new("window2", 3)).with(Follower::new("window2", 26));
        assert_eq!(one.line(), "`window2` goes on from this card at record 26\n");
        let two = one.with(Follower::new("Anna's\ncard/", 40));
        assert_eq!(two.says(), "`window2` goes on from this card at record 26, `Anna's\\ncard` at record 40");
        assert_eq!(two.names(), "`window2` and `Anna's\\ncard`");
        let new = |name: &str| two.clone().already("hall", &Follower::new(name, 50));
        let overwritten = "a record may be overwritten only if";
        assert_eq!(
            new("third"),
            format!("`window2` goes on from hall already, at record 26, `Anna's\\ncard` at record 40: {overwritten} all these cards name it\n")
        );
        // one of the same name was taken away, and is made again
        assert_eq!(
            new("Anna's\ncard"),
            format!("`window2` goes on from hall already, at record 26: {overwritten} both cards name it\n")
        );
        assert_eq!(Followed::default().already("hall", &Follower::new("third", 50)), "");
    }

    #[test]
    fn there_and_back_and_every_damaged_byte() {
        let followed = Followed::default().with(Follower::new("the window", 26)).with(Follower::new("checksum 0", 40));
        let bytes = followed.encode(17);
        assert_eq!(Followed::decode(&bytes, 17), Some(followed));
        assert_eq!(Followed::decode(&bytes, 18), None);
        for at in 0..bytes.len() {
            for bit in 0..8 {
                let mut damaged = bytes.clone();
                damaged[at] ^= 1 << bit;
                assert_eq!(Followed::decode(&damaged, 17), None, "bit {bit} of byte {at}");
            }
            assert_eq!(Followed::decode(&bytes[..at], 17), None, "cut at byte {at}");
        }
    }
}
