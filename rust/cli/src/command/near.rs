//! Words that were mistyped: which known one is meant.

/// What to say behind the word that is not known: `; did you mean evening?`, or nothing.
pub fn did_you_mean<'a>(word: &str, known: impl IntoIterator<Item = &'a str>) -> String {
    nearest(word, known).map_or(String::new(), |meant| format!("; did you mean {meant}?"))
}

/// The known word from which this one differs least, if that is not much: by one slip, or by two in a word of six letters or more.
pub fn nearest<'a>(word: &str, known: impl IntoIterator<Item = &'a str>) -> Option<&'a str> {
    let most = if word.chars().count() < 6 { 1 } else { 2 };
    let slips = known.into_iter().map(|other| (slips(word, other), other));
    slips.filter(|&(slips, _)| slips <= most).min_by_key(|&(slips, _)| slips).map(|(_, other)| other)
}

/// How many slips make one word of the other: a letter missed, added, or typed for another, or two neighbours exchanged.
fn slips(from: &str, to: &str) -> usize {
    let (from, to): (Vec<char>, Vec<char>) = (from.chars().collect(), to.chars().collect());
    // Cell [i][j]: of the first i letters of the one and the first j of the other.
    let mut cells = vec![vec![0; to.len() + 1]; from.len() + 1];
    for i in 0..=from.len() {
        for j in 0..=to.len() {
            if i == 0 || j == 0 {
                cells[i][j] = i + j;
                continue;
            }
            let other = usize::from(from[i - 1] != to[j - 1]);
            let mut least = (cells[i - 1][j] + 1).min(cells[i][j - 1] + 1).min(cells[i - 1][j - 1] + other);
            if i > 1 && j > 1 && from[i - 1] == to[j - 2] && from[i - 2] == to[j - 1] {
                least = least.min(cells[i - 2][j - 2] + 1);
            }
            cells[i][j] = least;
        }
    }
    cells[from.len()][to.len()]
}

#[cfg(test)]
mod tests {
    use super::{did_you_mean, nearest, slips};

    #[test]
    fn one_slip_or_two() {
        for (from, to, number) in [
            ("", "", 0),
            ("until", "until", 0),
            ("untill", "until", 1),
            ("unil", "until", 1),
            ("untel", "until", 1),
            ("unitl", "until", 1),
            ("unlit", "until", 2),
            ("", "or", 2),
            ("évening", "evening", 1),
        ] {
            assert_eq!(slips(from, to), number, "{from} {to}");
            assert_eq!(slips(to, from), number, "{to} {from}");
        }
    }

    #[test]
    fn the_nearest_if_it_is_near() {
        let known = ["new", "evening", "sheet", "check"];
        assert_eq!(nearest("evenings", known), Some("evening"));
        assert_eq!(nearest("evneign", known), Some("evening"));
        assert_eq!(nearest("nwe", known), Some("new"));
        assert_eq!(nearest("nwee", known), None);
        assert_eq!(nearest("month", known), None);
        assert_eq!(did_you_mean("chek", known), "; did you mean check?");
        assert_eq!(did_you_mean("month", known), "");
    }
}
