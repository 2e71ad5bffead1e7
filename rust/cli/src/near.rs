//! The nearest name to a slip.

/// How many letters must be put in, left out, changed, or swapped with the next one, to make one word of the other.
fn distance(a: &str, b: &str) -> usize {
    let (a, b): (Vec<char>, Vec<char>) = (a.chars().collect(), b.chars().collect());
    // row i has the distances between the first i letters of a and the first j of b
    let mut rows: Vec<Vec<usize>> = vec![(0..=b.len()).collect()];
    for i in 1..=a.len() {
        let mut row = vec![i];
        for j in 1..=b.len() {
            let changed = rows[i - 1][j - 1] + usize::from(a[i - 1] != b[j - 1]);
            let mut least = changed.min(rows[i - 1][j] + 1).min(row[j - 1] + 1);
            if i > 1 && j > 1 && a[i - 1] == b[j - 2] && a[i - 2] == b[j - 1] {
                least = least.min(rows[i - 2][j - 2] + 1);
            }
            row.push(least);
        }
        rows.push(row);
    }
    rows[a.len()][b.len()]
}

/// The name that a word may stand for: the nearest one, where at most a third of its letters went wrong.
fn nearest<'a>(word: &str, names: impl Iterator<Item = &'a str>) -> Option<&'a str> {
    let near = names.map(|name| (distance(word, name), name)).min_by_key(|&(distance, _)| distance)?;
    Some(near).filter(|(distance, name)| 3 * distance <= name.chars().count()).map(|(_, name)| name)
}

/// What is told behind a word that is no name: the nearest one, if there is any.
pub fn hint<'a>(word: &str, names: impl Iterator<Item = &'a str>) -> String {
    nearest(word, names).map_or(String::new(), |name| format!("; the nearest is {name}"))
}

#[cfg(test)]
mod tests {
    use super::*;

    #[test]
    fn distances() {
        for (a, b, due) in [
            ("judge", "judge", 0),
            ("jugde", "judge", 1),
            ("juge", "judge", 1),
            ("jurge", "judge", 1),
            ("judgee", "judge", 1),
            ("", "run", 3),
        ] {
            assert_eq!((distance(a, b), distance(b, a)), (due, due), "{a} {b}");
        }
    }

    #[test]
    fn a_slip_has_a_nearest_name_and_another_word_has_none() {
        let names = || ["judge", "join", "run"].into_iter();
        assert_eq!(nearest("jugde", names()), Some("judge"));
        assert_eq!(nearest("rnu", names()), Some("run"));
        assert_eq!(nearest("jump", names()), None);
        assert_eq!(nearest("", names()), None);
    }
}
