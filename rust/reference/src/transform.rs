//! The transform between a table and its coefficient words (RULES 12).

/// Whether set v is a subset of set u.
fn within(v: usize, u: usize) -> bool {
    v & !u == 0
}

/// The coefficient word at u is the sum of the entries at all subsets of u.
pub(crate) fn coefficient(table: &[u8], u: usize) -> u8 {
    (0..table.len()).filter(|&v| within(v, u)).fold(0, |sum, v| sum ^ table[v])
}

/// The entry at x is the sum of the words of all terms that are 1 there: those whose variables are all among x's ones.
fn entry(m: usize, words: &[u8], x: usize) -> u8 {
    let is_one = |term: usize| (0..m).all(|variable| term >> variable & 1 == 0 || x >> variable & 1 == 1);
    words.iter().enumerate().filter(|&(term, _)| is_one(term)).fold(0, |sum, (_, word)| sum ^ word)
}

/// Of a table its coefficient words, of coefficient words their table. Both are calculated, and must agree.
pub fn transform(m: usize, input: &[u8], output: &mut [u8]) -> usize {
    if !(1..=6).contains(&m) {
        return 4;
    }
    if input.len() != 1 << m {
        return 3;
    }
    if input.iter().any(|&word| usize::from(word) >> m != 0) {
        return 5;
    }
    if output.len() < 1 << m {
        return 17;
    }
    for (u, word) in output.iter_mut().take(1 << m).enumerate() {
        *word = coefficient(input, u);
        assert_eq!(*word, entry(m, input, u), "{input:?}: the coefficient word at {u} and the entry there");
    }
    0
}

#[cfg(test)]
mod tests {
    use super::transform;

    fn transformed(m: usize, input: &[u8]) -> Vec<u8> {
        let mut output = vec![0; 1 << m];
        assert_eq!(transform(m, input, &mut output), 0);
        output
    }

    #[test]
    fn twice_is_the_input() {
        // every table of one and two bits
        for m in 1..=2 {
            for number in 0..1 << (m << m) {
                let table: Vec<u8> = (0..1 << m).map(|x| (number >> (m * x)) as u8 & ((1 << m) - 1)).collect();
                assert_eq!(transformed(m, &transformed(m, &table)), table);
            }
        }
        // the cubic polynomials x^3 + ax + a modulo 2^m
        for m in 3..=6 {
            for a in 0..1 << m {
                let table: Vec<u8> = (0..1 << m).map(|x| ((x * x * x + a * x + a) % (1 << m)) as u8).collect();
                assert_eq!(transformed(m, &transformed(m, &table)), table);
            }
        }
    }
}
