//! Texts as a person may write them.

use compare::random::Random;
use reference::{Design, Stage};

/// What may stand between two signs.
fn space(random: &mut Random) -> &'static str {
    random.pick(&["", "", "", " ", "  ", "\t"])
}

/// What may stand at the end of a line.
fn end(random: &mut Random) -> &'static str {
    random.pick(&["\n", "\n", "\r\n", " \n\n", " # a comment, ü\n", "\n# y1[0] = 1\n"])
}

/// A table, as numbers or packed.
fn table(random: &mut Random, name: &str, table: &[u8]) -> String {
    let mut text = name.to_owned();
    if random.once_in(3) {
        let digits = if table.len() > 16 { 2 } else { 1 };
        let packed: String = table.iter().map(|entry| format!("{entry:0digits$x}")).collect();
        text += random.pick(&[" ", "\t", " # packed\n"]);
        text += &if random.once_in(2) { packed.to_uppercase() } else { packed };
    } else {
        for entry in table {
            text += random.pick(&[" ", " ", " ", "  ", " # goes on\n "]);
            text += &entry.to_string();
        }
    }
    text + end(random)
}

/// A bit: of a share where a width is given, and else of what is shared.
fn bit(random: &mut Random, letter: &str, m: Option<usize>, bit: usize) -> String {
    let (share, bit) = m.map_or((String::new(), bit), |m| ((bit / m + 1).to_string(), bit % m));
    let mut text = letter.to_owned();
    for sign in [&share, "[", &bit.to_string(), "]"] {
        text += space(random);
        text += sign;
    }
    text
}

fn product_sign(random: &mut Random) -> &'static str {
    random.pick(&["·", "*", "&", "", " ", " · ", "\n·", "* # product\n"])
}

fn sum_sign(random: &mut Random) -> &'static str {
    random.pick(&["+", "^", "⊕", " + ", " +\n", "\n\n  ^ ", " ⊕ "])
}

fn term(random: &mut Random, m: Option<usize>, number: u32) -> String {
    let mut variables: Vec<usize> = (0..32).filter(|variable| number >> variable & 1 == 1).collect();
    random.shuffle(&mut variables);
    let mut text = String::new();
    for (i, &variable) in variables.iter().enumerate() {
        if i > 0 {
            text += product_sign(random);
        }
        let negated = if random.once_in(20) { "~~" } else { "" };
        text += negated;
        text += &bit(random, "x", m, variable);
    }
    if text.is_empty() {
        text += "1";
    }
    text
}

/// A sum of these terms, now and then with a variable in front of brackets, with 1 in `~`, or with brackets around a part.
fn sum(random: &mut Random, m: Option<usize>, mut terms: Vec<u32>) -> String {
    random.shuffle(&mut terms);
    let mut parts = Vec::new();
    if random.once_in(4) {
        let variable = 1 << random.below(20);
        let (with, without): (Vec<u32>, Vec<u32>) = terms.iter().partition(|&term| term & variable != 0);
        if !with.is_empty() {
            let with: Vec<u32> = with.iter().map(|term| term ^ variable).collect();
            parts.push(format!("{}{}({})", term(random, m, variable), product_sign(random), sum(random, m, with)));
            terms = without;
        }
    }
    if let Some(one) = terms.iter().position(|&term| term == 0).filter(|_| terms.len() > 1 && random.once_in(2)) {
        terms.remove(one);
        parts.push(format!("~({})", sum(random, m, terms)));
        terms = Vec::new();
    }
    if terms.len() > 1 && random.once_in(8) {
        let rest = terms.split_off(random.below(terms.len() - 1) + 1);
        parts.push(format!("({})", sum(random, m, rest)));
    }
    parts.extend(terms.iter().map(|&number| term(random, m, number)).collect::<Vec<String>>());
    random.shuffle(&mut parts);
    let mut text = parts[0].clone();
    for part in &parts[1..] {
        text += sum_sign(random);
        text += part;
    }
    text
}

fn formula(random: &mut Random, m: Option<usize>, terms: Vec<u32>) -> String {
    let start = space(random).to_owned() + "=" + random.pick(&["", " ", "\n  "]);
    let text = if terms.is_empty() { "0".to_owned() } else { sum(random, m, terms) };
    start + &text + end(random)
}

/// What the components sum to when share 1 is x and the others are 0.
fn of_share_1(stage: &Stage, m: usize) -> Vec<u8> {
    (0..1 << m).map(|x| stage.output(&[x, 0, 0, 0, 0]).iter().fold(0, |sum, share| sum ^ share)).collect()
}

/// G as a formula for each bit that is not 0, and for some that are.
fn formulas(random: &mut Random, m: usize, table: &[u8]) -> Vec<String> {
    let mut words = vec![0; 1 << m];
    assert_eq!(reference::transform(m, table, &mut words), 0);
    let mut lines = Vec::new();
    for b in 0..m {
        let terms: Vec<u32> = (0..1 << m).filter(|&set| words[set as usize] >> b & 1 == 1).collect();
        if !terms.is_empty() || lines.is_empty() || random.once_in(2) {
            lines.push(bit(random, "G", None, b) + &formula(random, None, terms));
        }
    }
    lines
}

fn stage(random: &mut Random, stage: &Stage, m: usize, s: usize) -> String {
    let mut lines = Vec::new();
    if of_share_1(stage, m) != stage.table || random.once_in(2) {
        lines = if random.once_in(3) { formulas(random, m, &stage.table) } else { vec![table(random, "G", &stage.table)] };
    }
    let list = |products: &Vec<reference::Product>| -> Vec<u32> {
        let mut terms: Vec<u32> = products.iter().map(|product| product.number(m)).collect();
        terms.sort_unstable();
        terms
    };
    let mut lists: Vec<Vec<u32>> = stage.components.iter().take(s).flatten().map(list).collect();
    let mask = ((1u64 << (m * s)) - 1) as u32;
    let rotated = |terms: &[u32]| {
        let mut terms: Vec<u32> = terms.iter().map(|term| (term << m | term >> (m * (s - 1))) & mask).collect();
        terms.sort_unstable();
        terms
    };
    let cyclic = (m..m * s).all(|i| lists[i] == rotated(&lists[i - m]));
    let mut head = "stage".to_owned() + end(random);
    if cyclic && !random.once_in(4) {
        lists.truncate(m);
        // it stands before the components that it would give, and these are gone
        lines.push("cyclic".to_owned() + end(random));
    }
    for (i, terms) in lists.into_iter().enumerate() {
        if !terms.is_empty() || random.once_in(2) {
            lines.push(bit(random, "y", Some(m), i) + &formula(random, Some(m), terms));
        }
    }
    random.shuffle(&mut lines);
    head += &lines.concat();
    head
}

/// A text of a design.
pub fn by_hand(random: &mut Random, design: &Design) -> String {
    let mut text = random.pick(&["", "", "\n", "# a design\n", "\u{feff}"]).to_owned();
    for (name, number) in [("m", design.m), ("s", design.s)] {
        text += &format!("{name} {number}{}", end(random));
    }
    text += &table(random, "S", &design.table);
    for one in &design.stages {
        text += &stage(random, one, design.m, design.s);
    }
    text
}
