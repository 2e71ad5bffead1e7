//! Holds what the program says of refused designs against the library.
//!
//!     whys [DESIGNS [SEED]]
//!
//! Of each refused design: 8 and 10 are as they are said to be; the products of 12, added to a component or taken away from one, make the
//! stage correct, and all but one of them do not; the terms of 13, moved to where they may go, make the component non-complete; the two
//! sharings of 14 become one by a run; and the sharings of 12 and 14 are those at which the verdict stopped, by its trials. The last line
//! counts; the exit status is 1 at a difference, and where one of these never occurred.

use cli::sharing::{secret, shares};
use cli::why::{Chain, Collision, Difference, Leak, Repeats, Why};
use cli::{flip, Design, Stage};
use compare::{hex, make, random::Random};
use jestrunas::{judge, Refusal};
use reference::encode;
use std::collections::BTreeMap;

type Held = Result<(), String>;

fn hold(holds: bool, words: &str) -> Held {
    if holds {
        Ok(())
    } else {
        Err(words.to_owned())
    }
}

/// A stage as a design of its own.
fn alone(design: &Design, stage: Stage) -> Design {
    Design { m: design.m, s: design.s, s_box: stage.table.clone(), stages: vec![stage] }
}

/// The reason and the component of the library's verdict on a stage.
fn judged(design: &Design, stage: Stage) -> (usize, usize) {
    let verdict = judge(&alone(design, stage).file());
    verdict.map_or_else(|refusal| (refusal.reason.number(), refusal.component), |_| (0, 0))
}

/// What a stage makes of a sharing, by the library.
fn run(design: &Design, stage: &Stage, sharing: u32) -> Vec<u8> {
    let mut given = [0; 5];
    given[..design.s].copy_from_slice(&shares(design.m, design.s, sharing));
    let output = jestrunas::run(&alone(design, stage.clone()).file(), given).expect("shares below 2^m");
    output[..design.s].to_vec()
}

/// The trials of a verdict before a stage.
fn before(design: &Design, stage: usize) -> usize {
    (2 * stage) << (design.m * design.s)
}

fn repeats(design: &Design, why: &Repeats) -> Held {
    let Repeats { at: [x, y], entry } = *why;
    let table = &design.s_box;
    hold(x < y && table[x] == entry && table[y] == entry && !reference::repeats(&table[..y]), "no first repeated entry")
}

fn chain(design: &Design, why: &Chain) -> Held {
    let through = |x: usize| design.stages.iter().fold(x, |x, stage| usize::from(stage.table[x]));
    let x = usize::from(why.steps[0]);
    let taken = why.steps.windows(2).zip(&design.stages).all(|(step, stage)| stage.table[usize::from(step[0])] == step[1]);
    hold(taken && why.steps.len() == design.stages.len() + 1, "steps that the tables do not take")?;
    hold(usize::from(why.steps[design.stages.len()]) == through(x) && why.due == design.s_box[x], "another x")?;
    hold(through(x) != usize::from(why.due), "no difference")?;
    hold((0..x).all(|x| through(x) == usize::from(design.s_box[x])), "not the lowest x")
}

fn difference(random: &mut Random, design: &Design, refusal: &Refusal, why: &Difference) -> Held {
    let stage = &design.stages[why.stage];
    hold(why.stage + 1 == refusal.place, "another stage")?;
    for product in &why.products {
        let stands = (0..design.s).filter(|component| stage.lists[component * design.m + product.bit].contains(&product.term));
        hold(stands.collect::<Vec<usize>>() == product.components, "a product stands elsewhere")?;
        hold(product.due == (product.components.len() % 2 == 0), "a product that is right")?;
    }
    let mut mended = stage.clone();
    for product in &why.products {
        flip(&mut mended.lists[random.below(design.s) * design.m + product.bit], product.term);
    }
    hold(judged(design, mended.clone()).0 != 12, "the products do not make the stage correct")?;
    let one = &why.products[random.below(why.products.len())];
    flip(&mut mended.lists[random.below(design.s) * design.m + one.bit], one.term);
    hold(judged(design, mended).0 == 12, "a product more than are wrong")?;
    hold(refusal.trials == before(design, why.stage) + why.sharing as usize + 1, "not the sharing at which the verdict stopped")?;
    let output = run(design, stage, why.sharing);
    hold(output == shares(design.m, design.s, why.output), "another output")?;
    let due = stage.table[usize::from(secret(design.m, design.s, why.sharing))];
    hold(due == why.due && output.iter().fold(0, |sum, share| sum ^ share) != due, "a sum that is right")
}

/// Answers for how many shares all terms were moved.
fn leak(random: &mut Random, design: &Design, refusal: &Refusal, why: &Leak) -> Result<usize, String> {
    let (m, s) = (design.m, design.s);
    let stage = &design.stages[why.stage];
    hold((why.stage + 1, why.component + 1) == (refusal.place, refusal.component), "another component")?;
    hold(
        (0..s).all(|share| why.shares.iter().any(|named| named.share == share)) && why.shares.len() == s,
        "a share is not told",
    )?;
    let mut moved = 0;
    for named in &why.shares {
        let variables = ((1 << m) - 1) << (named.share * m);
        let lists = stage.lists[why.component * m..][..m].iter();
        let count: usize = lists.map(|list| list.iter().filter(|&term| term & variables != 0).count()).sum();
        hold(count == named.terms.len(), "a term is not told")?;
        for term in &named.terms {
            hold(term.term & variables != 0 && stage.lists[why.component * m + term.bit].contains(&term.term), "no term of it")?;
            for j in (0..s).filter(|&j| j != why.component) {
                let mut given = stage.clone();
                flip(&mut given.lists[j * m + term.bit], term.term);
                let completes = (0..s).all(|share| given.depends(m, j, share));
                let depends = (0..s).all(|share| stage.depends(m, j, share));
                // a term that stands there already goes, and may free a component
                let stands = stage.lists[j * m + term.bit].contains(&term.term);
                hold(
                    stands || term.alone.contains(&j) != (completes || depends),
                    "a component that may not have it, or one more that may",
                )?;
            }
        }
        if named.terms.iter().all(|term| !term.to.is_empty()) {
            let mut mended = stage.clone();
            for term in &named.terms {
                flip(&mut mended.lists[why.component * m + term.bit], term.term);
                flip(&mut mended.lists[random.pick(&term.to) * m + term.bit], term.term);
            }
            let (reason, component) = judged(design, mended);
            hold(reason != 12 && (reason != 13 || component > refusal.component), "the component still depends on every share")?;
            moved += 1;
        }
    }
    Ok(moved)
}

fn collision(design: &Design, refusal: &Refusal, why: &Collision) -> Held {
    let (m, s) = (design.m, design.s);
    let stage = &design.stages[why.stage];
    let [one, other] = why.sharings;
    hold(why.stage + 1 == refusal.place, "another stage")?;
    hold(other < one && secret(m, s, one) == secret(m, s, other), "no two sharings of one secret")?;
    let output = shares(m, s, why.output);
    hold(run(design, stage, one) == output && run(design, stage, other) == output, "no one output sharing")?;
    let passed = before(design, why.stage) + (1 << (m * s));
    hold(refusal.trials == passed + one as usize + 1, "not the sharing at which the verdict stopped")?;
    let mut times = vec![0; 1 << (m * s)];
    if m * s <= 9 {
        for sharing in 0..1 << (m * s) {
            let output = run(design, stage, sharing);
            times[output.iter().rev().fold(0, |number, &share| number << m | usize::from(share))] += 1;
        }
        let mut met: BTreeMap<usize, usize> = BTreeMap::new();
        times.into_iter().for_each(|n| *met.entry(n).or_default() += 1);
        hold(met == why.times, "another histogram")?;
    }
    Ok(())
}

fn main() {
    let mut arguments = std::env::args().skip(1);
    let count: usize = arguments.next().map_or(10_000, |n| n.parse().expect("DESIGNS is a number"));
    let seed = arguments.next().map_or(20_261_127, |n| n.parse().expect("SEED is a number"));
    let mut random = Random::new(seed);
    let (mut made, mut differences, mut moved) = (0, 0, 0);
    let mut refused: BTreeMap<usize, usize> = BTreeMap::new();
    while refused.values().sum::<usize>() < count {
        let (m, s) = make::size(&mut random);
        let k = 1 + random.below(4);
        let file = encode(&make::design(&mut random, m, s, k));
        made += 1;
        let Err(refusal) = judge(&file) else { continue };
        let design = Design::read(&file).expect("it reads");
        let why = Why::of(&design, &[], &refusal);
        let held = match &why {
            Some(Why::Repeats(why)) => repeats(&design, why),
            Some(Why::Chain(why)) => chain(&design, why),
            Some(Why::Difference(why)) => difference(&mut random, &design, &refusal, why),
            Some(Why::Leak(why)) => leak(&mut random, &design, &refusal, why).map(|shares| moved += shares),
            Some(Why::Collision(why)) => collision(&design, &refusal, why),
            _ => Err("nothing is said".to_owned()),
        };
        let said = why.is_some_and(|why| !why.line().is_empty() && why.lines().iter().all(|line| !line.is_empty()));
        if let Err(words) = held.and(hold(said, "no words")) {
            println!("DIFFERENCE: {refusal}: {words}\n  input {}", hex(&file));
            differences += 1;
        }
        *refused.entry(refusal.reason.number()).or_default() += 1;
    }
    let list: Vec<String> = refused.iter().map(|(reason, times)| format!("{times} with {reason}")).collect();
    println!(
        "whys, seed {seed}: {made} designs, {count} refused ({}), of 13 the terms of {moved} shares moved; {differences} differences",
        list.join(", ")
    );
    let missing = [8, 10, 12, 13, 14].into_iter().find(|reason| !refused.contains_key(reason));
    if let Some(reason) = missing {
        println!("no design was refused with {reason}");
    }
    if differences > 0 || missing.is_some() || moved == 0 {
        std::process::exit(1);
    }
}
