//! The ways to a sharing, beside the direct one by a placement that is given.

use crate::arguments::{number, Arguments};
use crate::failure::{tell, Failure, Told};
use crate::files;
use crate::json::{list, Object};
use crate::progress::Progress;
use crate::search::{search, Outcome};
use crate::tables::Table;
use crate::universal::{universal, Unmade};
use crate::verdict::counted;
use crate::why::Why;
use jestrunas::{published_placement, Reason};

/// Refuses options that are of different ways.
pub fn check(arguments: &Arguments) -> Result<(), Failure> {
    let ways = ["--placement", "--search", "--universal"].map(|name| (name, arguments.has(name)));
    let mut given = ways.into_iter().filter(|(_, given)| *given).map(|(name, _)| name);
    if let (Some(one), Some(other)) = (given.next(), given.next()) {
        return Err(Failure::Misused(format!("{one} and {other} are two ways to a sharing")));
    }
    match arguments.has("--seed") && !arguments.has("--search") {
        true => Err(Failure::Misused("--seed is of --search".to_owned())),
        false => Ok(()),
    }
}

/// A refusal of what was given, whatever the placement.
fn refused(s: usize, table: &Table, reason: Reason) -> Failure {
    Failure::reason(reason, Why::of_given(s, table, published_placement(s), reason))
}

/// What is made: a design file, what is told of it, and the same as JSON.
#[derive(Default)]
pub struct Made {
    pub file: Vec<u8>,
    pub words: String,
    pub json: Object,
}

/// The universal construction.
pub fn by_construction(s: usize, table: &Table) -> Result<Made, Failure> {
    match universal(table.m, s, &table.entries) {
        Ok(file) => Ok(Made { file, ..Made::default() }),
        Err(Unmade::Given(reason)) => Err(refused(s, table, reason)),
        Err(Unmade::Verdict(refusal)) => Err(refused(s, table, refusal.reason)),
        Err(unmade @ Unmade::Degree { degree, .. }) => {
            let words = unmade.to_string();
            let json = Object::new().with("words", words.as_str()).with("degree", degree);
            Err(Failure::Refused(Told { words, json }))
        }
    }
}

/// By a placement that the library accepts, which is told.
pub fn by_search(arguments: &Arguments, s: usize, table: &Table) -> Result<Made, Failure> {
    let most = number("--search", arguments.value("--search").unwrap_or_default())?;
    let seed = arguments.value("--seed").map_or(Ok(0), |word| number("--seed", word))?;
    if most == 0 {
        return Err(Failure::Misused("--search is 1 or more".to_owned()));
    }
    let progress = Progress::of(most);
    let found = search(table.m, s, &table.entries, most, seed as u64, |tried| progress.show(tried));
    progress.clear();
    match found.map_err(|reason| refused(s, table, reason))? {
        Outcome::NotUniform { tries, all } => {
            let words = match all {
                true => format!("none of the {tries} placements that there are makes it uniform"),
                false => format!("none of {} makes it uniform; there are more", counted(tries, "placement")),
            };
            let json = Object::new().with("words", words.as_str()).with("tries", tries).with("all", all);
            Err(Failure::Refused(Told { words, json }))
        }
        Outcome::Accepted { tries, placement, file } => {
            let digits: String = placement.iter().map(u8::to_string).collect();
            let words = format!("placement {digits}, try {tries} of {most}: accepted\n");
            Ok(Made { file, words, json: Object::new().with("placement", list(&placement)).with("tries", tries) })
        }
    }
}

/// Tells what there is to tell, where it does not mix with the design.
pub fn told(arguments: &Arguments, words: &str) -> Result<(), Failure> {
    match files::is_standard(arguments.due("-o")) {
        true => tell(words),
        false => drop(files::answer(words)?),
    }
    Ok(())
}
