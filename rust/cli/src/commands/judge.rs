//! The command `judge`.

use crate::arguments::{number, Arguments};
use crate::command::{Command, Operand, Switch, Words, JSON};
use crate::failure::{tell, Failure, DONE, REFUSED};
use crate::input::Input;
use crate::progress::Progress;
use crate::side_by_side::in_order;
use crate::why::Why;
use crate::{files, verdict};
use jestrunas::Verdict;
use std::ffi::OsStr;
use std::thread;

pub const JUDGE: Command = Command {
    name: "judge",
    about: "the verdict on each design file",
    text: "\
Judges designs, files or texts. Prints a line for each: its reason, place and component, the trials that the verdict took, and the verdict in words. \
With --json each line is an object of JSON: file, reason, place, component, trials, words; or file, error where it cannot be had.",
    operands: &[Operand::some("FILE", "a design file").offers(Words::Files)],
    options: &[
        Switch::flag(&["--why"], "tells in one more line what of a refused design is the cause"),
        Switch::valued(&["-j", "--jobs"], "N", "judges N files side by side; else as many as there are processors"),
        JSON,
    ],
    status: "0 all are accepted, 1 one is refused, 2 one cannot be had.",
    example: "\
$ jestrunas judge --why designs/d.bin designs/leaks.bin
designs/d.bin: 0 1 0, 16 trials: accepted, 1 stage
designs/leaks.bin: 13 1 2, 512 trials: component 2 of stage 1 depends on every share
  share 2 stands in 1 term: y2[0]: x2[1]·x2[2]; component 1 or 3 may have it
",
    run: judge,
};

/// A file that was judged, and what is wrong with it where that is asked for.
struct Judged {
    warnings: Vec<String>,
    verdict: Verdict,
    why: Option<Why>,
}

fn judge_file(name: &OsStr, why: bool) -> Result<Judged, Failure> {
    let input = Input::of(name)?;
    let (verdict, why) = if why { input.judged() } else { (jestrunas::judge(&input.file), None) };
    Ok(Judged { warnings: input.warnings, verdict, why })
}

/// As many files are judged side by side as are asked for, or as there are processors.
fn jobs(arguments: &Arguments) -> Result<usize, Failure> {
    match arguments.value("-j").map(|word| number("--jobs", word)).transpose()? {
        Some(0) => Err(Failure::Misused("--jobs is 0, and 1 is the least".to_owned())),
        Some(jobs) => Ok(jobs),
        None => Ok(thread::available_parallelism().map_or(1, usize::from)),
    }
}

fn judge(arguments: &Arguments) -> Result<u8, Failure> {
    let names = &arguments.operands;
    files::each_once(names)?;
    let (json, why, jobs) = (arguments.has("--json"), arguments.has("--why"), jobs(arguments)?);
    let progress = Progress::of(names.len());
    let mut status = DONE;
    in_order(
        names.len(),
        jobs,
        |i| judge_file(&names[i], why),
        |done, ready| {
            progress.clear();
            for (i, judged) in ready {
                status = status.max(print(&names[i], judged, json)?);
            }
            progress.show(done);
            Ok(())
        },
    )?;
    Ok(status)
}

/// Prints what became of a file, and answers its exit status.
fn print(name: &OsStr, judged: Result<Judged, Failure>, json: bool) -> Result<u8, Failure> {
    let Judged { warnings, verdict, why } = match judged {
        Ok(judged) => judged,
        Err(failure) => {
            failure.tell(json)?;
            return Ok(failure.status());
        }
    };
    warnings.iter().for_each(|line| tell(&format!("jestrunas: {line}\n")));
    if json {
        files::answer_json(&verdict::json(name, &verdict, why.as_ref()))?;
    } else {
        let why = why.map_or(String::new(), |why| format!("  {}\n", why.line()));
        files::answer(&format!("{}: {}\n{why}", files::shown(name), verdict::words(&verdict)))?;
    }
    Ok(if verdict.is_ok() { DONE } else { REFUSED })
}
