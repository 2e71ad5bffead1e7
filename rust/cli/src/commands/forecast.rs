//! The command `forecast`.

use super::read;
use crate::arguments::Arguments;
use crate::command::{Command, DESIGN, JSON};
use crate::design::Design;
use crate::failure::Failure;
use crate::input::Input;
use crate::json::Object;
use crate::why::{Given, Why};
use crate::{estimate, files, json};
use jestrunas::Reason;

pub const FORECAST: Command = Command {
    name: "forecast",
    about: "what a verdict can take",
    text: "\
Prints the bytes of workspace that a verdict on the design needs, and the most trials that it can take, from the head record alone. Where \
the whole file reads, also the terms of its lists and the most seconds that a verdict takes on this machine, an estimate: a few blocks of \
its sharings are timed.",
    operands: &[DESIGN],
    options: &[JSON],
    status: "0 printed; 1 the head record does not read.",
    example: "\
$ head -c 7 designs/d.bin | jestrunas forecast -
workspace 1
trials 16
",
    run: forecast,
};

fn forecast(arguments: &Arguments) -> Result<u8, Failure> {
    let name = arguments.operand(0);
    let Input { file, .. } = read(name)?;
    let forecast = jestrunas::forecast(&file).map_err(|reason| {
        let why = if reason == Reason::LimitBroken { Given::head(&file).map(Why::Given) } else { None };
        Failure::file_reason(name, reason, why)
    })?;
    let (workspace, trials) = (forecast.workspace, forecast.trials);
    let more = Design::read(&file).ok().map(|design| (estimate::terms(&design), estimate::seconds(&design)));
    if arguments.has("--json") {
        let answer = Object::new().with_file(name).with("workspace", workspace).with("trials", trials);
        let more = more.map_or(Object::new(), |(terms, seconds)| Object::new().with("terms", terms).with("seconds", seconds));
        files::answer_json(&answer.and(more))
    } else {
        let more = more.map_or(String::new(), |(terms, seconds)| format!("terms {terms}\nseconds {}\n", json::real(seconds)));
        files::answer(&format!("workspace {workspace}\ntrials {trials}\n{more}"))
    }
}
