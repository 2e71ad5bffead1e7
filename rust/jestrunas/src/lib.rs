//! Judges threshold-implementation sharings of S-boxes: a safe wrapper over the proved static library. docs/RULES.md has every rule by
//! its number: (RULES 6) is its section 6.
//!
//! ```
//! // One bit in three shares, S the identity: component 1 is share 2, component 2 is share 3, component 3 is share 1.
//! let design = [
//!     3, 0, 1, 0, 1, 3, 1, 2, 0, 2, 0, 0, 1, 2, 0, 2, 0, 0, 1, 4, 0, 3, 0, 2, 0, 0, 0, 4, 0, 3, 0, 4, 0, 0, 0, 4, 0, 3, 0,
//!     1, 0, 0, 0, 0, 0, 4, 0,
//! ];
//! let forecast = jestrunas::forecast(&design[..7]).unwrap();
//! assert_eq!((forecast.workspace, forecast.trials), (1, 16));
//!
//! let accepted = jestrunas::judge(&design).unwrap();
//! assert_eq!((accepted.stages, accepted.trials), (1, 16));
//! assert_eq!(jestrunas::run(&design, [1, 0, 0, 0, 0]), Ok([0, 0, 1, 0, 0]));
//!
//! let twice = jestrunas::join(&design, &design).unwrap();
//! assert_eq!(jestrunas::judge(&twice).unwrap().stages, 2);
//! assert_eq!(jestrunas::run(&twice, [1, 0, 0, 0, 0]), Ok([0, 1, 0, 0, 0]));
//!
//! let refusal = jestrunas::judge(&design[..40]).unwrap_err();
//! assert_eq!(refusal.reason, jestrunas::Reason::CutShort);
//! assert_eq!(refusal.to_string(), "1 35 0: the record at byte 35 is cut short");
//! ```

pub mod native;

use std::fmt;

/// Why an operation refused, by the published numbers (RULES 14).
#[derive(Clone, Copy, Debug, PartialEq, Eq, Hash, PartialOrd, Ord)]
#[repr(u8)]
pub enum Reason {
    /// A record's head or its body is cut short.
    CutShort = 1,
    /// A record's kind is not the one due.
    WrongKind = 2,
    /// A record's length, or that of a given table, is not the one due.
    WrongLength = 3,
    /// A head number, or a given m or s, breaks a limit.
    LimitBroken = 4,
    /// A table entry, or a coefficient word, is 2^m or more.
    EntryTooLarge = 5,
    /// A term names a variable beyond m · s, or does not rise.
    BadTerm = 6,
    /// Bytes follow the end.
    BytesFollow = 7,
    /// The box repeats an entry.
    BoxRepeats = 8,
    /// The workspace has fewer than 2^(m · s) / 8 bytes.
    WorkspaceTooSmall = 9,
    /// The chain of tables is not S.
    ChainIsNotBox = 10,
    // 11 is retired, and not given again.
    /// A stage is not correct: for some sharing the output shares do not sum to its table's entry.
    NotCorrect = 12,
    /// A stage is not non-complete: a component depends on every share.
    NotNonComplete = 13,
    /// A stage is not uniform.
    NotUniform = 14,
    /// A used share is 2^m or more, or an unused one is not 0.
    BadShare = 15,
    /// The degree of the box is the number of shares or more.
    DegreeTooHigh = 16,
    /// The result does not fit the lent output.
    OutputTooShort = 17,
    /// The verdict program's input exceeds 32,768 bytes. The library never answers this.
    InputTooLong = 18,
    /// The widths or the share counts of two designs to join differ.
    SharesDiffer = 19,
    /// Two designs to join have more than four stages together.
    TooManyStages = 20,
    /// The placement does not load: its length is not 2^s - 2, or a byte is not a component outside its set of shares.
    BadPlacement = 21,
}

impl Reason {
    /// Every reason, their numbers rising.
    pub const ALL: [Reason; 20] = [
        Reason::CutShort,
        Reason::WrongKind,
        Reason::WrongLength,
        Reason::LimitBroken,
        Reason::EntryTooLarge,
        Reason::BadTerm,
        Reason::BytesFollow,
        Reason::BoxRepeats,
        Reason::WorkspaceTooSmall,
        Reason::ChainIsNotBox,
        Reason::NotCorrect,
        Reason::NotNonComplete,
        Reason::NotUniform,
        Reason::BadShare,
        Reason::DegreeTooHigh,
        Reason::OutputTooShort,
        Reason::InputTooLong,
        Reason::SharesDiffer,
        Reason::TooManyStages,
        Reason::BadPlacement,
    ];

    /// The published number.
    pub const fn number(self) -> usize {
        self as usize
    }

    /// The reason with a published number, 1 to 21; none has 11, which is retired.
    pub fn from_number(number: usize) -> Option<Reason> {
        Reason::ALL.into_iter().find(|reason| reason.number() == number)
    }
}

impl fmt::Display for Reason {
    fn fmt(&self, f: &mut fmt::Formatter<'_>) -> fmt::Result {
        f.write_str(match self {
            Reason::CutShort => "a record is cut short",
            Reason::WrongKind => "a record's kind is not the one due",
            Reason::WrongLength => "a length is not the one due",
            Reason::LimitBroken => "a number breaks a limit",
            Reason::EntryTooLarge => "an entry is 2^m or more",
            Reason::BadTerm => "a term names a variable beyond m * s or does not rise",
            Reason::BytesFollow => "bytes follow the end",
            Reason::BoxRepeats => "the box repeats an entry",
            Reason::WorkspaceTooSmall => "the workspace is too small",
            Reason::ChainIsNotBox => "the chain of tables is not S",
            Reason::NotCorrect => "a stage is not correct",
            Reason::NotNonComplete => "a stage is not non-complete: a component depends on every share",
            Reason::NotUniform => "a stage is not uniform",
            Reason::BadShare => "a used share is 2^m or more, or an unused one is not 0",
            Reason::DegreeTooHigh => "the degree is the number of shares or more",
            Reason::OutputTooShort => "the result does not fit the output",
            Reason::InputTooLong => "the input exceeds 32,768 bytes",
            Reason::SharesDiffer => "the widths or the share counts of the two designs differ",
            Reason::TooManyStages => "the two designs have more than four stages together",
            Reason::BadPlacement => {
                "the placement does not load: its length is not 2^s - 2, or a byte is not a component outside its set"
            }
        })
    }
}

impl std::error::Error for Reason {}

/// A design that the verdict accepts.
#[derive(Clone, Copy, Debug, PartialEq, Eq, Hash)]
pub struct Accepted {
    /// k, the number of stages, each found correct, non-complete and uniform.
    pub stages: usize,
    /// The trials that the verdict took: those of the forecast.
    pub trials: usize,
}

/// A design file that does not read, or that the verdict refuses.
#[derive(Clone, Copy, Debug, PartialEq, Eq, Hash)]
pub struct Refusal {
    pub reason: Reason,
    /// For reasons 1 to 7 a byte of the file, counted from 0; for 12 to 14 the stage, counted from 1; otherwise 0.
    pub place: usize,
    /// For reason 13 the lowest component that depends on every share, counted from 1; otherwise 0.
    pub component: usize,
    /// The trials that the verdict took up to the fault: for reasons 1 to 10 none, never more than those of the forecast.
    pub trials: usize,
}

impl Refusal {
    /// What it says, in words, without its three numbers.
    pub fn meaning(&self) -> impl fmt::Display + '_ {
        Meaning(self)
    }
}

struct Meaning<'a>(&'a Refusal);

impl fmt::Display for Meaning<'_> {
    fn fmt(&self, f: &mut fmt::Formatter<'_>) -> fmt::Result {
        let Refusal { reason, place, component, .. } = self.0;
        match reason {
            Reason::CutShort => write!(f, "the record at byte {place} is cut short"),
            Reason::WrongKind => write!(f, "the kind of the record at byte {place} is not the one due"),
            Reason::WrongLength => write!(f, "the length of the record at byte {place} is not the one due"),
            Reason::LimitBroken => write!(f, "a number of the head breaks a limit"),
            Reason::EntryTooLarge => write!(f, "the table at byte {place} has an entry that is 2^m or more"),
            Reason::BadTerm => write!(f, "the list at byte {place} has a term beyond m * s or one that does not rise"),
            Reason::BytesFollow => write!(f, "bytes follow the end, from byte {place}"),
            Reason::NotCorrect => write!(f, "stage {place} is not correct"),
            Reason::NotNonComplete => write!(f, "component {component} of stage {place} depends on every share"),
            Reason::NotUniform => write!(f, "stage {place} is not uniform"),
            other => other.fmt(f),
        }
    }
}

impl fmt::Display for Refusal {
    /// The three numbers, as the verdict program prints them, and what they mean.
    fn fmt(&self, f: &mut fmt::Formatter<'_>) -> fmt::Result {
        let Refusal { reason, place, component, .. } = self;
        write!(f, "{} {place} {component}: {}", reason.number(), self.meaning())
    }
}

impl std::error::Error for Refusal {}

/// The verdict on a design file.
pub type Verdict = Result<Accepted, Refusal>;

/// The three numbers of a verdict: reason, place, component.
pub fn numbers(verdict: &Verdict) -> [usize; 3] {
    match verdict {
        Ok(Accepted { stages, .. }) => [0, *stages, 0],
        Err(Refusal { reason, place, component, .. }) => [reason.number(), *place, *component],
    }
}

/// What a verdict takes at most, known from the head record of the file. A trial puts one sharing through one stage.
#[derive(Clone, Copy, Debug, PartialEq, Eq, Hash)]
pub struct Forecast {
    /// The workspace that the verdict needs, in bytes: 2^(m · s) / 8.
    pub workspace: usize,
    /// The most trials that the verdict takes: 2 · k · 2^(m · s), which every accepted design takes.
    pub trials: usize,
}

/// The greatest width: m is 1 to 6.
pub const WIDTH_MAX: usize = 6;

/// The fewest shares: s is 3 to 5.
pub const SHARES_MIN: usize = 3;

/// The most shares.
pub const SHARES_MAX: usize = 5;

/// The most share bits: m · s is at most 20.
pub const SHARE_BITS_MAX: usize = 20;

/// The most stages: k is 1 to 4.
pub const STAGES_MAX: usize = 4;

/// The most terms of a list.
pub const TERMS_MAX: usize = 4096;

/// The bytes of the longest file that reads: 5 bits, 4 shares, 4 stages and as many terms in each list as it may have. The first fault of a
/// longer file stands within its first `FILE_MAX + 1` bytes.
pub const FILE_MAX: usize = 1_311_231;

/// The workspace that is enough for every design: 2^20 / 8 bytes.
pub const WORKSPACE_MAX: usize = (1 << SHARE_BITS_MAX) / 8;

/// An output that is enough for every file that [`produce_in`] writes. It is promised that none is longer (docs/PROMISES.md), so with it
/// [`Reason::OutputTooShort`] is never answered.
pub const PRODUCED_MAX: usize = 20_867;

/// The published placement for three shares: see [`published_placement`].
pub const PLACEMENT_3: [u8; 6] = [3, 1, 3, 2, 2, 1];

/// The published placement for four shares.
pub const PLACEMENT_4: [u8; 14] = [4, 1, 4, 2, 2, 1, 4, 3, 3, 1, 3, 2, 2, 1];

/// The published placement for five shares.
pub const PLACEMENT_5: [u8; 30] = [5, 1, 5, 2, 2, 1, 5, 3, 3, 1, 3, 2, 2, 1, 5, 4, 4, 1, 4, 2, 2, 1, 4, 3, 3, 1, 3, 2, 2, 1];

/// The published placement for s shares: a product goes to the lowest component c outside its set of shares for which c + 1 (after s comes
/// 1) is in the set (RULES 9.5). Empty where s is none of 3, 4 and 5: producing then refuses
/// with [`Reason::LimitBroken`], whatever the placement is.
pub fn published_placement(s: usize) -> &'static [u8] {
    match s {
        3 => &PLACEMENT_3,
        4 => &PLACEMENT_4,
        5 => &PLACEMENT_5,
        _ => &[],
    }
}

fn reason(number: usize) -> Option<Reason> {
    if number == 0 {
        return None;
    }
    match Reason::from_number(number) {
        Some(reason) => Some(reason),
        None => panic!("the library answered {number}, which is no published number"),
    }
}

fn done(number: usize) -> Result<(), Reason> {
    reason(number).map_or(Ok(()), Err)
}

/// Reads a design file: the first fault in file order, reasons 1 to 7. `Ok` says that the file reads, and nothing of its verdict.
pub fn read(file: &[u8]) -> Result<(), Refusal> {
    let native::Verdict { reason: number, place, component } = native::read(file);
    reason(number).map_or(Ok(()), |reason| Err(Refusal { reason, place, component, trials: 0 }))
}

/// What a verdict on a design file takes, without judging. The head record, the first seven bytes, decides it, whatever follows: a
/// refusal is that of reading this record, reasons 1 to 4.
pub fn forecast(file: &[u8]) -> Result<Forecast, Reason> {
    let native::Forecast { reason: number, workspace, trials } = native::forecast(file);
    reason(number).map_or(Ok(Forecast { workspace, trials }), Err)
}

/// The verdict on a design file, in a workspace of its own, as large as the forecast says.
pub fn judge(file: &[u8]) -> Verdict {
    let workspace = forecast(file).map_or(0, |forecast| forecast.workspace);
    judge_in(file, &mut vec![0; workspace])
}

/// The verdict on a design file, in a lent workspace. For reasons 1 to 9 the workspace is untouched; otherwise its first
/// 2^(m · s) / 8 bytes are zero afterwards and the rest is untouched.
pub fn judge_in(file: &[u8], workspace: &mut [u8]) -> Verdict {
    let native::Judged { reason: number, place, component, trials } = native::judge(file, workspace);
    reason(number).map_or(Ok(Accepted { stages: place, trials }), |reason| Err(Refusal { reason, place, component, trials }))
}

/// Runs the chain of a design file on five shares, unused ones zero: the output shares of the last stage.
pub fn run(file: &[u8], shares: [u8; SHARES_MAX]) -> Result<[u8; SHARES_MAX], Reason> {
    let answer = native::run(file, shares);
    reason(answer.reason).map_or(Ok(answer.shares.share), Err)
}

/// The direct sharing of a table in s shares, each product in the component that the placement says, as a design file. The placement has
/// 2^s - 2 bytes: for each set of shares, as a number J from 1 on with bit j - 1 for share j, the byte at index J - 1 is the component,
/// counted from 1, of the products whose chosen shares are that set, and its share is not in the set. The constant goes to component 1.
///
/// ```
/// use jestrunas::{judge, produce, published_placement, Reason};
///
/// let table = [0, 1, 2, 3, 4, 5, 7, 6];
/// let file = produce(3, 3, &table, published_placement(3)).unwrap();
/// assert!(judge(&file).is_ok());
/// // component 1 is given what share 1 alone makes, and has to ignore it
/// assert_eq!(produce(3, 3, &table, &[1, 1, 3, 2, 2, 1]), Err(Reason::BadPlacement));
/// ```
pub fn produce(m: usize, s: usize, table: &[u8], placement: &[u8]) -> Result<Vec<u8>, Reason> {
    let mut output = vec![0; PRODUCED_MAX];
    let length = produce_in(m, s, table, placement, &mut output)?;
    output.truncate(length);
    Ok(output)
}

/// The direct sharing of a table in s shares by a placement, written to a lent output: its length. The bytes past it are untouched,
/// and a refusal leaves the whole output untouched.
pub fn produce_in(m: usize, s: usize, table: &[u8], placement: &[u8], output: &mut [u8]) -> Result<usize, Reason> {
    let answer = native::produce(m, s, table, placement, output);
    reason(answer.reason).map_or(Ok(answer.length), Err)
}

/// Two design files joined into one: S of the second after S of the first; the stages of the first, then those of the second. Both need
/// only read; where both are accepted, so is the joined one. A refusal of reading, reasons 1 to 7, is that of the first file or, where this
/// one reads, that of the second.
pub fn join(first: &[u8], second: &[u8]) -> Result<Vec<u8>, Reason> {
    // always enough: of the two heads, the two boxes and the two ends the joined file has one each
    let mut output = vec![0; first.len() + second.len()];
    let length = join_in(first, second, &mut output)?;
    output.truncate(length);
    Ok(output)
}

/// Two design files joined into one, written to a lent output: its length. The bytes past it are untouched, and a refusal leaves the whole
/// output untouched.
pub fn join_in(first: &[u8], second: &[u8], output: &mut [u8]) -> Result<usize, Reason> {
    let answer = native::join(first, second, output);
    reason(answer.reason).map_or(Ok(answer.length), Err)
}

/// The transform between a table and the coefficient words of its algebraic normal form: of a table it writes the coefficient words, of
/// coefficient words the table, to the first 2^m bytes of the output. What is written, transformed again, gives the input. The bytes past it
/// are untouched, and a refusal leaves the whole output untouched.
pub fn transform(m: usize, input: &[u8], output: &mut [u8]) -> Result<(), Reason> {
    done(native::transform(m, input, output))
}

#[cfg(test)]
mod tests {
    use super::*;

    #[test]
    fn every_reason_has_its_number() {
        let numbers: Vec<usize> = (0..30).filter(|&number| Reason::from_number(number).is_some()).collect();
        assert_eq!(numbers, Reason::ALL.map(Reason::number));
        // 11 is retired
        assert_eq!(numbers, (1..=21).filter(|&number| number != 11).collect::<Vec<_>>());
    }

    /// The number that the C header gives a name.
    fn in_header(name: &str) -> usize {
        let header = include_str!("../../../include/jestrunas.h");
        let define = format!("#define JESTRUNAS_{name} ");
        let line = header.lines().find_map(|line| line.strip_prefix(&define)).unwrap_or_else(|| panic!("{name}"));
        line.split(' ').next().unwrap().parse().unwrap()
    }

    #[test]
    fn the_header_has_the_same_numbers() {
        for reason in Reason::ALL {
            let mut name = String::new();
            for letter in format!("{reason:?}").chars() {
                if letter.is_uppercase() && !name.is_empty() {
                    name.push('_');
                }
                name.push(letter.to_ascii_uppercase());
            }
            assert_eq!(in_header(&name), reason.number(), "{name}");
        }
        assert_eq!((in_header("ACCEPTED"), in_header("OK")), (0, 0));
        for (name, number) in [
            ("WIDTH_MAX", WIDTH_MAX),
            ("SHARES_MIN", SHARES_MIN),
            ("SHARES_MAX", SHARES_MAX),
            ("SHARE_BITS_MAX", SHARE_BITS_MAX),
            ("STAGES_MAX", STAGES_MAX),
            ("TERMS_MAX", TERMS_MAX),
            ("WORKSPACE_MAX", WORKSPACE_MAX),
            ("PRODUCED_MAX", PRODUCED_MAX),
        ] {
            assert_eq!(in_header(name), number, "{name}");
        }
    }

    #[test]
    fn the_header_has_the_same_version() {
        let header = include_str!("../../../include/jestrunas.h");
        let define = format!("#define JESTRUNAS_VERSION \"{}\"", env!("CARGO_PKG_VERSION"));
        assert!(header.lines().any(|line| line == define), "{define}");
    }

    #[test]
    fn the_header_has_the_same_placements() {
        let header = include_str!("../../../include/jestrunas.h");
        for s in SHARES_MIN..=SHARES_MAX {
            let name = format!("jestrunas_placement_{s}[{}] = {{", (1 << s) - 2);
            let (_, array) = header.split_once(&name).unwrap_or_else(|| panic!("{name}"));
            let (bytes, _) = array.split_once('}').unwrap();
            let bytes: Vec<u8> = bytes.split(',').map(|byte| byte.trim().parse().unwrap()).collect();
            assert_eq!(bytes, published_placement(s), "{s} shares");
        }
        for s in [0, 1, 2, 6, usize::MAX] {
            assert!(published_placement(s).is_empty());
            assert_eq!(produce(1, s, &[0, 1], published_placement(s)), Err(Reason::LimitBroken));
        }
    }

    #[test]
    fn a_placement_that_does_not_load_is_refused() {
        let not = |placement: &[u8]| produce(1, 3, &[1, 0], placement);
        assert!(not(&PLACEMENT_3).is_ok());
        // another length
        assert_eq!(not(&[]), Err(Reason::BadPlacement));
        assert_eq!(not(&PLACEMENT_3[..5]), Err(Reason::BadPlacement));
        assert_eq!(not(&[3, 1, 3, 2, 2, 1, 1]), Err(Reason::BadPlacement));
        // no component
        assert_eq!(not(&[0, 1, 3, 2, 2, 1]), Err(Reason::BadPlacement));
        assert_eq!(not(&[3, 1, 3, 2, 2, 4]), Err(Reason::BadPlacement));
        // a component in its set
        assert_eq!(not(&[1, 1, 3, 2, 2, 1]), Err(Reason::BadPlacement));
        assert_eq!(not(&[3, 1, 3, 2, 2, 3]), Err(Reason::BadPlacement));
        let mut output = [9; 51];
        assert_eq!(produce_in(1, 3, &[1, 0], &PLACEMENT_4, &mut output), Err(Reason::BadPlacement));
        assert_eq!(output, [9; 51]);
    }

    #[test]
    fn another_placement_gives_another_file() {
        let table = [0, 1, 2, 3, 4, 5, 7, 6];
        let published = produce(3, 3, &table, &PLACEMENT_3).unwrap();
        // the products of two shares have one place, those of one share have two
        for singles in 0..8 {
            let placement = [[2, 3][singles & 1], [1, 3][singles >> 1 & 1], 3, [1, 2][singles >> 2], 2, 1];
            let file = produce(3, 3, &table, &placement).unwrap();
            assert_eq!(file == published, placement == PLACEMENT_3, "{placement:?}");
            assert_eq!(file.len(), published.len());
            match judge(&file) {
                Ok(accepted) => assert_eq!(accepted.stages, 1),
                Err(refusal) => assert_eq!((refusal.reason, refusal.place), (Reason::NotUniform, 1), "{placement:?}"),
            }
        }
    }

    #[test]
    fn another_placement_makes_a_box_uniform() {
        let table = [0, 1, 2, 4, 3, 6, 7, 5];
        let file = produce(3, 4, &table, &PLACEMENT_4).unwrap();
        assert_eq!(judge(&file).unwrap_err().reason, Reason::NotUniform);
        // the products of shares 1 and 2 go to component 3, and not to 4
        let mut placement = PLACEMENT_4;
        placement[2] = 3;
        let file = produce(3, 4, &table, &placement).unwrap();
        assert_eq!(judge(&file), Ok(Accepted { stages: 1, trials: 8192 }));
        assert_eq!(file, include_bytes!("../../../designs/placed.bin"));
    }

    #[test]
    fn a_produced_box_is_accepted() {
        let file = produce(3, 3, &[0, 1, 2, 3, 4, 5, 7, 6], &PLACEMENT_3).unwrap();
        assert_eq!(read(&file), Ok(()));
        assert_eq!(judge(&file), Ok(Accepted { stages: 1, trials: 1024 }));
        assert_eq!(numbers(&judge(&file)), [0, 1, 0]);
        let out = run(&file, [6, 1, 1, 0, 0]).unwrap();
        assert_eq!(out[0] ^ out[1] ^ out[2], 7);
    }

    #[test]
    fn a_box_without_a_uniform_form_is_refused() {
        let file = produce(3, 3, &[0, 1, 2, 4, 3, 6, 7, 5], &PLACEMENT_3).unwrap();
        let refusal = judge(&file).unwrap_err();
        assert_eq!(refusal, Refusal { reason: Reason::NotUniform, place: 1, component: 0, trials: 650 });
        assert_eq!(refusal.to_string(), "14 1 0: stage 1 is not uniform");
    }

    #[test]
    fn a_component_that_depends_on_every_share_is_refused() {
        let refusal = judge(include_bytes!("../../../designs/leaks.bin")).unwrap_err();
        assert_eq!(refusal, Refusal { reason: Reason::NotNonComplete, place: 1, component: 2, trials: 512 });
        assert_eq!(refusal.to_string(), "13 1 2: component 2 of stage 1 depends on every share");
    }

    #[test]
    fn refusals_are_errors() {
        assert_eq!(judge(&[]).unwrap_err().reason, Reason::CutShort);
        assert_eq!(forecast(&[]), Err(Reason::CutShort));
        assert_eq!(produce(4, 2, &[], &[]), Err(Reason::LimitBroken));
        assert_eq!(run(&[], [0; 5]), Err(Reason::CutShort));
        assert_eq!(join(&[], &[]), Err(Reason::CutShort));
        assert_eq!(transform(1, &[0, 1], &mut [0]), Err(Reason::OutputTooShort));
    }

    #[test]
    fn the_two_stages_of_present_are_joined() {
        let present: &[u8] = include_bytes!("../../../designs/present.bin");
        let [g, f]: [&[u8]; 2] =
            [include_bytes!("../../../designs/present_g.bin"), include_bytes!("../../../designs/present_f.bin")];
        assert_eq!(join(g, f).unwrap(), present);
        assert_ne!(join(f, g).unwrap(), present);
        assert_eq!(judge(&join(f, g).unwrap()), Ok(Accepted { stages: 2, trials: 16_384 }));

        let mut output = vec![9; present.len() + 1];
        assert_eq!(join_in(g, f, &mut output), Ok(present.len()));
        assert_eq!(output, [present, &[9]].concat());
        let mut output = vec![9; present.len() - 1];
        assert_eq!(join_in(g, f, &mut output), Err(Reason::OutputTooShort));
        assert!(output.iter().all(|&byte| byte == 9));
    }

    #[test]
    fn what_does_not_join_is_refused() {
        let present: &[u8] = include_bytes!("../../../designs/present.bin");
        let four_stages = join(present, present).unwrap();
        assert_eq!(join(&four_stages, present), Err(Reason::TooManyStages));
        let other_width = produce(3, 3, &[0, 1, 2, 3, 4, 5, 7, 6], &PLACEMENT_3).unwrap();
        assert_eq!(join(&four_stages, &other_width), Err(Reason::SharesDiffer));
        let other_count = produce(4, 4, &(0..16).collect::<Vec<u8>>(), &PLACEMENT_4).unwrap();
        assert_eq!(join(&other_count, present), Err(Reason::SharesDiffer));
        assert_eq!(join(present, &[0, 0, 1, 0]), Err(Reason::WrongLength));
        assert_eq!(join(&[0; 4], &[0, 0, 1, 0]), Err(Reason::WrongKind));
    }

    #[test]
    fn coefficients_and_back() {
        let table = [0, 1, 2, 3, 4, 5, 7, 6];
        let (mut words, mut again) = ([9; 9], [9; 9]);
        transform(3, &table, &mut words).unwrap();
        assert_eq!(words, [0, 1, 2, 0, 4, 0, 1, 0, 9]);
        transform(3, &words[..8], &mut again).unwrap();
        assert_eq!(again, [0, 1, 2, 3, 4, 5, 7, 6, 9]);
    }
}
