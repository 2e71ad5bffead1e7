//! Forecasts and trials: the published rows, and the sample designs.

use jestrunas::{forecast, judge, judge_in, numbers, Accepted, Forecast, Reason, Verdict, WORKSPACE_MAX};
use std::path::Path;

/// One stage of one bit in three shares, with this S, G the identity and these lists of terms.
fn one_bit(s_box: [u8; 2], lists: [&[u8]; 3]) -> Vec<u8> {
    let mut file = vec![3, 0, 1, 0, 1, 3, 1, 2, 0, 2, 0, s_box[0], s_box[1], 2, 0, 2, 0, 0, 1];
    for terms in lists {
        file.extend([4 * terms.len() as u8, 0, 3, 0]);
        file.extend(terms.iter().flat_map(|&term| [term, 0, 0, 0]));
    }
    file.extend([0, 0, 4, 0]);
    file
}

fn d() -> Vec<u8> {
    one_bit([0, 1], [&[2], &[4], &[1]])
}

fn sample(name: &str) -> Vec<u8> {
    std::fs::read(Path::new(env!("CARGO_MANIFEST_DIR")).join("../../designs").join(name)).unwrap()
}

fn trials(verdict: &Verdict) -> usize {
    verdict.map_or_else(|refusal| refusal.trials, |accepted| accepted.trials)
}

#[test]
fn trials_of_the_rows() {
    assert_eq!(d(), sample("d.bin"));
    for (file, verdict, due) in [
        (d(), [0, 1, 0], 16),
        (one_bit([0, 1], [&[2], &[4], &[]]), [12, 1, 0], 2),
        (one_bit([0, 1], [&[1], &[2], &[4]]), [0, 1, 0], 16),
        (one_bit([0, 1], [&[1, 2, 4], &[], &[]]), [13, 1, 1], 8),
        (one_bit([0, 1], [&[2, 4], &[1], &[]]), [14, 1, 0], 13),
        (one_bit([0, 0], [&[2], &[4], &[1]]), [8, 0, 0], 0),
        (one_bit([1, 0], [&[2], &[4], &[1]]), [10, 0, 0], 0),
        (d()[..40].to_vec(), [1, 35, 0], 0),
    ] {
        let judged = judge(&file);
        assert_eq!((numbers(&judged), trials(&judged)), (verdict, due), "{file:?}");
    }
    let judged = judge_in(&d(), &mut []);
    assert_eq!((numbers(&judged), trials(&judged)), ([9, 0, 0], 0));
}

#[test]
fn forecasts_of_the_rows() {
    let head = |m, s, k| forecast(&[3, 0, 1, 0, m, s, k]);
    assert_eq!(forecast(&d()), Ok(Forecast { workspace: 1, trials: 16 }));
    assert_eq!(head(4, 5, 1), Ok(Forecast { workspace: 131_072, trials: 2_097_152 }));
    assert_eq!(head(5, 4, 4), Ok(Forecast { workspace: WORKSPACE_MAX, trials: 8_388_608 }));
    for (m, s, k) in [(0, 3, 1), (7, 3, 1), (1, 2, 1), (1, 6, 1), (5, 5, 1), (6, 4, 1), (1, 3, 0), (1, 3, 5)] {
        assert_eq!(head(m, s, k), Err(Reason::LimitBroken), "{m} {s} {k}");
    }
    assert_eq!(forecast(&[]), Err(Reason::CutShort));
    assert_eq!(forecast(&[3, 0, 2, 0, 1]), Err(Reason::WrongKind));
    assert_eq!(forecast(&[4, 0, 1, 0, 1, 3, 1, 0]), Err(Reason::WrongLength));
    assert_eq!(forecast(&[3, 1, 1, 0]), Err(Reason::WrongLength));
}

#[test]
fn the_head_record_decides() {
    let whole = forecast(&d());
    for length in 0..=d().len() {
        let cut = forecast(&d()[..length]);
        assert_eq!(cut, if length < 7 { Err(Reason::CutShort) } else { whole }, "{length} bytes");
    }
    let mut other = d();
    other[7..].fill(255);
    assert_eq!(forecast(&other), whole);
}

#[test]
fn samples_take_the_trials_that_the_list_says() {
    let list = String::from_utf8(sample("trials.txt")).unwrap();
    for line in list.lines() {
        let (name, due) = line.split_once(' ').unwrap();
        let file = sample(name);
        let judged = judge(&file);
        let Forecast { workspace, trials: most } = forecast(&file).unwrap();
        let taken = trials(&judged);
        assert_eq!(format!("{workspace} {most} {taken}"), due, "{name}");
        assert_eq!(judged.is_ok(), taken == most, "{name}");
    }
}

#[test]
fn the_workspace_forecast_is_the_least() {
    for name in ["d.bin", "box3.bin", "present.bin"] {
        let file = sample(name);
        let Forecast { workspace, trials } = forecast(&file).unwrap();
        let Accepted { trials: took, .. } = judge_in(&file, &mut vec![9; workspace]).unwrap();
        assert_eq!(took, trials, "{name}");
        assert_eq!(judge_in(&file, &mut vec![9; workspace - 1]).unwrap_err().reason, Reason::WorkspaceTooSmall, "{name}");
    }
}
