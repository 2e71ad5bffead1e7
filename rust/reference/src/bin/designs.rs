//! Writes the sample designs of designs/ to the folder that the argument names, and two lists with a line for each:
//! verdicts.txt, the file, and reason, place and component of its verdict; trials.txt, the file, the workspace and the trials of its
//! forecast, and the trials of its verdict.

use reference::samples::{chain, d, keccak_row, keccak_uniform, leaking, linear, placed, PRESENT_F, PRESENT_G};
use reference::{encode, forecast, verdict};
use std::path::Path;

fn main() -> std::io::Result<()> {
    let folder = std::env::args().nth(1).expect("designs FOLDER");
    let keccak = keccak_row();
    let samples = [
        ("d.bin", d()),
        ("box3.bin", chain(3, 3, &[&[0, 1, 2, 3, 4, 5, 7, 6]])),
        ("present.bin", chain(4, 3, &[&PRESENT_G, &PRESENT_F])),
        ("present_g.bin", chain(4, 3, &[&PRESENT_G])),
        ("present_f.bin", chain(4, 3, &[&PRESENT_F])),
        ("keccak3.bin", chain(5, 3, &[&keccak])),
        ("keccak4.bin", keccak_uniform()),
        ("keccak4_placed.bin", placed(5, &keccak)),
        ("linear.bin", linear()),
        ("leaks.bin", leaking()),
        ("uneven.bin", chain(3, 3, &[&[0, 1, 2, 4, 3, 6, 7, 5]])),
        ("placed.bin", placed(3, &[0, 1, 2, 4, 3, 6, 7, 5])),
    ];
    let (mut verdicts, mut trials) = (String::new(), String::new());
    for (name, design) in samples {
        let file = encode(&design);
        std::fs::write(Path::new(&folder).join(name), &file)?;
        let [reason, place, component, taken] = verdict(&design, 131_072);
        let [_, workspace, most] = forecast(&file);
        verdicts += &format!("{name} {reason} {place} {component}\n");
        trials += &format!("{name} {workspace} {most} {taken}\n");
    }
    print!("{verdicts}");
    std::fs::write(Path::new(&folder).join("trials.txt"), trials)?;
    std::fs::write(Path::new(&folder).join("verdicts.txt"), verdicts)
}
