//! The sample designs have the verdicts that designs/verdicts.txt says.

use std::path::Path;

#[test]
fn samples() {
    let folder = Path::new(env!("CARGO_MANIFEST_DIR")).join("../../designs");
    let verdicts = std::fs::read_to_string(folder.join("verdicts.txt")).unwrap();
    for line in verdicts.lines() {
        let (name, due) = line.split_once(' ').unwrap();
        let file = std::fs::read(folder.join(name)).unwrap();
        let [reason, place, component] = jestrunas::numbers(&jestrunas::judge(&file));
        assert_eq!(format!("{reason} {place} {component}"), due, "{name}");
    }
}
