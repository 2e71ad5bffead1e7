//! The pages that `--help` prints, and their examples.

use crate::shell::shell;

/// The examples of a page, a line for the shell and what it prints, and how many there are.
fn examples_work(page: &str) -> usize {
    let (_, examples) = page.split_once("\nExample:\n\n").unwrap_or_else(|| panic!("no example: {page}"));
    let examples: Vec<&str> = examples.split("  $ ").skip(1).collect();
    for example in &examples {
        let (line, due) = example.split_once('\n').unwrap();
        let due: String = due.lines().map(|line| format!("{}\n", line.strip_prefix("  ").unwrap_or(line))).collect();
        assert_eq!(shell(line).out, due, "{line}");
    }
    examples.len()
}

#[test]
fn help() {
    let all = shell("jestrunas --help");
    assert_eq!((all.status, all.err.as_str(), examples_work(&all.out)), (0, "", 1));
    let commands: Vec<&str> = all.out.lines().filter_map(|line| line.strip_prefix("  jestrunas ")).collect();
    assert_eq!(commands.len(), 12);
    for command in commands {
        let name = command.split(' ').next().unwrap();
        let page = shell(&format!("jestrunas {name} --help"));
        assert_eq!((page.status, page.err.as_str()), (0, ""), "{name}");
        assert!(examples_work(&page.out) > 0, "{name}");
        let used: Vec<&str> = page.out.lines().next().unwrap().split(' ').take(2).collect();
        assert_eq!(used, ["jestrunas", name]);
        assert!(page.out.lines().all(|line| line.len() <= 100));
        // beside all else
        assert_eq!(shell(&format!("jestrunas {name} one two three --help")), page);
    }
}
