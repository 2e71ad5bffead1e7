//! The examples of docs/TEXT.md and docs/PROGRAM.md.

use crate::shell::{root, shell, shell_with};

/// Rows `| text | answer |` with both in backquotes.
fn row(line: &str) -> Option<(String, &str)> {
    let (text, answer) = line.strip_prefix("| `")?.strip_suffix("` |")?.split_once("` | `")?;
    Some((text.replace("\\n", "\n"), answer))
}

/// The rows of a part of the page.
fn rows(part: &str) -> Vec<(String, &str)> {
    part.lines().filter_map(row).collect()
}

#[test]
fn every_example_is_tried() {
    let page = std::fs::read_to_string(root().join("docs/TEXT.md")).unwrap();
    let examples: Vec<&str> = page.split("\n\n").filter(|part| part.starts_with("    m ")).collect();
    assert_eq!(examples.len(), 2);
    for example in examples {
        let example: String = example.lines().map(|line| format!("{}\n", line.trim_start())).collect();
        let cmp = shell_with("jestrunas assemble - -o - | cmp - designs/d.bin", example.as_bytes());
        assert_eq!((cmp.status, cmp.err.as_str()), (0, ""), "{example}");
    }

    // the texts of the second table stand behind the head of D, those of the third behind another
    let (whole, rest) = page.split_once("The texts below stand behind").unwrap();
    let (in_stage, told) = rest.split_once("The texts below stand behind").unwrap();
    let refused = [("", whole), ("m 1\ns 3\nS 0 1\nstage\n", in_stage)];
    for (start, part) in refused {
        for (text, answer) in rows(part) {
            let shown = shell_with("jestrunas assemble - -o -", format!("{start}{text}").as_bytes());
            assert_eq!((shown.status, shown.out.as_str()), (1, ""), "{text}");
            assert_eq!(shown.err, format!("jestrunas: -:{answer}\n"), "{text}");
        }
    }
    for (text, answer) in rows(told) {
        let shown = shell_with("jestrunas assemble - -o /dev/null", format!("m 3\ns 3\nS 01234567\nstage\n{text}").as_bytes());
        assert_eq!((shown.status, shown.out, shown.err), (0, String::new(), format!("jestrunas: -:{answer}\n")), "{text}");
    }
    let tried: usize = [whole, in_stage, told].map(|part| rows(part).len()).iter().sum();
    let heads = page.lines().filter(|line| line.starts_with("| text |")).count();
    assert_eq!(tried + heads, page.lines().filter(|line| line.starts_with("| ")).count());
    assert_eq!(heads, 3);
}

#[test]
fn every_example_of_the_program_is_tried() {
    let page = std::fs::read_to_string(root().join("docs/PROGRAM.md")).unwrap();
    let lines = page.lines().filter_map(|line| line.strip_prefix("    ")).collect::<Vec<_>>().join("\n") + "\n";
    let examples: Vec<&str> = lines.split("$ ").filter(|example| !example.is_empty()).collect();
    assert_eq!(examples.len(), page.matches("    $ ").count());
    for example in &examples {
        let (line, due) = example.split_once('\n').unwrap();
        let shown = shell(line);
        assert_eq!((shown.out.as_str(), shown.err.as_str()), (due, ""), "{line}");
    }
}
