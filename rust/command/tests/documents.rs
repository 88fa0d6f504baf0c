//! What the documents show of the command is what it prints.
mod common;

use common::{root, run};
use std::fs;

fn document(name: &str) -> String {
    fs::read_to_string(root().join(name)).unwrap()
}

/// Text as a block of a document.
fn indented(text: &str) -> String {
    text.trim_end().lines().map(|line| format!("    {line}").trim_end().to_string() + "\n").collect()
}

#[test]
fn the_manual_shows_what_is_printed() {
    let manual = document("docs/MANUAL.md");
    for words in
        ["check samples/recording.gmti", "editions samples/recording.gmti", "show --edition both samples/lesson_cross_section.gmti"]
    {
        assert!(manual.contains(&format!("gmti {words}")), "the manual does not name gmti {words}");
        let printed = run(words);
        assert!(manual.contains(&format!("\n\n{}\n", indented(printed.text()))), "the manual does not show what gmti {words} prints");
    }
}

#[test]
fn the_manual_lists_the_commands_as_the_overview_does() {
    let manual = document("docs/MANUAL.md");
    let overview = run("--help");
    let commands = overview.text().lines().filter_map(|line| line.strip_prefix("  ")?.split_once(' '));
    let rows: String = commands.map(|(name, summary)| format!("| `{name}` | {} |\n", summary.trim())).collect();
    assert_eq!(rows.lines().count(), 7);
    assert!(manual.contains(&rows), "the manual does not have\n{rows}");
    for name in rows.lines().filter_map(|row| row.split('`').nth(1)) {
        let is_named = |line: &str| line.starts_with("### ") && line.contains(&format!("gmti {name}"));
        assert!(manual.lines().any(is_named), "the manual has no section on gmti {name}");
    }
}

/// The naive reading is held to its table in samples/README.md by another test; the manual has the same table.
#[test]
fn the_manual_has_the_lesson_of_the_samples() {
    let samples = document("samples/README.md");
    let table: String = samples
        .lines()
        .skip_while(|line| !line.starts_with("| Target |"))
        .take_while(|line| line.starts_with('|'))
        .collect::<Vec<_>>()
        .join("\n");
    assert!(!table.is_empty() && document("docs/MANUAL.md").contains(&table));
}

/// README.md leaves lines out, where it has `...`.
#[test]
fn the_readme_shows_lines_of_the_page() {
    let readme = document("README.md");
    let command = "gmti show --edition both samples/lesson_cross_section.gmti";
    let block = readme
        .lines()
        .skip_while(|line| *line != format!("    $ {command}"))
        .skip(1)
        .take_while(|line| line.is_empty() || line.starts_with("    "));
    let printed = run(command.strip_prefix("gmti ").unwrap());
    let mut rest = printed.text().lines();
    let mut shown = 0;
    for line in block.map(|line| line.strip_prefix("    ").unwrap_or(line)).filter(|line| *line != "..." && !line.is_empty()) {
        assert!(rest.any(|printed| printed == line), "README.md: {line}");
        shown += 1;
    }
    assert!(shown > 10, "{shown}");
}
