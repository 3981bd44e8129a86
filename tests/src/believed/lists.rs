//! The files that docs/PROMISES.md tells a reader to read.

use super::files::Told;
use std::collections::BTreeSet;
use std::fs;

const PAGE: &str = "docs/PROMISES.md";

/// The files that the section under a heading names, in the first column of its table.
pub fn listed(heading: &str) -> Told<BTreeSet<String>> {
    let text = fs::read_to_string(PAGE).map_err(|why| format!("{}: {}", PAGE, why))?;
    let begins = format!("## {}", heading);
    let section = text.lines().skip_while(|line| *line != begins).skip(1);
    let lines = section.take_while(|line| !line.starts_with("## "));
    let cells =
        lines.filter_map(|line| line.strip_prefix("| ").and_then(|row| row.split(" |").next()));
    let files: BTreeSet<String> =
        cells.filter(|cell| cell.contains('/')).map(String::from).collect();
    if files.is_empty() {
        return Err(format!("{} lists no file under {}", PAGE, heading));
    }
    Ok(files)
}
