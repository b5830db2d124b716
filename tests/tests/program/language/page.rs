//! The page, cut into its blocks.

use crate::alone::ROOT;
use std::fs;

/// Lines between fences. The word after the first fence is the block's kind, and
/// the heading is the last one before it.
pub struct Block<'p> {
    pub kind: &'p str,
    pub heading: &'p str,
    /// Where the first line stands in the page.
    pub at: usize,
    pub lines: Vec<&'p str>,
}

pub fn page() -> String {
    fs::read_to_string(format!("{ROOT}/docs/LANGUAGE.md")).unwrap()
}

/// The blocks of a page. Outside of them nothing may look like an example, which
/// nobody would hold against anything.
pub fn blocks(page: &str) -> Result<Vec<Block<'_>>, String> {
    let mut blocks = Vec::new();
    let mut heading = "";
    let mut lines = page.lines().zip(1..);
    while let Some((line, at)) = lines.next() {
        if let Some(kind) = line.strip_prefix("```") {
            let inside = lines.by_ref().map(|(line, _)| line).take_while(|line| *line != "```").collect();
            blocks.push(Block { kind, heading, at: at + 1, lines: inside });
        } else if line.starts_with('#') {
            heading = line.trim_start_matches(['#', ' ']);
        } else if line.starts_with("    ") || ["flow(", "leaf(", "table ="].iter().any(|part| looks_given(line, part)) {
            return Err(format!("line {at} is outside of a block, and looks like an example: {line}"));
        }
    }
    Ok(blocks)
}

/// A part of an example that is more than a quoted beginning of one.
fn looks_given(line: &str, part: &str) -> bool {
    line.contains(part) && !line.contains(&format!("`{part}`"))
}
