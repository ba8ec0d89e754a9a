//! A table as it stands in its file: which line has which record.

use super::names::kind_name;
use reader_tests::reference::table::Table;

/// The lines before the listing of a console input: mode, budget, message.
pub const BEFORE: usize = 3;

/// The lines of a listing before its first rule.
const HEAD: usize = 3;

/// The listing of a file, and how many of the file's lines stand before it. A
/// console input is told by its first line, which begins with `mode=`.
pub fn listing_of(file: &[u8]) -> (&[u8], usize) {
    if !file.starts_with(b"mode=") {
        return (file, 0);
    }
    let mut rest = file;
    for _ in 0..BEFORE {
        let end = rest.iter().position(|&byte| byte == 10);
        rest = end.map_or(&[], |end| &rest[end + 1..]);
    }
    (rest, BEFORE)
}

#[derive(Clone, Copy)]
pub struct Page<'a> {
    pub table: Table<'a>,
    /// Lines of the file before the listing.
    pub before: usize,
}

impl Page<'_> {
    pub fn rule_line(&self, rule: usize) -> usize {
        self.before + HEAD + rule + 1
    }

    pub fn node_line(&self, node: usize) -> usize {
        self.rule_line(self.table.rules()) + node
    }

    /// "rule 0 (line 4)"
    pub fn rule(&self, rule: usize) -> String {
        format!("rule {rule} (line {})", self.rule_line(rule))
    }

    /// "node 2 (line 10), slot"
    pub fn node(&self, node: usize) -> String {
        let line = self.node_line(node);
        format!("node {node} (line {line}), {}", self.kind(node))
    }

    pub fn kind(&self, node: usize) -> &'static str {
        kind_name(self.table.kind(node))
    }
}
