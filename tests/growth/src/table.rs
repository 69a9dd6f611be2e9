//! The table, as text or as markdown.

use crate::measure::Row;

pub struct Table {
    pub markdown: bool,
    /// Rows with a greater ratio are marked.
    pub greatest: f64,
}

impl Table {
    /// The head of a table whose sources have so many of something.
    pub fn print_head(&self, counted: &str, [small, large]: [usize; 2]) {
        let at = |size: usize| format!("at {} bytes", grouped(size as u64));
        let [at_small, at_large] = [small, large].map(at);
        let head = ["family", counted, &at_small, &at_large, "per byte", "ratio"];
        line(self.markdown, head.map(str::to_string));
        if self.markdown {
            println!("|---|--:|--:|--:|--:|--:|");
        }
    }

    pub fn print(&self, row: &Row) {
        let mark = if row.ratio() > self.greatest { " above" } else { "" };
        line(
            self.markdown,
            [
                row.name.to_string(),
                grouped(row.count),
                grouped(row.instructions[0]),
                grouped(row.instructions[1]),
                format!("{:.1}", row.per_byte()),
                format!("{:.2}{mark}", row.ratio()),
            ],
        );
    }
}

pub fn line(markdown: bool, cells: [String; 6]) {
    if markdown {
        println!("| {} |", cells.join(" | "));
    } else {
        let [name, count, small, large, per_byte, ratio] = cells;
        println!("{name:28} {count:>8} {small:>16} {large:>16} {per_byte:>9} {ratio:>6}");
    }
}

/// The number with a comma before each three digits.
pub fn grouped(number: u64) -> String {
    let mut text = number.to_string();
    let mut at = text.len();
    while at > 3 {
        at -= 3;
        text.insert(at, ',');
    }
    text
}
