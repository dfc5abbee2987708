//! Tables of counts. A cell that has to be filled and is not fails the test; so does one that the rules keep empty
//! and that is not.

use std::collections::BTreeMap;
use std::io::Write;

/// Prints, also where the test harness keeps what passing tests print.
pub fn say(text: &str) {
    std::io::stdout().write_all(text.as_bytes()).expect("standard output can be written to");
}

/// Counts by row and column.
pub struct Table {
    title: String,
    rows: Vec<String>,
    columns: Vec<String>,
    /// How much a cell needs; none for a cell that must stay empty.
    needs: BTreeMap<(String, String), Option<usize>>,
    need: usize,
    counts: BTreeMap<(String, String), usize>,
}

fn key(row: &str, column: &str) -> (String, String) {
    (row.to_string(), column.to_string())
}

impl Table {
    /// A table in which each cell needs so much, unless something else is said of it.
    pub fn new<R: ToString, C: ToString>(title: &str, rows: &[R], columns: &[C], need: usize) -> Table {
        Table {
            title: title.to_string(),
            rows: rows.iter().map(R::to_string).collect(),
            columns: columns.iter().map(C::to_string).collect(),
            needs: BTreeMap::new(),
            need,
            counts: BTreeMap::new(),
        }
    }

    /// A cell that the rules keep empty.
    pub fn never(&mut self, row: impl ToString, column: impl ToString) {
        self.needs.insert((row.to_string(), column.to_string()), None);
    }

    /// A cell that needs another count than the others.
    pub fn needs(&mut self, row: impl ToString, column: impl ToString, need: usize) {
        self.needs.insert((row.to_string(), column.to_string()), Some(need));
    }

    pub fn add(&mut self, row: impl ToString, column: impl ToString) {
        self.add_many(row, column, 1);
    }

    pub fn add_many(&mut self, row: impl ToString, column: impl ToString, many: usize) {
        *self.counts.entry((row.to_string(), column.to_string())).or_default() += many;
    }

    pub fn count(&self, row: impl ToString, column: impl ToString) -> usize {
        self.counts.get(&(row.to_string(), column.to_string())).copied().unwrap_or(0)
    }

    /// The sum of all cells.
    pub fn sum(&self) -> usize {
        self.counts.values().sum()
    }

    fn need_of(&self, row: &str, column: &str) -> Option<usize> {
        self.needs.get(&key(row, column)).copied().unwrap_or(Some(self.need))
    }

    /// What keeps the table from being full: cells with too little, with too much, and cells it does not have.
    pub fn faults(&self) -> Vec<String> {
        let mut faults = Vec::new();
        for row in &self.rows {
            for column in &self.columns {
                let count = self.count(row, column);
                match self.need_of(row, column) {
                    None if count > 0 => faults.push(format!("{row} / {column}: {count}, and the rules allow none")),
                    Some(need) if count < need => faults.push(format!("{row} / {column}: {count} of {need}")),
                    _ => {}
                }
            }
        }
        for (row, column) in self.counts.keys() {
            if !self.rows.contains(row) || !self.columns.contains(column) {
                faults.push(format!("{row} / {column}: the table has no such cell"));
            }
        }
        faults
    }

    /// The table as text; a cell that stays empty by the rules is a dash.
    pub fn text(&self) -> String {
        let mut lines = vec![self.line("", self.columns.clone())];
        for row in &self.rows {
            let cells = self.columns.iter().map(|column| match (self.count(row, column), self.need_of(row, column)) {
                (0, None) => "-".to_string(),
                (count, _) => count.to_string(),
            });
            lines.push(self.line(row, cells.collect()));
        }
        format!("table: {} ({} in all)\n{}", self.title, self.sum(), lines.concat())
    }

    fn line(&self, row: &str, cells: Vec<String>) -> String {
        let first = self.rows.iter().map(String::len).max().unwrap_or(0);
        let mut line = format!("  {row:<first$}");
        for (column, cell) in self.columns.iter().zip(cells) {
            let width = column.len().max(8);
            line += &format!("  {cell:>width$}");
        }
        line + "\n"
    }

    /// Prints the table, and fails unless it is full.
    pub fn close(&self) {
        say(&self.text());
        let faults = self.faults();
        assert!(faults.is_empty(), "{}:\n{}", self.title, faults.join("\n"));
    }
}

#[cfg(test)]
mod tests {
    use super::Table;

    #[test]
    fn cells_are_judged() {
        let mut table = Table::new("small", &["a", "b"], &[1, 2], 1);
        table.never("b", 2);
        table.needs("b", 1, 2);
        assert_eq!(table.faults().len(), 3);
        table.add("a", 1);
        table.add("a", 2);
        table.add("b", 1);
        assert_eq!(table.faults(), ["b / 1: 1 of 2"]);
        table.add("b", 1);
        assert!(table.faults().is_empty());
        table.add("b", 2);
        table.add("c", 2);
        assert_eq!(table.faults().len(), 2);
    }
}
