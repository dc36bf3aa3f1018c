//! Markdown tables.

use std::fmt;

/// Rows of cells under a heading, with the columns made equally wide.
pub struct Table(Vec<Vec<String>>);

impl Table {
    pub fn new<'a>(heading: impl IntoIterator<Item = &'a str>) -> Table {
        Table(vec![heading.into_iter().map(str::to_string).collect()])
    }

    pub fn row(&mut self, cells: impl IntoIterator<Item = String>) {
        self.0.push(cells.into_iter().collect());
    }
}

impl fmt::Display for Table {
    fn fmt(&self, f: &mut fmt::Formatter) -> fmt::Result {
        let width = |column: usize| self.0.iter().filter_map(|row| row.get(column)).map(String::len).max().unwrap_or(0);
        for (number, row) in self.0.iter().enumerate() {
            for (column, cell) in row.iter().enumerate() {
                write!(f, "| {cell:0$} ", width(column))?;
            }
            writeln!(f, "|")?;
            if number == 0 {
                row.iter().enumerate().try_for_each(|(column, _)| write!(f, "|{}", "-".repeat(width(column) + 2)))?;
                writeln!(f, "|")?;
            }
        }
        Ok(())
    }
}

/// A time to three places, and to one where it is large.
pub fn number(value: f64) -> String {
    let places = if value < 10.0 { 3 } else { 1 };
    format!("{value:.places$}")
}

pub fn ratio(value: f64) -> String {
    format!("{value:.2}")
}
