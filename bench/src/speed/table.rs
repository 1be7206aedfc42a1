//! Rows of figures, printed as a Markdown table whose columns are aligned. A figure that was taken
//! in several runs is the lowest and the highest of them.

use std::fmt;

/// What stands in a cell.
#[derive(Clone, Copy)]
pub enum Cell {
    /// There is nothing to compare with.
    None,
    /// It stands in the row above.
    Above,
    /// Lowest and highest.
    Ratio(f64, f64),
    Bytes(usize),
}

impl Cell {
    pub fn ratio(ratio: f64) -> Self {
        Self::Ratio(ratio, ratio)
    }

    /// With the figure of another run.
    fn widened(self, other: Self) -> Self {
        match (self, other) {
            (Self::Ratio(a, b), Self::Ratio(c, d)) => Self::Ratio(a.min(c), b.max(d)),
            (Self::Bytes(a), Self::Bytes(b)) => Self::Bytes(a.max(b)),
            _ => self,
        }
    }
}

impl fmt::Display for Cell {
    fn fmt(&self, f: &mut fmt::Formatter) -> fmt::Result {
        let text = match *self {
            Self::None => "-".into(),
            Self::Above => String::new(),
            Self::Ratio(low, high) => match (digits(low), digits(high)) {
                (low, high) if low == high => low,
                (low, high) => format!("{low}–{high}"),
            },
            Self::Bytes(bytes) => bytes.to_string(),
        };
        f.pad(&text)
    }
}

/// As many digits as say something.
fn digits(ratio: f64) -> String {
    match ratio {
        ..0.0995 => format!("{ratio:.3}"),
        ..2.0 => format!("{ratio:.2}"),
        ..9.95 => format!("{ratio:.1}"),
        _ => format!("{ratio:.0}"),
    }
}

pub struct Row {
    pub name: String,
    pub cells: Vec<Cell>,
}

impl Row {
    pub fn new(name: impl Into<String>, cells: impl Into<Vec<Cell>>) -> Self {
        Self { name: name.into(), cells: cells.into() }
    }

    /// Called, inlined, and a copy where bytes move.
    pub fn ratios(name: impl Into<String>, plain: [f64; 2], copy: Option<f64>) -> Self {
        let [called, inlined] = plain.map(Cell::ratio);
        Self::new(name, [called, inlined, copy.map_or(Cell::None, Cell::ratio)])
    }
}

pub struct Table {
    /// Over the names, and over each column of cells.
    pub head: &'static [&'static str],
    pub rows: Vec<Row>,
}

impl Table {
    /// With the figures of another run.
    pub fn widen(&mut self, other: &Self) {
        for (row, other) in self.rows.iter_mut().zip(&other.rows) {
            assert_eq!(row.name, other.name, "another table");
            for (cell, other) in row.cells.iter_mut().zip(&other.cells) {
                *cell = cell.widened(*other);
            }
        }
    }
}

impl fmt::Display for Table {
    fn fmt(&self, f: &mut fmt::Formatter) -> fmt::Result {
        let names = self.rows.iter().map(|row| row.name.chars().count());
        let wide = names.max().unwrap_or(0).max(self.head[0].len());
        let columns = &self.head[1..];
        write!(f, "| {:<wide$} |", self.head[0])?;
        columns.iter().try_for_each(|name| write!(f, " {name:<14} |"))?;
        write!(f, "\n|{:-<1$}|", "", wide + 2)?;
        columns.iter().try_for_each(|_| write!(f, "{:-<16}|", ""))?;
        writeln!(f)?;
        for row in &self.rows {
            write!(f, "| {:<wide$} |", row.name)?;
            row.cells.iter().try_for_each(|cell| write!(f, " {cell:<14} |"))?;
            writeln!(f)?;
        }
        Ok(())
    }
}

/// A number with a comma between the thousands.
pub fn grouped(number: usize) -> String {
    match (number / 1_000, number % 1_000) {
        (0, rest) => rest.to_string(),
        (thousands, rest) => format!("{},{rest:03}", grouped(thousands)),
    }
}
