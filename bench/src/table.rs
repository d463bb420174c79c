//! Tables as Markdown has them, with aligned columns.

/// A table: its heads, and a cell under each in every row.
pub struct Table {
    heads: Vec<String>,
    rows: Vec<Vec<String>>,
}

impl Table {
    pub fn new(heads: &[&str]) -> Table {
        Table {
            heads: heads.iter().map(|head| head.to_string()).collect(),
            rows: Vec::new(),
        }
    }

    pub fn add(&mut self, cells: Vec<String>) {
        assert_eq!(cells.len(), self.heads.len(), "a cell under each head");
        self.rows.push(cells);
    }

    /// Prints it, and an empty line. A column without any content is left
    /// out: what it needs is missing on this machine.
    pub fn print(&self) {
        let filled = |place: &usize| self.rows.iter().any(|row| !row[*place].is_empty());
        let places: Vec<usize> = (0..self.heads.len()).filter(filled).collect();
        let lines = || std::iter::once(&self.heads).chain(&self.rows);
        let width = |place: usize| lines().map(|row| row[place].chars().count()).max();
        let widths: Vec<usize> = places
            .iter()
            .map(|place| width(*place).unwrap_or(0))
            .collect();
        for (number, row) in lines().enumerate() {
            let mut line = String::from("|");
            for (place, width) in places.iter().zip(&widths) {
                line += &match place {
                    0 => format!(" {:<width$} |", row[*place]),
                    _ => format!(" {:>width$} |", row[*place]),
                };
            }
            println!("{line}");
            if number == 0 {
                rule(&widths);
            }
        }
        println!();
    }
}

/// The line under the heads: names to the left, numbers to the right.
fn rule(widths: &[usize]) {
    let mut line = String::from("|");
    for (place, width) in widths.iter().enumerate() {
        line += &match place {
            0 => format!("{}|", "-".repeat(width + 2)),
            _ => format!("{}:|", "-".repeat(width + 1)),
        };
    }
    println!("{line}");
}

/// A whole number with a comma before each three digits.
pub fn whole(number: u64) -> String {
    let digits = number.to_string();
    let threes = digits.as_bytes().rchunks(3).map(String::from_utf8_lossy);
    let mut threes: Vec<_> = threes.collect();
    threes.reverse();
    threes.join(",")
}

/// A number with `decimals` decimals; nothing where there is none.
pub fn decimal(number: impl Into<Option<f64>>, decimals: usize) -> String {
    let number: Option<f64> = number.into();
    number.map_or(String::new(), |number| format!("{number:.decimals$}"))
}
