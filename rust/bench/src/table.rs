//! Tables of a document, with columns that stand straight in the source, too.

pub struct Table {
    lines: Vec<Vec<String>>,
}

impl Table {
    pub fn new(heads: &[&str]) -> Table {
        let heads = heads.iter().map(|head| head.to_string()).collect();
        Table { lines: vec![heads] }
    }

    pub fn add(&mut self, line: Vec<String>) {
        self.lines.push(line);
    }

    /// The first column to the left, all others to the right.
    pub fn text(&self) -> String {
        let columns = self.lines[0].len();
        let width = |column: usize| {
            let cells = self.lines.iter().map(|line| line[column].chars().count());
            cells.max().unwrap_or(0)
        };
        let widths: Vec<usize> = (0..columns).map(width).collect();
        let mut text = String::new();
        for (number, line) in self.lines.iter().enumerate() {
            let cells = line.iter().zip(&widths).enumerate();
            let cells = cells.map(|(column, (cell, &width))| match column {
                0 => format!("| {cell:width$} "),
                _ => format!("| {cell:>width$} "),
            });
            text.extend(cells);
            text.push_str("|\n");
            if number == 0 {
                text.push_str("|---|");
                text.push_str(&"--:|".repeat(columns - 1));
                text.push('\n');
            }
        }
        text
    }
}

/// A whole number with a comma before every three digits.
pub fn grouped(number: usize) -> String {
    let digits = number.to_string();
    let mut text = String::new();
    for (at, digit) in digits.chars().enumerate() {
        if at > 0 && (digits.len() - at).is_multiple_of(3) {
            text.push(',');
        }
        text.push(digit);
    }
    text
}

/// Three digits, or more before the point.
pub fn three(number: f64) -> String {
    match number {
        number if number < 1.0 => format!("{number:.3}"),
        number if number < 10.0 => format!("{number:.2}"),
        number if number < 100.0 => format!("{number:.1}"),
        number => grouped(number.round() as usize),
    }
}

#[cfg(test)]
mod tests {
    use super::*;

    #[test]
    fn numbers_are_grouped_by_three() {
        let numbers = [0, 7, 999, 1_000, 12_345, 16_777_216].map(grouped);
        assert_eq!(numbers, ["0", "7", "999", "1,000", "12,345", "16,777,216"]);
    }

    #[test]
    fn columns_stand_straight() {
        let mut table = Table::new(&["a", "ratio"]);
        table.add(vec!["long".into(), "1".into()]);
        assert_eq!(
            table.text(),
            "| a    | ratio |\n|---|--:|\n| long |     1 |\n"
        );
    }
}
