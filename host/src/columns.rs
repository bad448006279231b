//! Tables in aligned columns.

/// How a column's cells stand in it.
#[derive(Clone, Copy, PartialEq, Eq)]
pub enum Side {
    Left,
    Right,
}

/// A header line and rows, in the order in which they are added.
pub struct Columns {
    sides: Vec<Side>,
    rows: Vec<Vec<String>>,
}

impl Columns {
    pub fn new(header: &[(&str, Side)]) -> Columns {
        Columns {
            sides: header.iter().map(|&(_, side)| side).collect(),
            rows: vec![header.iter().map(|&(title, _)| title.to_string()).collect()],
        }
    }

    pub fn row(&mut self, cells: Vec<String>) {
        self.rows.push(cells);
    }

    pub fn has_rows(&self) -> bool {
        self.rows.len() > 1
    }

    /// The lines of the table, two spaces between columns and none at a line's end.
    pub fn lines(&self) -> impl Iterator<Item = String> + '_ {
        let widths: Vec<usize> = (0..self.sides.len()).map(|at| self.width(at)).collect();
        self.rows.iter().map(move |row| self.line(row, &widths))
    }

    fn width(&self, at: usize) -> usize {
        let cells = self.rows.iter().filter_map(|row| row.get(at));
        cells.map(|cell| cell.chars().count()).max().unwrap_or(0)
    }

    fn line(&self, row: &[String], widths: &[usize]) -> String {
        let cells = row.iter().zip(&self.sides).zip(widths);
        let cells = cells.map(|((cell, side), &width)| match side {
            Side::Left => format!("{:<1$}", cell, width),
            Side::Right => format!("{:>1$}", cell, width),
        });
        let line = cells.collect::<Vec<String>>().join("  ");
        line.trim_end_matches(' ').to_string()
    }
}

#[cfg(test)]
mod tests {
    use super::*;

    #[test]
    fn columns_are_as_wide_as_their_widest_cell() {
        let mut columns = Columns::new(&[("layer", Side::Right), ("name", Side::Left)]);
        assert!(!columns.has_rows());
        columns.row(vec!["0".to_string(), "Café".to_string()]);
        columns.row(vec!["10".to_string(), "".to_string()]);
        let lines: Vec<String> = columns.lines().collect();
        assert_eq!(lines, ["layer  name", "    0  Café", "   10"]);
        assert!(columns.has_rows());
    }
}
