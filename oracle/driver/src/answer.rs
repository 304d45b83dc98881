//! Answer lines.

use std::fmt::Write;

fn push_cells(line: &mut String, cells: &[usize]) {
    for cell in cells {
        write!(line, " {cell}").expect("a string takes any text");
    }
}

/// `done`, the outcome's numbers, and each slice that the operation may change.
pub fn done(numbers: &[usize], slices: &[&[usize]]) -> String {
    let mut line = String::from("done");
    push_cells(&mut line, numbers);
    for slice in slices {
        line.push_str(" |");
        push_cells(&mut line, slice);
    }
    line
}

/// `rows`, and two numbers for each row.
pub fn rows(rows: impl Iterator<Item = [usize; 2]>) -> String {
    let mut line = String::from("rows");
    rows.for_each(|row| push_cells(&mut line, &row));
    line
}

/// `part`, the part's length and its cells.
pub fn part(cells: &[usize]) -> String {
    let mut line = String::from("part");
    push_cells(&mut line, &[cells.len()]);
    push_cells(&mut line, cells);
    line
}
