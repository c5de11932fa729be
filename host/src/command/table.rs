//! Tables with columns as wide as they need to be.

use std::io;

use super::Output;

/// Writes a heading and rows, which are gone through twice and never all in
/// memory. The last column isn't filled up.
pub(super) fn table<const N: usize>(
    out: Output,
    heading: [&str; N],
    rows: impl Iterator<Item = [String; N]> + Clone,
) -> io::Result<()> {
    let rows = std::iter::once(heading.map(String::from)).chain(rows);
    let mut widths = [0; N];
    for row in rows.clone() {
        for (width, cell) in widths.iter_mut().zip(&row) {
            *width = cell.chars().count().max(*width);
        }
    }
    for row in rows {
        let cells = row.iter().zip(widths);
        let line: String = cells
            .map(|(cell, width)| format!("{cell:<width$}  "))
            .collect();
        writeln!(out, "{}", line.trim_end())?;
    }
    Ok(())
}
