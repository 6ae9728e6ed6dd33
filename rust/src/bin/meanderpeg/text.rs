//! Output: plain text in columns, the same for the same input, a line for each thing told.

use std::fmt::{Display, Write};

/// The column in which values start.
const VALUES: usize = 20;

/// A name and its value.
pub fn pair(output: &mut String, name: impl Display, value: impl Display) {
    let name = name.to_string();
    // Writing to a String cannot fail.
    let _ = writeln!(output, "{name:<width$}{value}", width = VALUES);
}

/// Columns as wide as their widest word and two spaces; the first row is the head.
pub fn table(output: &mut String, rows: &[Vec<String>]) {
    let columns = rows.iter().map(Vec::len).max().unwrap_or(0);
    let width = |column: usize| rows.iter().filter_map(|row| row.get(column)).map(String::len).max().unwrap_or(0);
    let widths: Vec<usize> = (0..columns).map(width).collect();
    for row in rows {
        let line: String = row.iter().zip(&widths).map(|(word, width)| format!("{word:<width$}  ")).collect();
        output.push_str(line.trim_end());
        output.push('\n');
    }
}

/// Yes or no in the words of the subject.
pub fn either(which: bool, yes: &'static str, no: &'static str) -> &'static str {
    if which {
        yes
    } else {
        no
    }
}
