//! Headings, tables and numbers in Markdown.

/// Prints the heading of a part and what its figures are.
pub fn print_heading(heading: &str, figures: &str) {
    println!("\n## {heading}\n\n{figures}\n");
}

/// Prints what the figures of a further table are.
pub fn print_text(figures: &str) {
    println!("\n{figures}\n");
}

/// Prints the heads of a table's columns, the first of which names its rows.
pub fn print_head<S: AsRef<str>>(rows: &str, columns: impl IntoIterator<Item = S>) {
    let columns: Vec<S> = columns.into_iter().collect();
    let count = columns.len();
    print_row(rows, columns);
    println!("|{}", " --- |".repeat(1 + count));
}

/// Prints a row of a table.
pub fn print_row<S: AsRef<str>>(name: &str, cells: impl IntoIterator<Item = S>) {
    let mut row = format!("| {name} |");
    for cell in cells {
        row += &format!(" {} |", cell.as_ref());
    }
    println!("{row}");
}

/// Writes a figure with two places behind the point below 1, with one below 10 and with
/// none from there on.
pub fn number(figure: f64) -> String {
    if figure < 0.995 {
        format!("{figure:.2}")
    } else if figure < 9.95 {
        format!("{figure:.1}")
    } else {
        with_commas(figure.round() as usize)
    }
}

/// Writes a number with commas.
pub fn with_commas(number: usize) -> String {
    match number {
        0..1_000 => number.to_string(),
        _ => format!("{},{:03}", with_commas(number / 1_000), number % 1_000),
    }
}
