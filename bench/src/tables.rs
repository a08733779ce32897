// Tables in Markdown, and ratios as they stand in them.

use crate::measure::Outcome;

/// Prints the head of a table.
pub fn print_head(names: &[String]) {
    print_row(names);
    println!("|{}", "---|".repeat(names.len()));
}

/// Prints a row of a table.
pub fn print_row(cells: &[String]) {
    println!("| {} |", cells.join(" | "));
}

/// How many times as long a byte takes in one measure as in another, if both were made.
pub fn ratio(long: Outcome, short: Outcome) -> String {
    match (long.measure(), short.measure()) {
        (Some(long), Some(short)) => format!("{:.2}", long.each() / short.each()),
        _ => "not run".to_string(),
    }
}
