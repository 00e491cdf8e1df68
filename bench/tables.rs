//! The tables as the program prints them: in Markdown, between the marks by which `bench/run --write` finds them in
//! docs/BENCHMARKS.md.

/// The cells of a row, each by its own format.
#[macro_export]
macro_rules! row {
    ($($cell:literal),+ $(,)?) => { vec![$(format!($cell)),+] };
}

pub fn print_table(name: &str, head: &[&str], rows: impl IntoIterator<Item = Vec<String>>) {
    println!("<!-- bench/run: {name} -->");
    println!("| {} |", head.join(" | "));
    println!("|{}", "---|".repeat(head.len()));
    for row in rows {
        println!("| {} |", row.join(" | "));
    }
    println!("<!-- -->\n");
}
