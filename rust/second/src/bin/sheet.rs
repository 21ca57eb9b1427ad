//! Reads a task text from standard input and prints its report, or the refusal.

use std::io::{Read, Write};

fn main() -> std::io::Result<()> {
    let mut text = Vec::new();
    std::io::stdin().read_to_end(&mut text)?;
    let mut out = std::io::stdout();
    match second::admit(&text, second::WORK_MIN) {
        Ok(task) => {
            let figures = second::figures::figures(&task, second::Price::BLOCKS);
            let sheet = second::sheet::print(&task, &figures);
            out.write_all(sheet.as_bytes())
        }
        Err(refusal) => writeln!(out, "{refusal}"),
    }
}
