//! The second program as a printing program, and its tuned variant: a sheet as text in, its table out.

use crate::second::sheet::Sheet;
use crate::second::text;
use crate::tuned;
use crate::tuned_text;
use std::io::{self, Read, Write};

/// What the second program, or its tuned variant, prints for standard input.
pub fn print(by_tuned: bool) -> io::Result<()> {
    let mut input = Vec::new();
    io::stdin().read_to_end(&mut input)?;
    let output = if by_tuned { tuned_print(&input) } else { text::print(&input) };
    io::stdout().write_all(&output)
}

/// A table by the tuned maker; every refusal is left to the second program.
fn tuned_print(input: &[u8]) -> Vec<u8> {
    let sheet = text::numbers_in(input).and_then(|numbers| Sheet::of_numbers(&numbers));
    match sheet.filter(|sheet| sheet.lowest_bad_job().is_none()).and_then(|s| tuned::make(&s)) {
        Some(file) => tuned_text::lines(&file),
        None => text::print(input),
    }
}
