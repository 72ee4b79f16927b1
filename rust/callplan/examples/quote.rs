//! Reads the image in a file and prints its four figures with their walks, or the number that it is
//! refused by: the lines of ./quote.

use std::io::{self, stdout, Write};
use std::{env, fs};

use callplan::{Figure, Quotation};

fn line(name: &str, quotation: &Quotation) -> String {
    let mut line = format!("{name} {}:", quotation.figure());
    for number in quotation.walk() {
        line += &format!(" {number}");
    }
    if let Figure::Endless { j } = quotation.figure() {
        line += &format!(" @{j}");
    }
    line + "\n"
}

fn main() -> io::Result<()> {
    let Some(path) = env::args_os().nth(1) else {
        return Err(io::Error::other("usage: quote FILE"));
    };
    let names = [
        "least delay",
        "greatest delay",
        "least count",
        "greatest count",
    ];
    let text = match callplan::quote(&fs::read(path)?) {
        Ok(quotations) => (names.iter().zip(&quotations))
            .map(|(name, quotation)| line(name, quotation))
            .collect(),
        Err(refusal) => format!("refused {}\n", refusal.number()),
    };
    stdout().write_all(text.as_bytes())
}
