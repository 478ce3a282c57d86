//! `run forward|inverse LENGTHS STORE`: runs the image on standard input, by the static library where it is linked.

use bench_tests::commands::{answering, run};
use std::io::Read;

fn main() -> std::io::Result<()> {
    let words: Vec<String> = std::env::args().skip(1).collect();
    let words: Vec<&str> = words.iter().map(String::as_str).collect();
    let mut image = Vec::new();
    std::io::stdin().read_to_end(&mut image)?;
    match run(answering(), &words, &image) {
        Some(lines) => print!("{lines}"),
        None => {
            eprintln!("usage: run forward|inverse LENGTHS STORE < IMAGE");
            eprintln!("lists have commas, `-` is an empty one; lengths are decimal, cells hexadecimal");
            std::process::exit(2);
        }
    }
    Ok(())
}
