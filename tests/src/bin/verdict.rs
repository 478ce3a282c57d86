//! Reads an image on standard input and prints `verdict`, number, place: by the static library where it is linked.

use bench_tests::commands::{answering, verdict};
use std::io::Read;

fn main() -> std::io::Result<()> {
    let mut image = Vec::new();
    std::io::stdin().read_to_end(&mut image)?;
    print!("{}", verdict(answering(), &image));
    Ok(())
}
