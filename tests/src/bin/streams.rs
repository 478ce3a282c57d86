//! Writes what the programs crates/ciphers and crates/turns read, and what they have to print.

use bench_tests::samples::write;
use bench_tests::streams::{files, folder};

fn main() -> std::io::Result<()> {
    write(folder(), &files())
}
