//! Writes the images of the folder samples/ and its README.md.

use bench_tests::samples::{files, folder, write};

fn main() -> std::io::Result<()> {
    write(folder(), &files())
}
