//! The files of the folder samples/: images, and a text that says what each of them shows.

mod readme;

use crate::ciphers::ciphers;
use crate::image::Operator::Add;
use crate::image::*;
use std::path::PathBuf;

pub type File = (String, Vec<u8>);

pub fn folder() -> PathBuf {
    PathBuf::from(concat!(env!("CARGO_MANIFEST_DIR"), "/../samples"))
}

/// Writes files into a folder.
pub fn write(folder: PathBuf, files: &[File]) -> std::io::Result<()> {
    std::fs::create_dir_all(&folder)?;
    for (name, bytes) in files {
        std::fs::write(folder.join(name), bytes)?;
    }
    Ok(())
}

pub fn files() -> Vec<File> {
    let mut files: Vec<File> = ciphers().iter().map(|cipher| (format!("{}.image", cipher.name), cipher.image())).collect();
    files.push(("empty.image".to_string(), empty()));
    files.push(("doubled.image".to_string(), doubled()));
    files.push(("forgotten-lock.image".to_string(), forgotten_lock()));
    files.push(("README.md".to_string(), readme::text().into_bytes()));
    files
}

/// Document 01's 40 bytes.
fn empty() -> Vec<u8> {
    single(&[], &[], Stmt::Empty).bytes()
}

/// `x += x`, which nothing could undo.
fn doubled() -> Vec<u8> {
    single(&[public(64)], &[], add(var(0), var(0))).bytes()
}

/// Secret u32 key[2] and set[2], a delay word and its lock word. The scratch word takes the lock to seal the delay with, and is
/// never cleared.
fn forgotten_lock() -> Vec<u8> {
    const KEY: u16 = 0;
    const SET: u16 = 1;
    const SCRATCH: u16 = 2;
    let xor = |target: LValue, value: Expr| update(Change::Xor, target, value);
    let body = vec![add(var(SCRATCH), at(SET, 1)), xor(at(SET, 0), bin(Add, at(KEY, 0), var(SCRATCH))), xor(at(SET, 1), at(KEY, 1).into())];
    single(&[secret_array(32, 0), secret_array(32, 0)], &[secret(32)], block(SCRATCH, 1, body)).bytes()
}

#[cfg(test)]
mod tests {
    use super::*;
    use crate::reference::check;

    #[test]
    fn the_folder_holds_what_the_program_writes() {
        let expected = files();
        for (name, bytes) in &expected {
            let found = std::fs::read(folder().join(name)).unwrap_or_default();
            assert!(found == *bytes, "samples/{name} is not what the program samples writes");
        }
        let count = std::fs::read_dir(folder()).unwrap().count();
        assert_eq!(count, expected.len(), "samples/ holds a file that the program does not write");
    }

    #[test]
    fn verdicts() {
        assert_eq!(empty().len(), 40);
        assert_eq!(check(&empty()), (0, 0));
        assert_eq!(check(&doubled()), (11, 0));
        assert_eq!(check(&forgotten_lock()), (0, 0));
    }
}
