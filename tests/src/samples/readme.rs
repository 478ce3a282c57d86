//! The text samples/README.md; what its commands print is worked out, not written by hand.

use crate::ciphers::{ciphers, published};
use crate::commands;
use crate::fuzz::Reference;

const KEY: &str = "6b6c6d6e,11223344,55667788,99aabbcc";
const DELAY: u64 = 0x2_49F0;
const LOCK: u64 = 1;

pub fn text() -> String {
    [introduction(), sealed_and_opened(), forgotten(), refused(), images(), streams()].concat()
}

fn image(name: &str) -> Vec<u8> {
    match name {
        "tea" => crate::ciphers::tea().bytes(),
        "doubled" => super::doubled(),
        "forgotten-lock" => super::forgotten_lock(),
        _ => super::empty(),
    }
}

/// A command and what it prints, as a block of Markdown.
fn verdict(name: &str) -> String {
    let printed = commands::verdict(&Reference, &image(name));
    shown(&format!("cargo run -q --release --bin verdict < ../samples/{name}.image"), &printed)
}

fn ran(name: &str, words: [&str; 3]) -> String {
    let printed = commands::run(&Reference, &words, &image(name)).expect("words of a run");
    shown(&format!("cargo run -q --release --bin run {} < ../samples/{name}.image", words.join(" ")), &printed)
}

fn shown(command: &str, printed: &str) -> String {
    let lines: String = printed.lines().map(|line| format!("    {line}\n")).collect();
    format!("    $ {command}\n{lines}\n")
}

fn introduction() -> String {
    "# Samples

Images to check and run. `cargo run --release --bin samples`, in the folder tests, writes this folder anew; a test there compares.

All commands below stand in the folder tests and answer by the Rust reference. With `--features library` behind `--release`
they answer by the proved library, which `tools/staticlib` makes first, and print the same.

"
    .to_string()
}

fn sealed_and_opened() -> String {
    let text = format!("{DELAY:x},{LOCK:x}");
    let lent = format!("{KEY},{text}");
    let sealed = sealed_store();
    let parts = [
        "## Sealing and opening a calibration set\n\n".to_string(),
        format!("A set is a delay word ({DELAY} ps, {DELAY:x} in hexadecimal) and its lock word ({LOCK}: locked). "),
        "They are the text of TEA, behind the four\nwords of the key. First, may the program run at all?\n\n".to_string(),
        verdict("tea"),
        "It may. Sealing is running it forward. The lengths say four cells of key and two of text:\n\n".to_string(),
        ran("tea", ["forward", "4,2", &lent]),
        "The key stands as it was, delay and lock are sealed. Opening is the same image run backwards:\n\n".to_string(),
        ran("tea", ["inverse", "4,2", &sealed]),
        "The set is back, in as many steps. One wrong bit in the key, and what comes back is neither delay nor lock:\n\n".to_string(),
        ran("tea", ["inverse", "4,2", &with_wrong_key(&sealed)]),
    ];
    parts.concat()
}

/// The cells after sealing, with commas.
fn sealed_store() -> String {
    let lent = format!("{KEY},{DELAY:x},{LOCK:x}");
    let printed = commands::run(&Reference, &["forward", "4,2", &lent], &image("tea")).expect("words of a run");
    let store = printed.lines().nth(1).and_then(|line| line.strip_prefix("store ")).expect("a line with the store");
    store.replace(' ', ",")
}

fn with_wrong_key(store: &str) -> String {
    store.replacen("6b6c6d6e", "6b6c6d6f", 1)
}

fn forgotten() -> String {
    [
        "## The lock that forgot itself\n\n",
        "forgotten-lock.image takes the lock word into a secret scratch word, seals the delay with it, seals the lock, and ends\n",
        "without clearing the scratch word. Its form breaks no rule:\n\n",
        &verdict("forgotten-lock"),
        "But on a locked set the run ends with 27 at the block, node 0, and the store stays as it was:\n\n",
        &ran("forgotten-lock", ["forward", "2,2", "a5a5a5a5,5a5a5a5a,249f0,1"]),
        "A trainee who tries it with a lock that is clear notices nothing:\n\n",
        &ran("forgotten-lock", ["forward", "2,2", "a5a5a5a5,5a5a5a5a,249f0,0"]),
    ]
    .concat()
}

fn refused() -> String {
    [
        "## Refused before any run\n\n",
        "doubled.image says `x += x`. Its inverse `x -= x` would forget x, so it is a root clash, 11 at the update:\n\n",
        &verdict("doubled"),
        "empty.image is document 01's smallest image, 40 bytes: one procedure whose body is the empty statement. It has neither\n",
        "lengths nor store:\n\n",
        &verdict("empty"),
        &ran("empty", ["forward", "-", "-"]),
    ]
    .concat()
}

fn images() -> String {
    let mut text = "## The ciphers\n\nParameters are key, text, then tables; all are secret arrays.\n\n".to_string();
    text.push_str("| Image | Bytes | Lengths | Published vectors |\n|---|---|---|---|\n");
    for cipher in ciphers() {
        let lengths: Vec<String> = cipher.lengths().iter().map(u64::to_string).collect();
        let mut sources: Vec<&str> = published::vectors().iter().filter(|v| v.cipher == cipher.name).map(|v| v.source).collect();
        sources.dedup();
        let sources = if sources.is_empty() { "none that we know of".to_string() } else { sources.join("; ") };
        text.push_str(&format!("| {}.image | {} | {} | {sources} |\n", cipher.name, cipher.image().len(), lengths.join(",")));
    }
    text.push_str(
        "
rc5.image takes its 26 round keys, since RC5's key expansion cannot be run backwards. aes128.image takes the S-box, its inverse
and the products with 03, 0e, 0b, 0d and 09, and looks secret bytes up in them by unsafe elements: demand 3 does not speak of it.
The others make their round keys on the way and take them back.

",
    );
    text
}

fn streams() -> String {
    "## Runs as a stream

The programs crates/ciphers and crates/turns read a stream of runs (their file stdin) and print a line for each (stdout): published
vectors of these ciphers, and the turns of document 01 that are not starred with runs that meet every answer, in both directions.
`cargo run --release --bin streams` writes the four files anew: stores of the ciphers are worked out by plain ciphers, all else by
the Rust reference. Numbers are little-endian. A run is seven numbers of 16 bits, which are the lengths of the image and of its name,
the direction (1 is inverse), how many lengths, cells, work words and trace entries there are; the budget in 64 bits; the name, the
image; lengths and cells of 64 bits each. An image length of 0 ends the stream.
"
    .to_string()
}
