//! Runs of TEA, whose steps and places are counted by hand.

use super::{ran, RunCase};

fn tea() -> Vec<u8> {
    crate::ciphers::tea().bytes()
}

pub fn runs() -> Vec<RunCase> {
    let plain = [0; 6];
    let cipher = [0, 0, 0, 0, 0x41EA_3A0A, 0x94BA_A940];
    vec![
        ran("tea: zero key, zero text", tea(), &[4, 2], &plain).gives(&cipher).steps(166),
        ran("tea: its inverse", tea(), &[4, 2], &cipher).inverse().gives(&plain).steps(166),
        ran("tea: text of length 1", tea(), &[4, 1], &plain[..5]).refused(24, 7).steps(3),
        ran("tea: budget one short", tea(), &[4, 2], &plain).budget(165).refused(23, 58),
    ]
}
