//! The ciphers as Hermes programs, after source document 000, appendix B. Parameters: key, text, tables, all secret arrays.

mod aes128;
mod rc5;
mod red_pike;
mod speck128;
mod tea;

pub use aes128::aes128;
pub use rc5::rc5;
pub use red_pike::red_pike;
pub use speck128::speck128;
pub use tea::tea;

use crate::image::*;

fn sub(target: LValue, value: impl Into<Expr>) -> Stmt {
    update(Change::Sub, target, value)
}

fn xor(target: LValue, value: impl Into<Expr>) -> Stmt {
    update(Change::Xor, target, value)
}

fn rotate_left(target: LValue, value: impl Into<Expr>) -> Stmt {
    update(Change::RotateLeft, target, value)
}

fn rotate_right(target: LValue, value: impl Into<Expr>) -> Stmt {
    update(Change::RotateRight, target, value)
}

/// `for (counter = first; second) { body counter += step; }`
fn counting(counter: u16, first: u64, second: impl Into<Expr>, step: u64, mut body: Vec<Stmt>) -> Stmt {
    body.push(add(var(counter), step));
    for_loop(counter, first, second, list(body))
}
