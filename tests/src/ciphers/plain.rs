//! Plain Rust ciphers from their public descriptions. Keys and texts are lists of words, one to a cell.

pub mod aes128;
pub mod rc5;
pub mod red_pike;
pub mod speck128;
pub mod tea;

fn words32<const N: usize>(list: &[u64]) -> [u32; N] {
    std::array::from_fn(|i| u32::try_from(list[i]).expect("a word of 32 bits"))
}

fn bytes<const N: usize>(list: &[u64]) -> [u8; N] {
    std::array::from_fn(|i| u8::try_from(list[i]).expect("a byte"))
}

fn cells<T: Copy + Into<u64>>(list: &[T]) -> Vec<u64> {
    list.iter().map(|word| (*word).into()).collect()
}
