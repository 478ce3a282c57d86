//! Published vectors. Red Pike has none that we know of: it is compared with the plain cipher alone.

use super::{named, Cipher};

pub struct Vector {
    pub cipher: &'static str,
    pub source: &'static str,
    pub key: Vec<u64>,
    pub text: Vec<u64>,
    pub sealed: Vec<u64>,
}

impl Vector {
    pub fn cipher(&self) -> Cipher {
        named(self.cipher)
    }
}

pub fn vectors() -> Vec<Vector> {
    [tea(), rc5(), speck128(), aes128()].into_iter().flatten().collect()
}

fn vector(cipher: &'static str, source: &'static str, [key, text, sealed]: [&[u64]; 3]) -> Vector {
    Vector { cipher, source, key: key.to_vec(), text: text.to_vec(), sealed: sealed.to_vec() }
}

/// The bytes of a run of hexadecimal digits.
fn hex(digits: &str) -> Vec<u64> {
    (0..digits.len() / 2).map(|i| u64::from_str_radix(&digits[2 * i..2 * i + 2], 16).expect("hexadecimal digits")).collect()
}

/// The four that Bouncy Castle tests TEA with; the first is in many places.
pub fn tea() -> Vec<Vector> {
    let zero = [0; 4];
    let key = [0x0123_4567, 0x1234_5678, 0x2345_6789, 0x3456_789A];
    let text = [0x0102_0304, 0x0506_0708];
    let given = |key: &[u64], text: &[u64], sealed: &[u64]| vector("tea", "TEA, Bouncy Castle", [key, text, sealed]);
    vec![
        given(&zero, &[0, 0], &[0x41EA_3A0A, 0x94BA_A940]),
        given(&zero, &text, &[0x6A2F_9CF3, 0xFCCF_3C55]),
        given(&key, &[0, 0], &[0x34E9_43B0, 0x900F_5DCB]),
        given(&key, &text, &[0x773D_C179, 0x878A_81C0]),
    ]
}

/// Rivest's paper, "Examples"; each text is what the one before was sealed to.
pub fn rc5() -> Vec<Vector> {
    let keys = [
        "00000000000000000000000000000000",
        "915F4619BE41B2516355A50110A9CE91",
        "783348E75AEB0F2FD7B169BB8DC16787",
        "DC49DB1375A5584F6485B413B5F12BAF",
        "5269F149D41BA0152497574D7F153125",
    ];
    let texts = [
        [0, 0],
        [0xEEDB_A521, 0x6D8F_4B15],
        [0xAC13_C0F7, 0x5289_2B5B],
        [0xB7B3_422F, 0x92FC_6903],
        [0xB278_C165, 0xCC97_D184],
        [0x15E4_44EB, 0x2498_31DA],
    ];
    (0..keys.len()).map(|i| vector("rc5", "RC5-32/12/16, Rivest 1995", [&hex(keys[i]), &texts[i], &texts[i + 1]])).collect()
}

/// The paper prints the higher word first.
pub fn speck128() -> Vec<Vector> {
    let key = [0x0706_0504_0302_0100, 0x0F0E_0D0C_0B0A_0908];
    let text = [0x7469_2065_6461_6D20, 0x6C61_7669_7571_6520];
    let sealed = [0x7860_FEDF_5C57_0D18, 0xA65D_9851_7978_3265];
    vec![vector("speck128", "Speck128/128, Beaulieu and others 2013", [&key, &text, &sealed])]
}

pub fn aes128() -> Vec<Vector> {
    let given = |source, key, text, sealed| vector("aes128", source, [&hex(key), &hex(text), &hex(sealed)]);
    let modes_key = "2b7e151628aed2a6abf7158809cf4f3c";
    let modes = "AES-128, SP 800-38A F.1.1";
    vec![
        given("AES-128, FIPS 197 B", modes_key, "3243f6a8885a308d313198a2e0370734", "3925841d02dc09fbdc118597196a0b32"),
        given(
            "AES-128, FIPS 197 C.1",
            "000102030405060708090a0b0c0d0e0f",
            "00112233445566778899aabbccddeeff",
            "69c4e0d86a7b0430d8cdb78070b4c55a",
        ),
        given(modes, modes_key, "6bc1bee22e409f96e93d7e117393172a", "3ad77bb40d7a3660a89ecaf32466ef97"),
        given(modes, modes_key, "ae2d8a571e03ac9c9eb76fac45af8e51", "f5d3d58503b9699de785895a96fdbaaf"),
    ]
}
