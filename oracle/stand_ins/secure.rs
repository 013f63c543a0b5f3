//! types.rs encrypts a key change through this; no parser does.
pub fn encrypt_des_block(_: &[u8; 8], _: &[u8; 8]) -> [u8; 8] {
    unreachable!("no parser encrypts")
}
