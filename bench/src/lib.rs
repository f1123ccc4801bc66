//! The proved hash, from the static library of `crates/bench_hash`, behind safe signatures.

#![warn(missing_docs)]

/// The state of the permutation: lane (x, y) is at 5y + x (FIPS 202, 3.1.2).
pub type Lanes = [u64; 25];

extern "C" {
    fn skimdral_permute(lanes: *mut Lanes);
    // Rattle passes a slice as its first byte's address, then its length.
    fn skimdral_shake256(message: *const u8, message_length: usize, out: *mut u8, out_length: usize);
}

/// `KECCAK-f[1600]`, in place.
pub fn permute(lanes: &mut Lanes) {
    // SAFETY: the pointer is to 25 lanes that nobody else holds; the function changes these and keeps no pointer.
    unsafe { skimdral_permute(lanes) }
}

/// SHAKE256 of the message fills `out`.
pub fn shake256(message: &[u8], out: &mut [u8]) {
    // SAFETY: each pointer is to as many bytes as the length after it says, and nobody else holds those of `out`. The
    // function is proved to stay within both, writes to `out` alone and keeps no pointer.
    unsafe { skimdral_shake256(message.as_ptr(), message.len(), out.as_mut_ptr(), out.len()) }
}
