//! The exported functions of the proved library as they are: lent slices, and answers as numbers.
//!
//! They have no demands on their arguments, so these signatures are safe. Most programs want the functions of the
//! crate's root, which make the outputs themselves.

// The order and types of `crates/face_c`; `include/skimdral.h` says the same to C. Rattle takes a slice as its first
// element's address and then its length.
extern "C" {
    fn skimdral_make_keys(
        set: u32,
        secret_seed: *const u8,
        secret_seed_length: usize,
        prf_seed: *const u8,
        prf_seed_length: usize,
        public_seed: *const u8,
        public_seed_length: usize,
        public_key: *mut u8,
        public_key_length: usize,
        secret_key: *mut u8,
        secret_key_length: usize,
    ) -> u32;
    fn skimdral_seal(
        set: u32,
        secret_key: *const u8,
        secret_key_length: usize,
        message: *const u8,
        message_length: usize,
        random: *const u8,
        random_length: usize,
        seal: *mut u8,
        seal_length: usize,
    ) -> u32;
    fn skimdral_check(
        set: u32,
        public_key: *const u8,
        public_key_length: usize,
        message: *const u8,
        message_length: usize,
        seal: *const u8,
        seal_length: usize,
        f_calls: *mut u32,
    ) -> u32;
    fn skimdral_part(
        set: u32,
        seal: *const u8,
        seal_length: usize,
        number: u32,
        start: *mut usize,
        length: *mut usize,
    ) -> u32;
    fn skimdral_digits(set: u32, value: *const u8, value_length: usize, digits: *mut u32, digits_length: usize) -> u32;
}

// SAFETY of every call below: each pointer is to as many elements as the length after it says, or to the one number
// lent, and nobody else holds what is lent to be written. The functions are proved to stay within what they are lent,
// to write to the outputs alone, and to keep no pointer.

/// Key making. On a refusal both outputs keep their bytes.
pub fn make_keys(
    set: u32,
    secret_seed: &[u8],
    prf_seed: &[u8],
    public_seed: &[u8],
    public_key: &mut [u8],
    secret_key: &mut [u8],
) -> u32 {
    unsafe {
        skimdral_make_keys(
            set,
            secret_seed.as_ptr(),
            secret_seed.len(),
            prf_seed.as_ptr(),
            prf_seed.len(),
            public_seed.as_ptr(),
            public_seed.len(),
            public_key.as_mut_ptr(),
            public_key.len(),
            secret_key.as_mut_ptr(),
            secret_key.len(),
        )
    }
}

/// Sealing. On a refusal the output keeps its bytes.
pub fn seal(set: u32, secret_key: &[u8], message: &[u8], random: &[u8], seal: &mut [u8]) -> u32 {
    unsafe {
        skimdral_seal(
            set,
            secret_key.as_ptr(),
            secret_key.len(),
            message.as_ptr(),
            message.len(),
            random.as_ptr(),
            random.len(),
            seal.as_mut_ptr(),
            seal.len(),
        )
    }
}

/// Checking. The number of F calls is 0 with answers 1 to 4.
pub fn check(set: u32, public_key: &[u8], message: &[u8], seal: &[u8], f_calls: &mut u32) -> u32 {
    unsafe {
        skimdral_check(
            set,
            public_key.as_ptr(),
            public_key.len(),
            message.as_ptr(),
            message.len(),
            seal.as_ptr(),
            seal.len(),
            f_calls,
        )
    }
}

/// Where a part lies in the seal; start and length are 0 on a refusal.
pub fn part(set: u32, seal: &[u8], number: u32, start: &mut usize, length: &mut usize) -> u32 {
    unsafe { skimdral_part(set, seal.as_ptr(), seal.len(), number, start, length) }
}

/// The chain digits of a value. On a refusal the list keeps its numbers.
pub fn digits(set: u32, value: &[u8], digits: &mut [u32]) -> u32 {
    unsafe { skimdral_digits(set, value.as_ptr(), value.len(), digits.as_mut_ptr(), digits.len()) }
}
