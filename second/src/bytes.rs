//! The functions by set number, bytes in and bytes out.
//!
//! Work that is to be logged goes through `Scheme::of_set`, whose methods take the log, and `plain_frame` or
//! `pre_hash_frame`. Wrong lengths are `Err` everywhere, a wrong seal length too; see `Scheme::check_internal`.

use crate::calls::{Call, Log};
use crate::error::Error;
use crate::external::{self, PreHash};
use crate::internal::Place;
use crate::scheme::{Scheme, Verdict};

/// A key pair from its three seeds: (public key, secret key).
pub fn keygen(set: u32, sk_seed: &[u8], sk_prf: &[u8], pk_seed: &[u8]) -> Result<(Vec<u8>, Vec<u8>), Error> {
    Scheme::of_set(set)?.keygen(&mut Log::counting(), sk_seed, sk_prf, pk_seed)
}

/// The seal of an already framed message. No `addrnd` is the deterministic variant.
pub fn sign_internal(set: u32, framed: &[u8], secret_key: &[u8], addrnd: Option<&[u8]>) -> Result<Vec<u8>, Error> {
    Scheme::of_set(set)?.sign_internal(&mut Log::counting(), framed, secret_key, addrnd)
}

/// The seal of an already framed message with this randomizer R in place of the derived one.
pub fn sign_with_randomizer(set: u32, framed: &[u8], secret_key: &[u8], r: &[u8]) -> Result<Vec<u8>, Error> {
    Scheme::of_set(set)?.sign_with_randomizer(&mut Log::counting(), framed, secret_key, r)
}

/// Whether the seal of an already framed message is valid.
pub fn verify_internal(set: u32, framed: &[u8], seal: &[u8], public_key: &[u8]) -> Result<bool, Error> {
    Ok(check_internal(set, framed, seal, public_key)?.accepted)
}

/// `verify_internal` with the number of calls made.
pub fn check_internal(set: u32, framed: &[u8], seal: &[u8], public_key: &[u8]) -> Result<Verdict, Error> {
    Scheme::of_set(set)?.check_internal(&mut Log::counting(), framed, seal, public_key)
}

/// `check_internal` with the whole list of calls, in the order made.
pub fn check_internal_with_calls(
    set: u32,
    framed: &[u8],
    seal: &[u8],
    public_key: &[u8],
) -> Result<(Verdict, Vec<Call>), Error> {
    let mut log = Log::recording();
    let verdict = Scheme::of_set(set)?.check_internal(&mut log, framed, seal, public_key)?;
    Ok((verdict, log.into_calls()))
}

/// The seal of a message in the plain frame with a context of 0 to 255 bytes.
pub fn sign(
    set: u32,
    message: &[u8],
    context: &[u8],
    secret_key: &[u8],
    addrnd: Option<&[u8]>,
) -> Result<Vec<u8>, Error> {
    external::slh_sign(&Scheme::of_set(set)?, message, context, secret_key, addrnd)
}

/// Whether the seal of a message in the plain frame is valid.
pub fn verify(set: u32, message: &[u8], seal: &[u8], context: &[u8], public_key: &[u8]) -> Result<bool, Error> {
    Ok(check(set, message, seal, context, public_key)?.accepted)
}

/// `verify` with the number of calls made.
pub fn check(set: u32, message: &[u8], seal: &[u8], context: &[u8], public_key: &[u8]) -> Result<Verdict, Error> {
    external::slh_verify(&Scheme::of_set(set)?, message, seal, context, public_key)
}

/// The seal of a message in the pre-hash frame. Who has only a digest uses `pre_hash_frame` and `sign_internal`.
pub fn hash_sign(
    set: u32,
    message: &[u8],
    context: &[u8],
    ph: PreHash,
    secret_key: &[u8],
    addrnd: Option<&[u8]>,
) -> Result<Vec<u8>, Error> {
    external::hash_slh_sign(&Scheme::of_set(set)?, message, context, ph, secret_key, addrnd)
}

/// Whether the seal of a message in the pre-hash frame is valid.
pub fn hash_verify(
    set: u32,
    message: &[u8],
    seal: &[u8],
    context: &[u8],
    ph: PreHash,
    public_key: &[u8],
) -> Result<bool, Error> {
    Ok(hash_check(set, message, seal, context, ph, public_key)?.accepted)
}

/// `hash_verify` with the number of calls made.
pub fn hash_check(
    set: u32,
    message: &[u8],
    seal: &[u8],
    context: &[u8],
    ph: PreHash,
    public_key: &[u8],
) -> Result<Verdict, Error> {
    external::hash_slh_verify(&Scheme::of_set(set)?, message, seal, context, ph, public_key)
}

/// The 2n + 3 chain digits of an n-byte value.
pub fn chain_digits(set: u32, value: &[u8]) -> Result<Vec<u32>, Error> {
    Scheme::of_set(set)?.chain_digits(value)
}

/// What an m-byte message digest chooses: the forest's bytes, the tree and the leaf.
pub fn place(set: u32, digest: &[u8]) -> Result<Place, Error> {
    Scheme::of_set(set)?.place(digest)
}

/// (start, length) of every part of a seal: part 0 is R, 1 the forest, 2 + j layer j.
pub fn seal_parts(set: u32) -> Result<Vec<(usize, usize)>, Error> {
    Ok(Scheme::of_set(set)?.seal_parts())
}

/// (start, length) of one part of a seal.
pub fn seal_part(set: u32, part: usize) -> Result<(usize, usize), Error> {
    seal_parts(set)?.get(part).copied().ok_or(Error::NoSuchPart)
}
