//! The frames and the external functions (FIPS 205, section 10).
//!
//! Algorithm 21 only draws the three seeds and calls algorithm 18. This library draws nothing, so `Scheme::keygen` with
//! given seeds is all there is of it; likewise `addrnd` is given, or left out for the deterministic variant.

use crate::calls::Log;
use crate::error::Error;
use crate::keccak::{shake128, shake256};
use crate::scheme::{Scheme, Verdict};
use crate::sha2::{sha256, sha512};

/// A pre-hash function of algorithm 23.
#[derive(Clone, Copy, Debug, PartialEq, Eq)]
pub enum PreHash {
    /// SHA-256, 32 bytes.
    Sha256,
    /// SHA-512, 64 bytes.
    Sha512,
    /// SHAKE128, 32 bytes.
    Shake128,
    /// SHAKE256, 64 bytes.
    Shake256,
}

impl PreHash {
    /// All four, in the order of algorithm 23.
    pub const ALL: [PreHash; 4] = [PreHash::Sha256, PreHash::Sha512, PreHash::Shake128, PreHash::Shake256];

    /// The object identifier in its distinguished encoding, tag and length included (algorithm 23).
    pub fn oid(self) -> [u8; 11] {
        let last = match self {
            PreHash::Sha256 => 0x01,
            PreHash::Sha512 => 0x03,
            PreHash::Shake128 => 0x0b,
            PreHash::Shake256 => 0x0c,
        };
        [0x06, 0x09, 0x60, 0x86, 0x48, 0x01, 0x65, 0x03, 0x04, 0x02, last]
    }

    /// PH_M, the digest of a message.
    pub fn digest(self, m: &[u8]) -> Vec<u8> {
        match self {
            PreHash::Sha256 => sha256(m),
            PreHash::Sha512 => sha512(m),
            PreHash::Shake128 => shake128(m, 32),
            PreHash::Shake256 => shake256(m, 64),
        }
    }

    /// Bytes of a digest.
    pub fn digest_length(self) -> usize {
        match self {
            PreHash::Sha256 | PreHash::Shake128 => 32,
            PreHash::Sha512 | PreHash::Shake256 => 64,
        }
    }

    /// Whether the digest has the 2n bytes that 8n bits of strength ask for (section 10.2, footnote 18). For the twelve
    /// sets this is section 10.2.2's rule: SHA-256 and SHAKE128 only in category 1.
    pub fn strong_enough(self, n: usize) -> bool {
        self.digest_length() >= 2 * n
    }
}

/// M' of algorithms 22 and 24: toByte(0, 1) || toByte(|ctx|, 1) || ctx || M.
pub fn plain_frame(m: &[u8], ctx: &[u8]) -> Result<Vec<u8>, Error> {
    let length = context_length(ctx)?;
    Ok([&[0, length], ctx, m].concat())
}

/// M' of algorithms 23 and 25, from the digest PH_M: toByte(1, 1) || toByte(|ctx|, 1) || ctx || OID || PH_M.
pub fn pre_hash_frame(ph_m: &[u8], ctx: &[u8], ph: PreHash) -> Result<Vec<u8>, Error> {
    let length = context_length(ctx)?;
    if ph_m.len() != ph.digest_length() {
        return Err(Error::DigestLength);
    }
    Ok([&[1, length], ctx, &ph.oid(), ph_m].concat())
}

/// Algorithm 22, slh_sign(M, ctx, SK).
pub(crate) fn slh_sign(
    scheme: &Scheme,
    m: &[u8],
    ctx: &[u8],
    sk: &[u8],
    addrnd: Option<&[u8]>,
) -> Result<Vec<u8>, Error> {
    scheme.sign_internal(&mut Log::counting(), &plain_frame(m, ctx)?, sk, addrnd)
}

/// Algorithm 23, hash_slh_sign(M, ctx, PH, SK).
pub(crate) fn hash_slh_sign(
    scheme: &Scheme,
    m: &[u8],
    ctx: &[u8],
    ph: PreHash,
    sk: &[u8],
    addrnd: Option<&[u8]>,
) -> Result<Vec<u8>, Error> {
    let framed = hashed_and_framed(scheme, m, ctx, ph)?;
    scheme.sign_internal(&mut Log::counting(), &framed, sk, addrnd)
}

/// Algorithm 24, slh_verify(M, SIG, ctx, PK).
pub(crate) fn slh_verify(scheme: &Scheme, m: &[u8], sig: &[u8], ctx: &[u8], pk: &[u8]) -> Result<Verdict, Error> {
    scheme.check_internal(&mut Log::counting(), &plain_frame(m, ctx)?, sig, pk)
}

/// Algorithm 25, hash_slh_verify(M, SIG, ctx, PH, PK).
pub(crate) fn hash_slh_verify(
    scheme: &Scheme,
    m: &[u8],
    sig: &[u8],
    ctx: &[u8],
    ph: PreHash,
    pk: &[u8],
) -> Result<Verdict, Error> {
    let framed = hashed_and_framed(scheme, m, ctx, ph)?;
    scheme.check_internal(&mut Log::counting(), &framed, sig, pk)
}

/// Lines 8 to 24 of algorithm 23. The algorithm itself does not look at the strength; section 10.2.2 forbids a weak
/// hash.
fn hashed_and_framed(scheme: &Scheme, m: &[u8], ctx: &[u8], ph: PreHash) -> Result<Vec<u8>, Error> {
    if !ph.strong_enough(scheme.params().n) {
        return Err(Error::HashTooWeak);
    }
    pre_hash_frame(&ph.digest(m), ctx, ph)
}

/// Lines 1 to 3 of algorithms 22 to 25; the length fits one byte.
fn context_length(ctx: &[u8]) -> Result<u8, Error> {
    u8::try_from(ctx.len()).map_err(|_| Error::ContextLength)
}
