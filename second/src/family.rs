//! The six functions of section 4.1 as section 11 instantiates them.

use crate::address::Address;
use crate::hmac::{hmac_sha256, hmac_sha512};
use crate::keccak::shake256;
use crate::mgf1::{mgf1_sha256, mgf1_sha512};
use crate::sets::{Hash, Params, Set};
use crate::sha2::{sha256, sha512};

/// The six functions. `h_msg` answers with m bytes, all others with n bytes. A caller may bring a family of its own.
pub trait Family {
    /// H_msg(R, PK.seed, PK.root, M).
    fn h_msg(&self, p: &Params, r: &[u8], pk_seed: &[u8], pk_root: &[u8], m: &[u8]) -> Vec<u8>;
    /// PRF(PK.seed, SK.seed, ADRS).
    fn prf(&self, p: &Params, pk_seed: &[u8], sk_seed: &[u8], adrs: &Address) -> Vec<u8>;
    /// PRF_msg(SK.prf, opt_rand, M).
    fn prf_msg(&self, p: &Params, sk_prf: &[u8], opt_rand: &[u8], m: &[u8]) -> Vec<u8>;
    /// F(PK.seed, ADRS, M1), M1 of n bytes.
    fn f(&self, p: &Params, pk_seed: &[u8], adrs: &Address, m1: &[u8]) -> Vec<u8>;
    /// H(PK.seed, ADRS, M2), M2 of 2n bytes.
    fn h(&self, p: &Params, pk_seed: &[u8], adrs: &Address, m2: &[u8]) -> Vec<u8>;
    /// T_l(PK.seed, ADRS, Ml), Ml of ln bytes.
    fn t(&self, p: &Params, pk_seed: &[u8], adrs: &Address, ml: &[u8]) -> Vec<u8>;
}

/// Section 11.1.
pub struct Shake;

impl Family for Shake {
    fn h_msg(&self, p: &Params, r: &[u8], pk_seed: &[u8], pk_root: &[u8], m: &[u8]) -> Vec<u8> {
        shake256(&[r, pk_seed, pk_root, m].concat(), p.m)
    }

    fn prf(&self, p: &Params, pk_seed: &[u8], sk_seed: &[u8], adrs: &Address) -> Vec<u8> {
        shake256(&[pk_seed, adrs.bytes(), sk_seed].concat(), p.n)
    }

    fn prf_msg(&self, p: &Params, sk_prf: &[u8], opt_rand: &[u8], m: &[u8]) -> Vec<u8> {
        shake256(&[sk_prf, opt_rand, m].concat(), p.n)
    }

    fn f(&self, p: &Params, pk_seed: &[u8], adrs: &Address, m1: &[u8]) -> Vec<u8> {
        shake256(&[pk_seed, adrs.bytes(), m1].concat(), p.n)
    }

    fn h(&self, p: &Params, pk_seed: &[u8], adrs: &Address, m2: &[u8]) -> Vec<u8> {
        shake256(&[pk_seed, adrs.bytes(), m2].concat(), p.n)
    }

    fn t(&self, p: &Params, pk_seed: &[u8], adrs: &Address, ml: &[u8]) -> Vec<u8> {
        shake256(&[pk_seed, adrs.bytes(), ml].concat(), p.n)
    }
}

/// Section 11.2.1: SHA-256 throughout.
pub struct Sha2Category1;

impl Family for Sha2Category1 {
    fn h_msg(&self, p: &Params, r: &[u8], pk_seed: &[u8], pk_root: &[u8], m: &[u8]) -> Vec<u8> {
        let inner = sha256(&[r, pk_seed, pk_root, m].concat());
        mgf1_sha256(&[r, pk_seed, &inner].concat(), p.m)
    }

    fn prf(&self, p: &Params, pk_seed: &[u8], sk_seed: &[u8], adrs: &Address) -> Vec<u8> {
        trunc_sha256(p.n, pk_seed, adrs, sk_seed)
    }

    fn prf_msg(&self, p: &Params, sk_prf: &[u8], opt_rand: &[u8], m: &[u8]) -> Vec<u8> {
        trunc(p.n, hmac_sha256(sk_prf, &[opt_rand, m].concat()))
    }

    fn f(&self, p: &Params, pk_seed: &[u8], adrs: &Address, m1: &[u8]) -> Vec<u8> {
        trunc_sha256(p.n, pk_seed, adrs, m1)
    }

    fn h(&self, p: &Params, pk_seed: &[u8], adrs: &Address, m2: &[u8]) -> Vec<u8> {
        trunc_sha256(p.n, pk_seed, adrs, m2)
    }

    fn t(&self, p: &Params, pk_seed: &[u8], adrs: &Address, ml: &[u8]) -> Vec<u8> {
        trunc_sha256(p.n, pk_seed, adrs, ml)
    }
}

/// Section 11.2.2: SHA-512 for the message functions, H and T; SHA-256 for F and PRF.
pub struct Sha2Categories3And5;

impl Family for Sha2Categories3And5 {
    fn h_msg(&self, p: &Params, r: &[u8], pk_seed: &[u8], pk_root: &[u8], m: &[u8]) -> Vec<u8> {
        let inner = sha512(&[r, pk_seed, pk_root, m].concat());
        mgf1_sha512(&[r, pk_seed, &inner].concat(), p.m)
    }

    fn prf(&self, p: &Params, pk_seed: &[u8], sk_seed: &[u8], adrs: &Address) -> Vec<u8> {
        trunc_sha256(p.n, pk_seed, adrs, sk_seed)
    }

    fn prf_msg(&self, p: &Params, sk_prf: &[u8], opt_rand: &[u8], m: &[u8]) -> Vec<u8> {
        trunc(p.n, hmac_sha512(sk_prf, &[opt_rand, m].concat()))
    }

    fn f(&self, p: &Params, pk_seed: &[u8], adrs: &Address, m1: &[u8]) -> Vec<u8> {
        trunc_sha256(p.n, pk_seed, adrs, m1)
    }

    fn h(&self, p: &Params, pk_seed: &[u8], adrs: &Address, m2: &[u8]) -> Vec<u8> {
        trunc_sha512(p.n, pk_seed, adrs, m2)
    }

    fn t(&self, p: &Params, pk_seed: &[u8], adrs: &Address, ml: &[u8]) -> Vec<u8> {
        trunc_sha512(p.n, pk_seed, adrs, ml)
    }
}

/// The family of a set: n = 16 stands for category 1 (section 11).
pub fn family_of(set: &Set) -> &'static dyn Family {
    match (set.hash, set.params.n) {
        (Hash::Shake, _) => &Shake,
        (Hash::Sha2, 16) => &Sha2Category1,
        (Hash::Sha2, _) => &Sha2Categories3And5,
    }
}

/// Trunc_n: the leftmost n bytes.
fn trunc(n: usize, mut x: Vec<u8>) -> Vec<u8> {
    x.truncate(n);
    x
}

/// Trunc_n(SHA-256(PK.seed || toByte(0, 64 - n) || ADRSc || M)): the seed fills one block of the hash.
fn trunc_sha256(n: usize, pk_seed: &[u8], adrs: &Address, m: &[u8]) -> Vec<u8> {
    let zeros = &[0u8; 64][n.min(64)..];
    trunc(n, sha256(&[pk_seed, zeros, &adrs.compressed(), m].concat()))
}

/// Trunc_n(SHA-512(PK.seed || toByte(0, 128 - n) || ADRSc || M)): the seed fills one block of the hash.
fn trunc_sha512(n: usize, pk_seed: &[u8], adrs: &Address, m: &[u8]) -> Vec<u8> {
    let zeros = &[0u8; 128][n.min(128)..];
    trunc(n, sha512(&[pk_seed, zeros, &adrs.compressed(), m].concat()))
}
