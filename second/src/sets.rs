//! The parameter sets (FIPS 205, section 11, table 2).

use crate::digits::gen_len2;
use crate::error::Error;

/// Bits of a chain digit; 4 in all parameter sets, so chains have w = 16 positions (equation 5.1).
pub const LG_W: u32 = 4;
/// Positions of a chain (equation 5.1).
pub const W: u32 = 1 << LG_W;

/// The numbers all algorithms are written over. The twelve rows of the standard stand in `SETS`; a caller may bring a
/// row of its own, which `check` must accept.
#[derive(Clone, Copy, Debug, PartialEq, Eq)]
pub struct Params {
    /// Bytes of a hash value.
    pub n: usize,
    /// Height of the hypertree.
    pub h: usize,
    /// Layers of the hypertree.
    pub d: usize,
    /// Height of one tree of the hypertree, the standard's h'.
    pub hp: usize,
    /// Height of a forest tree.
    pub a: usize,
    /// Trees of the forest.
    pub k: usize,
    /// Bytes of the message digest.
    pub m: usize,
    /// Checksum digits of a chain value. `new` takes the standard's number (algorithm 1): 3 from n = 9 on and 2 below.
    /// A row with a small n may set 3 here, to have 2n + 3 chains as the real sets do.
    pub len2: usize,
}

impl Params {
    /// A row with the standard's number of checksum digits.
    pub const fn new(n: usize, h: usize, d: usize, hp: usize, a: usize, k: usize, m: usize) -> Params {
        let len2 = gen_len2(n, LG_W);
        Params { n, h, d, hp, a, k, m, len2 }
    }

    /// Digits of the value itself (equation 5.2).
    pub(crate) fn len1(&self) -> usize {
        (8 * self.n).div_ceil(LG_W as usize)
    }

    /// Chains of a one-time key, the standard's len (equation 5.4).
    pub(crate) fn chains(&self) -> usize {
        self.len1() + self.len2
    }

    /// Bytes of a secret key (figure 15).
    pub(crate) fn secret_key_length(&self) -> usize {
        4 * self.n
    }

    /// Bytes of a public key (figure 16).
    pub(crate) fn public_key_length(&self) -> usize {
        2 * self.n
    }

    /// Bytes of the forest part of a seal (figure 14).
    pub(crate) fn forest_length(&self) -> usize {
        self.k * (1 + self.a) * self.n
    }

    /// Bytes of one layer of a seal, chain values and path (figure 11).
    pub(crate) fn layer_length(&self) -> usize {
        (self.chains() + self.hp) * self.n
    }

    /// Bytes of a seal: (1 + k(1 + a) + h + d * len) * n (algorithm 20, line 1).
    pub(crate) fn seal_length(&self) -> usize {
        (1 + self.k * (1 + self.a) + self.h + self.d * self.chains()) * self.n
    }

    /// Bytes of the digest that choose forest leaves, the tree, and the leaf (section 9, the equation of m).
    pub(crate) fn digest_parts(&self) -> [usize; 3] {
        [(self.k * self.a).div_ceil(8), (self.h - self.hp).div_ceil(8), self.hp.div_ceil(8)]
    }

    /// Refuses a row that the algorithms cannot work on: the standard's relations between the columns must hold, and
    /// each number must be small enough for its field of an address.
    pub fn check(&self) -> Result<(), Error> {
        let columns = (1..=64).contains(&self.n)
            && (1..=256).contains(&self.d)
            && (1..=24).contains(&self.hp)
            && (1..=24).contains(&self.a)
            && (1..=256).contains(&self.k);
        // The tree number is kept in 64 bits, and the checksum must fit its digits.
        let relations = columns
            && self.h == self.d * self.hp
            && self.h - self.hp <= 64
            && self.m == self.digest_parts().iter().sum::<usize>()
            && (gen_len2(self.n, LG_W)..=8).contains(&self.len2);
        if relations {
            Ok(())
        } else {
            Err(Error::Row)
        }
    }
}

/// The hash function behind a set's functions (section 11).
#[derive(Clone, Copy, Debug, PartialEq, Eq)]
pub enum Hash {
    /// Section 11.1.
    Shake,
    /// Section 11.2.
    Sha2,
}

/// A row of the table.
#[derive(Clone, Copy, Debug, PartialEq, Eq)]
pub struct Set {
    /// 1 to 6 with SHAKE, 7 to 12 with SHA-2.
    pub number: u32,
    /// The standard's name.
    pub name: &'static str,
    /// The standard's numbers.
    pub params: Params,
    /// Bytes of a public key.
    pub public_key: usize,
    /// Bytes of a secret key.
    pub secret_key: usize,
    /// Bytes of a seal.
    pub seal: usize,
    /// The hash function.
    pub hash: Hash,
}

const fn set(number: u32, name: &'static str, row: [usize; 7], bytes: [usize; 3], hash: Hash) -> Set {
    let [n, h, d, hp, a, k, m] = row;
    let [public_key, secret_key, seal] = bytes;
    Set { number, name, params: Params::new(n, h, d, hp, a, k, m), public_key, secret_key, seal, hash }
}

/// Table 2, the only place where the numbers of the sets stand.
#[rustfmt::skip]
pub const SETS: [Set; 12] = [
    //   number and name           n   h   d  h'   a   k   m   public secret seal
    set( 1, "SLH-DSA-SHAKE-128s", [16, 63,  7, 9, 12, 14, 30], [32,  64,  7856], Hash::Shake),
    set( 2, "SLH-DSA-SHAKE-128f", [16, 66, 22, 3,  6, 33, 34], [32,  64, 17088], Hash::Shake),
    set( 3, "SLH-DSA-SHAKE-192s", [24, 63,  7, 9, 14, 17, 39], [48,  96, 16224], Hash::Shake),
    set( 4, "SLH-DSA-SHAKE-192f", [24, 66, 22, 3,  8, 33, 42], [48,  96, 35664], Hash::Shake),
    set( 5, "SLH-DSA-SHAKE-256s", [32, 64,  8, 8, 14, 22, 47], [64, 128, 29792], Hash::Shake),
    set( 6, "SLH-DSA-SHAKE-256f", [32, 68, 17, 4,  9, 35, 49], [64, 128, 49856], Hash::Shake),
    set( 7, "SLH-DSA-SHA2-128s",  [16, 63,  7, 9, 12, 14, 30], [32,  64,  7856], Hash::Sha2),
    set( 8, "SLH-DSA-SHA2-128f",  [16, 66, 22, 3,  6, 33, 34], [32,  64, 17088], Hash::Sha2),
    set( 9, "SLH-DSA-SHA2-192s",  [24, 63,  7, 9, 14, 17, 39], [48,  96, 16224], Hash::Sha2),
    set(10, "SLH-DSA-SHA2-192f",  [24, 66, 22, 3,  8, 33, 42], [48,  96, 35664], Hash::Sha2),
    set(11, "SLH-DSA-SHA2-256s",  [32, 64,  8, 8, 14, 22, 47], [64, 128, 29792], Hash::Sha2),
    set(12, "SLH-DSA-SHA2-256f",  [32, 68, 17, 4,  9, 35, 49], [64, 128, 49856], Hash::Sha2),
];

/// The row of a set number.
pub fn find(set: u32) -> Result<&'static Set, Error> {
    SETS.iter().find(|row| row.number == set).ok_or(Error::UnknownSet)
}
