//! The internal functions behind length checks, over any row and family.

use crate::calls::{Calls, Log, Tally};
use crate::digits::base_2b;
use crate::error::Error;
use crate::family::{family_of, Family};
use crate::internal::{self, Place};
use crate::sets::{find, Params};
use crate::wots;

/// A verdict of a check, with the number of calls it made.
#[derive(Clone, Copy, Debug, PartialEq, Eq)]
pub struct Verdict {
    /// Whether the recomputed root is the public key's.
    pub accepted: bool,
    /// The calls that were made, whether accepted or not.
    pub tally: Tally,
}

/// A row and a hash family: one of the twelve sets, or what a caller brings. Every method notes its calls in the log it
/// is given, and refuses wrong lengths before any call.
#[derive(Clone, Copy)]
pub struct Scheme<'a> {
    params: Params,
    family: &'a dyn Family,
}

impl<'a> Scheme<'a> {
    /// The set of that number.
    pub fn of_set(set: u32) -> Result<Scheme<'static>, Error> {
        let set = find(set)?;
        Ok(Scheme { params: set.params, family: family_of(set) })
    }

    /// A caller's own row and family.
    pub fn of_row(params: Params, family: &'a dyn Family) -> Result<Scheme<'a>, Error> {
        params.check()?;
        Ok(Scheme { params, family })
    }

    /// The row.
    pub fn params(&self) -> &Params {
        &self.params
    }

    /// Chains of a one-time key, the standard's len (equation 5.4).
    pub fn chains(&self) -> usize {
        self.params.chains()
    }

    /// Bytes of a seal.
    pub fn seal_length(&self) -> usize {
        self.params.seal_length()
    }

    /// Algorithm 18: (public key, secret key).
    pub fn keygen(
        &self,
        log: &mut Log,
        sk_seed: &[u8],
        sk_prf: &[u8],
        pk_seed: &[u8],
    ) -> Result<(Vec<u8>, Vec<u8>), Error> {
        for seed in [sk_seed, sk_prf, pk_seed] {
            demand(seed.len() == self.params.n, Error::SeedLength)?;
        }
        let (sk, pk) = self.run(log, |cx| internal::slh_keygen_internal(cx, sk_seed, sk_prf, pk_seed))?;
        Ok((pk, sk))
    }

    /// Algorithm 19 over an already framed message; no `addrnd` is the deterministic variant.
    pub fn sign_internal(
        &self,
        log: &mut Log,
        framed: &[u8],
        secret_key: &[u8],
        addrnd: Option<&[u8]>,
    ) -> Result<Vec<u8>, Error> {
        demand(secret_key.len() == self.params.secret_key_length(), Error::SecretKeyLength)?;
        demand(addrnd.is_none_or(|bytes| bytes.len() == self.params.n), Error::RandomizerLength)?;
        self.run(log, |cx| internal::slh_sign_internal(cx, framed, secret_key, addrnd))
    }

    /// Algorithm 19 from line 4 on, with the given R in place of the derived one.
    pub fn sign_with_randomizer(
        &self,
        log: &mut Log,
        framed: &[u8],
        secret_key: &[u8],
        r: &[u8],
    ) -> Result<Vec<u8>, Error> {
        demand(secret_key.len() == self.params.secret_key_length(), Error::SecretKeyLength)?;
        demand(r.len() == self.params.n, Error::RandomizerLength)?;
        self.run(log, |cx| internal::sign_from_randomizer(cx, framed, secret_key, r))
    }

    /// Algorithm 20 over an already framed message.
    ///
    /// Line 2 of algorithm 20 answers "false" to a seal of a wrong length. Here, and so in every function built on this
    /// one, that is `Err(Error::SealLength)` instead: such a seal is refused unread, with no call made. A caller who
    /// wants the standard's Boolean reads every `Err` as false.
    pub fn check_internal(
        &self,
        log: &mut Log,
        framed: &[u8],
        seal: &[u8],
        public_key: &[u8],
    ) -> Result<Verdict, Error> {
        demand(public_key.len() == self.params.public_key_length(), Error::PublicKeyLength)?;
        demand(seal.len() == self.params.seal_length(), Error::SealLength)?;
        let before = log.tally();
        let accepted = self.run(log, |cx| internal::slh_verify_internal(cx, framed, seal, public_key))?;
        let after = log.tally();
        let tally = Tally {
            f: after.f - before.f,
            h: after.h - before.h,
            t: after.t - before.t,
            digest: after.digest - before.digest,
        };
        Ok(Verdict { accepted, tally })
    }

    /// The len chain digits of an n-byte value (lines 1 to 7 of algorithm 7).
    pub fn chain_digits(&self, value: &[u8]) -> Result<Vec<u32>, Error> {
        demand(value.len() == self.params.n, Error::ValueLength)?;
        Ok(wots::chain_digits(&self.params, value))
    }

    /// What an m-byte message digest chooses (lines 6 to 10 of algorithm 19).
    pub fn place(&self, digest: &[u8]) -> Result<Place, Error> {
        demand(digest.len() == self.params.m, Error::DigestLength)?;
        Ok(internal::place(&self.params, digest))
    }

    /// (start, length) of each part of a seal: R, the forest, then layers 0 to d - 1 (figure 17).
    pub fn seal_parts(&self) -> Vec<(usize, usize)> {
        let lengths = [self.params.n, self.params.forest_length()];
        let layers = std::iter::repeat_n(self.params.layer_length(), self.params.d);
        let mut start = 0;
        let mut parts = Vec::new();
        for length in lengths.into_iter().chain(layers) {
            parts.push((start, length));
            start += length;
        }
        parts
    }

    /// Runs an algorithm and refuses its result if the family answered with a wrong length.
    fn run<T>(&self, log: &mut Log, work: impl FnOnce(&mut Calls) -> T) -> Result<T, Error> {
        let mut cx = Calls::new(&self.params, self.family, log);
        let result = work(&mut cx);
        demand(!cx.misfit(), Error::FamilyLength)?;
        Ok(result)
    }
}

/// Algorithm 4 behind its demands: `count` digits of `width` bits.
pub fn digits(bytes: &[u8], width: u32, count: usize) -> Result<Vec<u32>, Error> {
    demand((1..=24).contains(&width), Error::Digits)?;
    let bits = count.checked_mul(width as usize).ok_or(Error::Digits)?;
    demand(bits.div_ceil(8) <= bytes.len(), Error::Digits)?;
    Ok(base_2b(bytes, width, count))
}

fn demand(holds: bool, error: Error) -> Result<(), Error> {
    if holds {
        Ok(())
    } else {
        Err(error)
    }
}
