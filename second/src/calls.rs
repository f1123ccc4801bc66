//! The log of calls, and the one door through which the algorithms reach the hash family.

use crate::address::Address;
use crate::family::Family;
use crate::sets::Params;

/// Which function was called.
#[derive(Clone, Copy, Debug, PartialEq, Eq)]
pub enum Kind {
    /// F.
    F,
    /// H.
    H,
    /// T_len or T_k.
    T,
    /// PRF.
    SecretValue,
    /// PRF_msg.
    Randomizer,
    /// H_msg.
    Digest,
}

/// One call.
#[derive(Clone, Debug, PartialEq, Eq)]
pub struct Call {
    /// The function.
    pub kind: Kind,
    /// The 32 bytes of ADRS, in the SHA-2 sets too; empty for `Randomizer` and `Digest`.
    pub address: Vec<u8>,
    /// What is hashed besides the address. F, H, T: the message (n, 2n, ln bytes), without PK.seed. SecretValue:
    /// SK.seed, without PK.seed. Randomizer: SK.prf, opt_rand and the message, joined. Digest: R, PK.seed, PK.root and
    /// the message, joined.
    pub input: Vec<u8>,
}

/// How many calls of the kinds a check makes.
#[derive(Clone, Copy, Debug, Default, PartialEq, Eq)]
pub struct Tally {
    /// Calls of F.
    pub f: u64,
    /// Calls of H.
    pub h: u64,
    /// Calls of T.
    pub t: u64,
    /// Calls of H_msg.
    pub digest: u64,
}

/// Counts all calls, and keeps the list of them, in the order made, when asked to.
#[derive(Clone, Debug, Default)]
pub struct Log {
    counts: [u64; 6],
    calls: Option<Vec<Call>>,
}

impl Log {
    /// A log that only counts.
    pub fn counting() -> Log {
        Log::default()
    }

    /// A log that also keeps the list of calls.
    pub fn recording() -> Log {
        Log { counts: [0; 6], calls: Some(Vec::new()) }
    }

    /// Calls of one kind so far.
    pub fn count(&self, kind: Kind) -> u64 {
        self.counts[kind as usize]
    }

    /// Calls of the kinds a check makes, so far.
    pub fn tally(&self) -> Tally {
        Tally {
            f: self.count(Kind::F),
            h: self.count(Kind::H),
            t: self.count(Kind::T),
            digest: self.count(Kind::Digest),
        }
    }

    /// The list so far; empty for a log that only counts.
    pub fn calls(&self) -> &[Call] {
        self.calls.as_deref().unwrap_or(&[])
    }

    /// The list; empty for a log that only counts.
    pub fn into_calls(self) -> Vec<Call> {
        self.calls.unwrap_or_default()
    }

    fn note(&mut self, kind: Kind, adrs: Option<&Address>, input: &[&[u8]]) {
        self.counts[kind as usize] += 1;
        if let Some(calls) = &mut self.calls {
            let address = adrs.map_or(Vec::new(), |adrs| adrs.bytes().to_vec());
            calls.push(Call { kind, address, input: input.concat() });
        }
    }
}

/// A row, a family and a log: what every algorithm is given. Each method notes the call and then makes it.
pub(crate) struct Calls<'a> {
    pub params: &'a Params,
    family: &'a dyn Family,
    log: &'a mut Log,
    misfit: bool,
}

impl<'a> Calls<'a> {
    pub fn new(params: &'a Params, family: &'a dyn Family, log: &'a mut Log) -> Calls<'a> {
        Calls { params, family, log, misfit: false }
    }

    /// Whether a caller's own family ever answered with a wrong length.
    pub fn misfit(&self) -> bool {
        self.misfit
    }

    pub fn f(&mut self, pk_seed: &[u8], adrs: &Address, m1: &[u8]) -> Vec<u8> {
        self.log.note(Kind::F, Some(adrs), &[m1]);
        let value = self.family.f(self.params, pk_seed, adrs, m1);
        self.fit(value, self.params.n)
    }

    pub fn h(&mut self, pk_seed: &[u8], adrs: &Address, m2: &[u8]) -> Vec<u8> {
        self.log.note(Kind::H, Some(adrs), &[m2]);
        let value = self.family.h(self.params, pk_seed, adrs, m2);
        self.fit(value, self.params.n)
    }

    pub fn t(&mut self, pk_seed: &[u8], adrs: &Address, ml: &[u8]) -> Vec<u8> {
        self.log.note(Kind::T, Some(adrs), &[ml]);
        let value = self.family.t(self.params, pk_seed, adrs, ml);
        self.fit(value, self.params.n)
    }

    pub fn prf(&mut self, pk_seed: &[u8], sk_seed: &[u8], adrs: &Address) -> Vec<u8> {
        self.log.note(Kind::SecretValue, Some(adrs), &[sk_seed]);
        let value = self.family.prf(self.params, pk_seed, sk_seed, adrs);
        self.fit(value, self.params.n)
    }

    pub fn prf_msg(&mut self, sk_prf: &[u8], opt_rand: &[u8], m: &[u8]) -> Vec<u8> {
        self.log.note(Kind::Randomizer, None, &[sk_prf, opt_rand, m]);
        let value = self.family.prf_msg(self.params, sk_prf, opt_rand, m);
        self.fit(value, self.params.n)
    }

    pub fn h_msg(&mut self, r: &[u8], pk_seed: &[u8], pk_root: &[u8], m: &[u8]) -> Vec<u8> {
        self.log.note(Kind::Digest, None, &[r, pk_seed, pk_root, m]);
        let value = self.family.h_msg(self.params, r, pk_seed, pk_root, m);
        self.fit(value, self.params.m)
    }

    /// Remembers a wrong length, so that the whole work is refused at its end, and goes on with the right one.
    fn fit(&mut self, mut value: Vec<u8>, length: usize) -> Vec<u8> {
        self.misfit |= value.len() != length;
        value.resize(length, 0);
        value
    }
}
