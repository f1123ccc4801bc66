//! The one-time signature WOTS+ (FIPS 205, section 5).

use crate::address::{Address, AddressType};
use crate::calls::Calls;
use crate::digits::{base_2b, to_byte};
use crate::sets::{Params, LG_W, W};

/// Algorithm 5, chain(X, i, s, PK.seed, ADRS).
pub(crate) fn chain(cx: &mut Calls, x: &[u8], i: u32, s: u32, pk_seed: &[u8], adrs: &mut Address) -> Vec<u8> {
    let mut tmp = x.to_vec();
    for j in i..i + s {
        adrs.set_hash_address(j);
        tmp = cx.f(pk_seed, adrs, &tmp);
    }
    tmp
}

/// Lines 1 to 7 of algorithms 7 and 8: the len digits of an n-byte value, its own and those of the checksum.
pub(crate) fn chain_digits(params: &Params, m: &[u8]) -> Vec<u32> {
    let mut csum = 0u64;
    let mut msg = base_2b(m, LG_W, params.len1());
    for digit in &msg {
        csum += u64::from(W - 1 - digit);
    }
    let csum_bits = params.len2 * LG_W as usize;
    csum <<= (8 - csum_bits % 8) % 8;
    msg.extend(base_2b(&to_byte(csum, csum_bits.div_ceil(8)), LG_W, params.len2));
    msg
}

/// Algorithm 6, wots_pkGen(SK.seed, PK.seed, ADRS).
pub(crate) fn wots_pk_gen(cx: &mut Calls, sk_seed: &[u8], pk_seed: &[u8], adrs: &mut Address) -> Vec<u8> {
    let mut sk_adrs = *adrs;
    sk_adrs.set_type_and_clear(AddressType::WotsPrf);
    sk_adrs.set_key_pair_address(adrs.get_key_pair_address());
    let mut tmp = Vec::new();
    for i in 0..cx.params.chains() as u32 {
        sk_adrs.set_chain_address(i);
        let sk = cx.prf(pk_seed, sk_seed, &sk_adrs);
        adrs.set_chain_address(i);
        tmp.extend(chain(cx, &sk, 0, W - 1, pk_seed, adrs));
    }
    wots_compress(cx, &tmp, pk_seed, adrs)
}

/// Algorithm 7, wots_sign(M, SK.seed, PK.seed, ADRS).
pub(crate) fn wots_sign(cx: &mut Calls, m: &[u8], sk_seed: &[u8], pk_seed: &[u8], adrs: &mut Address) -> Vec<u8> {
    let msg = chain_digits(cx.params, m);
    let mut sk_adrs = *adrs;
    sk_adrs.set_type_and_clear(AddressType::WotsPrf);
    sk_adrs.set_key_pair_address(adrs.get_key_pair_address());
    let mut sig = Vec::new();
    for (i, digit) in (0u32..).zip(msg) {
        sk_adrs.set_chain_address(i);
        let sk = cx.prf(pk_seed, sk_seed, &sk_adrs);
        adrs.set_chain_address(i);
        sig.extend(chain(cx, &sk, 0, digit, pk_seed, adrs));
    }
    sig
}

/// Algorithm 8, wots_pkFromSig(sig, M, PK.seed, ADRS).
pub(crate) fn wots_pk_from_sig(cx: &mut Calls, sig: &[u8], m: &[u8], pk_seed: &[u8], adrs: &mut Address) -> Vec<u8> {
    let msg = chain_digits(cx.params, m);
    let mut tmp = Vec::new();
    for (i, (digit, value)) in (0u32..).zip(msg.iter().zip(sig.chunks_exact(cx.params.n))) {
        adrs.set_chain_address(i);
        tmp.extend(chain(cx, value, *digit, W - 1 - digit, pk_seed, adrs));
    }
    wots_compress(cx, &tmp, pk_seed, adrs)
}

/// Lines 10 to 13 of algorithm 6 and 12 to 15 of algorithm 8: the chain ends become one value.
fn wots_compress(cx: &mut Calls, tmp: &[u8], pk_seed: &[u8], adrs: &Address) -> Vec<u8> {
    let mut wots_pk_adrs = *adrs;
    wots_pk_adrs.set_type_and_clear(AddressType::WotsPk);
    wots_pk_adrs.set_key_pair_address(adrs.get_key_pair_address());
    cx.t(pk_seed, &wots_pk_adrs, tmp)
}
