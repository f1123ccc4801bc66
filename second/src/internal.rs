//! The internal functions, over an already framed message (FIPS 205, section 9).

use crate::address::{Address, AddressType};
use crate::calls::Calls;
use crate::digits::to_int;
use crate::fors::{fors_pk_from_sig, fors_sign};
use crate::hypertree::{ht_sign, ht_verify};
use crate::sets::Params;
use crate::xmss::xmss_node;

/// What a message digest chooses: the digits of the forest, and the tree and leaf of layer 0.
#[derive(Clone, Debug, PartialEq, Eq)]
pub struct Place {
    /// The bytes that the forest's digits are read from.
    pub md: Vec<u8>,
    /// The tree of layer 0.
    pub idx_tree: u64,
    /// The leaf in that tree.
    pub idx_leaf: u32,
}

/// Lines 6 to 10 of algorithm 19 and 9 to 13 of algorithm 20.
pub(crate) fn place(params: &Params, digest: &[u8]) -> Place {
    let [forest, tree, _leaf] = params.digest_parts();
    let (md, rest) = digest.split_at(forest);
    let (tmp_idx_tree, tmp_idx_leaf) = rest.split_at(tree);
    // In 128 bits, as 2^(h - h') is 2^64 for the largest set.
    let idx_tree = to_int(tmp_idx_tree) % (1 << (params.h - params.hp));
    let idx_leaf = to_int(tmp_idx_leaf) % (1 << params.hp);
    Place { md: md.to_vec(), idx_tree: idx_tree as u64, idx_leaf: idx_leaf as u32 }
}

/// Lines 11 to 13 of algorithm 19 and 14 to 16 of algorithm 20: the address that the forest's work begins with.
fn forest_address(place: &Place) -> Address {
    let mut adrs = Address::new();
    adrs.set_tree_address(place.idx_tree);
    adrs.set_type_and_clear(AddressType::ForsTree);
    adrs.set_key_pair_address(place.idx_leaf);
    adrs
}

/// Algorithm 18, slh_keygen_internal(SK.seed, SK.prf, PK.seed): (SK, PK), the first 4n and the second 2n bytes.
pub(crate) fn slh_keygen_internal(cx: &mut Calls, sk_seed: &[u8], sk_prf: &[u8], pk_seed: &[u8]) -> (Vec<u8>, Vec<u8>) {
    let mut adrs = Address::new();
    adrs.set_layer_address(cx.params.d as u32 - 1);
    let pk_root = xmss_node(cx, sk_seed, 0, cx.params.hp as u32, pk_seed, &mut adrs);
    ([sk_seed, sk_prf, pk_seed, &pk_root].concat(), [pk_seed, &pk_root].concat())
}

/// Algorithm 19, slh_sign_internal(M, SK, addrnd). No addrnd is the deterministic variant: PK.seed stands in for it.
pub(crate) fn slh_sign_internal(cx: &mut Calls, m: &[u8], sk: &[u8], addrnd: Option<&[u8]>) -> Vec<u8> {
    let n = cx.params.n;
    let (sk_prf, pk_seed) = (&sk[n..2 * n], &sk[2 * n..3 * n]);
    let opt_rand = addrnd.unwrap_or(pk_seed);
    let r = cx.prf_msg(sk_prf, opt_rand, m);
    sign_from_randomizer(cx, m, sk, &r)
}

/// Lines 4 to 19 of algorithm 19: what is written once the randomizer R is there.
pub(crate) fn sign_from_randomizer(cx: &mut Calls, m: &[u8], sk: &[u8], r: &[u8]) -> Vec<u8> {
    let n = cx.params.n;
    let (sk_seed, pk_seed, pk_root) = (&sk[..n], &sk[2 * n..3 * n], &sk[3 * n..]);
    let digest = cx.h_msg(r, pk_seed, pk_root, m);
    let place = place(cx.params, &digest);
    let mut adrs = forest_address(&place);
    let sig_fors = fors_sign(cx, &place.md, sk_seed, pk_seed, &mut adrs);
    let pk_fors = fors_pk_from_sig(cx, &sig_fors, &place.md, pk_seed, &mut adrs);
    let sig_ht = ht_sign(cx, &pk_fors, sk_seed, pk_seed, place.idx_tree, place.idx_leaf);
    [r, &sig_fors, &sig_ht].concat()
}

/// Algorithm 20, slh_verify_internal(M, SIG, PK).
pub(crate) fn slh_verify_internal(cx: &mut Calls, m: &[u8], sig: &[u8], pk: &[u8]) -> bool {
    if sig.len() != cx.params.seal_length() {
        return false;
    }
    let (pk_seed, pk_root) = pk.split_at(cx.params.n);
    let (r, rest) = sig.split_at(cx.params.n);
    let (sig_fors, sig_ht) = rest.split_at(cx.params.forest_length());
    let digest = cx.h_msg(r, pk_seed, pk_root, m);
    let place = place(cx.params, &digest);
    let mut adrs = forest_address(&place);
    let pk_fors = fors_pk_from_sig(cx, sig_fors, &place.md, pk_seed, &mut adrs);
    ht_verify(cx, &pk_fors, sig_ht, pk_seed, place.idx_tree, place.idx_leaf, pk_root)
}

#[cfg(test)]
mod tests {
    use super::*;
    use crate::sets::SETS;

    /// A digest of set 1 with these tree and leaf bytes: 21 bytes for the forest, 7 for the tree, 2 for the leaf.
    fn digest_of_set_1(tree: [u8; 7], leaf: [u8; 2]) -> Vec<u8> {
        [&[0xaa; 21][..], &tree, &leaf].concat()
    }

    #[test]
    fn edges_of_set_1() {
        let params = &SETS[0].params;
        let found = place(params, &digest_of_set_1([0xff; 7], [0xfe, 0x05]));
        assert_eq!(found, Place { md: vec![0xaa; 21], idx_tree: 18_014_398_509_481_983, idx_leaf: 5 });
        let zero = place(params, &digest_of_set_1([0; 7], [0xfe, 0x00]));
        assert_eq!((zero.idx_tree, zero.idx_leaf), (0, 0));
    }

    #[test]
    fn the_largest_place_of_every_set() {
        for set in &SETS {
            let found = place(&set.params, &vec![0xff; set.params.m]);
            let [forest, ..] = set.params.digest_parts();
            assert_eq!(found.md, vec![0xff; forest], "{}", set.name);
            assert_eq!(found.idx_tree, u64::MAX >> (64 - (set.params.h - set.params.hp)), "{}", set.name);
            assert_eq!(found.idx_leaf, (1 << set.params.hp) - 1, "{}", set.name);
        }
    }
}
