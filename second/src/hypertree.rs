//! The hypertree of d layers (FIPS 205, section 7).

use crate::address::Address;
use crate::calls::Calls;
use crate::sets::Params;
use crate::xmss::{xmss_pk_from_sig, xmss_sign};

/// Algorithm 12, ht_sign(M, SK.seed, PK.seed, idx_tree, idx_leaf): the layers' signatures from the bottom up.
pub(crate) fn ht_sign(
    cx: &mut Calls,
    m: &[u8],
    sk_seed: &[u8],
    pk_seed: &[u8],
    mut idx_tree: u64,
    mut idx_leaf: u32,
) -> Vec<u8> {
    let mut adrs = Address::new();
    adrs.set_tree_address(idx_tree);
    let sig_tmp = xmss_sign(cx, m, sk_seed, idx_leaf, pk_seed, &mut adrs);
    let mut sig_ht = sig_tmp.clone();
    let mut root = xmss_pk_from_sig(cx, idx_leaf, &sig_tmp, m, pk_seed, &mut adrs);
    for j in 1..cx.params.d {
        (idx_tree, idx_leaf) = layer_above(cx.params, idx_tree);
        adrs.set_layer_address(j as u32);
        adrs.set_tree_address(idx_tree);
        let sig_tmp = xmss_sign(cx, &root, sk_seed, idx_leaf, pk_seed, &mut adrs);
        sig_ht.extend(&sig_tmp);
        if j < cx.params.d - 1 {
            root = xmss_pk_from_sig(cx, idx_leaf, &sig_tmp, &root, pk_seed, &mut adrs);
        }
    }
    sig_ht
}

/// Algorithm 13, ht_verify(M, SIG_HT, PK.seed, idx_tree, idx_leaf, PK.root).
pub(crate) fn ht_verify(
    cx: &mut Calls,
    m: &[u8],
    sig_ht: &[u8],
    pk_seed: &[u8],
    mut idx_tree: u64,
    mut idx_leaf: u32,
    pk_root: &[u8],
) -> bool {
    let mut adrs = Address::new();
    adrs.set_tree_address(idx_tree);
    let layer = cx.params.layer_length();
    let mut node = xmss_pk_from_sig(cx, idx_leaf, &sig_ht[..layer], m, pk_seed, &mut adrs);
    for j in 1..cx.params.d {
        (idx_tree, idx_leaf) = layer_above(cx.params, idx_tree);
        adrs.set_layer_address(j as u32);
        adrs.set_tree_address(idx_tree);
        let sig_tmp = &sig_ht[j * layer..(j + 1) * layer];
        node = xmss_pk_from_sig(cx, idx_leaf, sig_tmp, &node, pk_seed, &mut adrs);
    }
    node == pk_root
}

/// Lines 7 and 8 of algorithm 12, 6 and 7 of algorithm 13: tree and leaf of the next layer. The lower h' bits of the
/// tree number are the leaf, the others the tree.
pub(crate) fn layer_above(params: &Params, idx_tree: u64) -> (u64, u32) {
    let trees = 1u64 << params.hp;
    (idx_tree / trees, (idx_tree % trees) as u32)
}

#[cfg(test)]
mod tests {
    use super::*;
    use crate::sets::SETS;

    #[test]
    fn next_leaf_and_tree() {
        assert_eq!(layer_above(&SETS[0].params, 1029), (2, 5));
        assert_eq!(layer_above(&SETS[5].params, u64::MAX), (u64::MAX >> 4, 15));
    }

    #[test]
    fn the_top_layer_is_a_single_tree() {
        for set in &SETS {
            let bits = set.params.h - set.params.hp;
            let mut tree = u64::MAX >> (64 - bits);
            for _ in 1..set.params.d {
                tree = layer_above(&set.params, tree).0;
            }
            assert_eq!(tree, 0, "{}", set.name);
        }
    }
}
