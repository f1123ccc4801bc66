//! The forest of random subsets, FORS (FIPS 205, section 8).

use crate::address::{Address, AddressType};
use crate::calls::Calls;
use crate::digits::base_2b;

/// Algorithm 14, fors_skGen(SK.seed, PK.seed, ADRS, idx).
pub(crate) fn fors_sk_gen(cx: &mut Calls, sk_seed: &[u8], pk_seed: &[u8], adrs: &Address, idx: u32) -> Vec<u8> {
    let mut sk_adrs = *adrs;
    sk_adrs.set_type_and_clear(AddressType::ForsPrf);
    sk_adrs.set_key_pair_address(adrs.get_key_pair_address());
    sk_adrs.set_tree_index(idx);
    cx.prf(pk_seed, sk_seed, &sk_adrs)
}

/// Algorithm 15, fors_node(SK.seed, i, z, PK.seed, ADRS): the node of index i at height z.
pub(crate) fn fors_node(cx: &mut Calls, sk_seed: &[u8], i: u32, z: u32, pk_seed: &[u8], adrs: &mut Address) -> Vec<u8> {
    if z == 0 {
        let sk = fors_sk_gen(cx, sk_seed, pk_seed, adrs, i);
        adrs.set_tree_height(0);
        adrs.set_tree_index(i);
        cx.f(pk_seed, adrs, &sk)
    } else {
        let lnode = fors_node(cx, sk_seed, 2 * i, z - 1, pk_seed, adrs);
        let rnode = fors_node(cx, sk_seed, 2 * i + 1, z - 1, pk_seed, adrs);
        adrs.set_tree_height(z);
        adrs.set_tree_index(i);
        cx.h(pk_seed, adrs, &[lnode, rnode].concat())
    }
}

/// Algorithm 16, fors_sign(md, SK.seed, PK.seed, ADRS): for each tree the secret value, then the path from the bottom
/// up.
pub(crate) fn fors_sign(cx: &mut Calls, md: &[u8], sk_seed: &[u8], pk_seed: &[u8], adrs: &mut Address) -> Vec<u8> {
    let mut sig_fors = Vec::new();
    let a = cx.params.a as u32;
    let indices = base_2b(md, a, cx.params.k);
    for (i, index) in (0u32..).zip(indices) {
        sig_fors.extend(fors_sk_gen(cx, sk_seed, pk_seed, adrs, (i << a) + index));
        for j in 0..a {
            let s = (index >> j) ^ 1;
            sig_fors.extend(fors_node(cx, sk_seed, (i << (a - j)) + s, j, pk_seed, adrs));
        }
    }
    sig_fors
}

/// Algorithm 17, fors_pkFromSig(SIG_FORS, md, PK.seed, ADRS): the value that the forest's roots are compressed to.
pub(crate) fn fors_pk_from_sig(
    cx: &mut Calls,
    sig_fors: &[u8],
    md: &[u8],
    pk_seed: &[u8],
    adrs: &mut Address,
) -> Vec<u8> {
    let indices = base_2b(md, cx.params.a as u32, cx.params.k);
    let tree_length = (cx.params.a + 1) * cx.params.n;
    let mut roots = Vec::new();
    for (i, (index, tree)) in (0u32..).zip(indices.into_iter().zip(sig_fors.chunks_exact(tree_length))) {
        roots.extend(fors_root(cx, tree, i, index, pk_seed, adrs));
    }
    let mut fors_pk_adrs = *adrs;
    fors_pk_adrs.set_type_and_clear(AddressType::ForsRoots);
    fors_pk_adrs.set_key_pair_address(adrs.get_key_pair_address());
    cx.t(pk_seed, &fors_pk_adrs, &roots)
}

/// Lines 3 to 19 of algorithm 17: the root of tree i that its part of the signature leads to.
fn fors_root(cx: &mut Calls, tree: &[u8], i: u32, index: u32, pk_seed: &[u8], adrs: &mut Address) -> Vec<u8> {
    let (sk, auth) = tree.split_at(cx.params.n);
    adrs.set_tree_height(0);
    adrs.set_tree_index((i << cx.params.a) + index);
    let mut node = cx.f(pk_seed, adrs, sk);
    for (j, auth_j) in (0u32..).zip(auth.chunks_exact(cx.params.n)) {
        adrs.set_tree_height(j + 1);
        if (index >> j).is_multiple_of(2) {
            adrs.set_tree_index(adrs.get_tree_index() / 2);
            node = cx.h(pk_seed, adrs, &[&node, auth_j].concat());
        } else {
            adrs.set_tree_index((adrs.get_tree_index() - 1) / 2);
            node = cx.h(pk_seed, adrs, &[auth_j, &node].concat());
        }
    }
    node
}
