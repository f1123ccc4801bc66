//! One tree of the hypertree, XMSS (FIPS 205, section 6).

use crate::address::{Address, AddressType};
use crate::calls::Calls;
use crate::wots::{wots_pk_from_sig, wots_pk_gen, wots_sign};

/// Algorithm 9, xmss_node(SK.seed, i, z, PK.seed, ADRS): the node of index i at height z.
pub(crate) fn xmss_node(cx: &mut Calls, sk_seed: &[u8], i: u32, z: u32, pk_seed: &[u8], adrs: &mut Address) -> Vec<u8> {
    if z == 0 {
        adrs.set_type_and_clear(AddressType::WotsHash);
        adrs.set_key_pair_address(i);
        wots_pk_gen(cx, sk_seed, pk_seed, adrs)
    } else {
        let lnode = xmss_node(cx, sk_seed, 2 * i, z - 1, pk_seed, adrs);
        let rnode = xmss_node(cx, sk_seed, 2 * i + 1, z - 1, pk_seed, adrs);
        adrs.set_type_and_clear(AddressType::Tree);
        adrs.set_tree_height(z);
        adrs.set_tree_index(i);
        cx.h(pk_seed, adrs, &[lnode, rnode].concat())
    }
}

/// Algorithm 10, xmss_sign(M, SK.seed, idx, PK.seed, ADRS): the chain values, then the path from the bottom up.
pub(crate) fn xmss_sign(
    cx: &mut Calls,
    m: &[u8],
    sk_seed: &[u8],
    idx: u32,
    pk_seed: &[u8],
    adrs: &mut Address,
) -> Vec<u8> {
    let mut auth = Vec::new();
    for j in 0..cx.params.hp as u32 {
        let k = (idx >> j) ^ 1;
        auth.extend(xmss_node(cx, sk_seed, k, j, pk_seed, adrs));
    }
    adrs.set_type_and_clear(AddressType::WotsHash);
    adrs.set_key_pair_address(idx);
    let sig = wots_sign(cx, m, sk_seed, pk_seed, adrs);
    [sig, auth].concat()
}

/// Algorithm 11, xmss_pkFromSig(idx, SIG_XMSS, M, PK.seed, ADRS): the root that the signature leads to.
pub(crate) fn xmss_pk_from_sig(
    cx: &mut Calls,
    idx: u32,
    sig_xmss: &[u8],
    m: &[u8],
    pk_seed: &[u8],
    adrs: &mut Address,
) -> Vec<u8> {
    adrs.set_type_and_clear(AddressType::WotsHash);
    adrs.set_key_pair_address(idx);
    let (sig, auth) = sig_xmss.split_at(cx.params.chains() * cx.params.n);
    let mut node = wots_pk_from_sig(cx, sig, m, pk_seed, adrs);
    adrs.set_type_and_clear(AddressType::Tree);
    adrs.set_tree_index(idx);
    for (k, auth_k) in (0u32..).zip(auth.chunks_exact(cx.params.n)) {
        adrs.set_tree_height(k + 1);
        if (idx >> k).is_multiple_of(2) {
            adrs.set_tree_index(adrs.get_tree_index() / 2);
            node = cx.h(pk_seed, adrs, &[&node, auth_k].concat());
        } else {
            adrs.set_tree_index((adrs.get_tree_index() - 1) / 2);
            node = cx.h(pk_seed, adrs, &[auth_k, &node].concat());
        }
    }
    node
}
