//! Addresses (FIPS 205, sections 4.2, 4.3 and 11.2).

/// What an address is for (section 4.2).
#[derive(Clone, Copy, Debug, PartialEq, Eq)]
pub enum AddressType {
    /// A step of a hash chain.
    WotsHash = 0,
    /// The compression of chain ends.
    WotsPk = 1,
    /// A node of a hypertree tree.
    Tree = 2,
    /// A node of a forest tree.
    ForsTree = 3,
    /// The compression of forest roots.
    ForsRoots = 4,
    /// The secret value of a chain.
    WotsPrf = 5,
    /// The secret value of a forest leaf.
    ForsPrf = 6,
}

/// ADRS: layer (4 bytes), tree (12), type (4) and three words (4 each), all big-endian (figure 2).
#[derive(Clone, Copy, Debug, Default, PartialEq, Eq)]
pub struct Address([u8; 32]);

/// The member functions of table 1.
impl Address {
    /// toByte(0, 32).
    pub fn new() -> Address {
        Address([0; 32])
    }

    /// ADRS.setLayerAddress(l).
    pub fn set_layer_address(&mut self, l: u32) {
        self.set_word(0, l);
    }

    /// ADRS.setTreeAddress(t).
    pub fn set_tree_address(&mut self, t: u64) {
        self.0[4..16].copy_from_slice(&u128::from(t).to_be_bytes()[4..]);
    }

    /// ADRS.setTypeAndClear(Y): the three words after the type become zero.
    pub fn set_type_and_clear(&mut self, y: AddressType) {
        self.set_word(16, y as u32);
        self.0[20..32].fill(0);
    }

    /// ADRS.setKeyPairAddress(i).
    pub fn set_key_pair_address(&mut self, i: u32) {
        self.set_word(20, i);
    }

    /// ADRS.setChainAddress(i).
    pub fn set_chain_address(&mut self, i: u32) {
        self.set_word(24, i);
    }

    /// ADRS.setTreeHeight(i).
    pub fn set_tree_height(&mut self, i: u32) {
        self.set_word(24, i);
    }

    /// ADRS.setHashAddress(i).
    pub fn set_hash_address(&mut self, i: u32) {
        self.set_word(28, i);
    }

    /// ADRS.setTreeIndex(i).
    pub fn set_tree_index(&mut self, i: u32) {
        self.set_word(28, i);
    }

    /// ADRS.getKeyPairAddress().
    pub fn get_key_pair_address(&self) -> u32 {
        self.word(20)
    }

    /// ADRS.getTreeIndex().
    pub fn get_tree_index(&self) -> u32 {
        self.word(28)
    }

    /// The 32 bytes.
    pub fn bytes(&self) -> &[u8; 32] {
        &self.0
    }

    /// An address from its 32 bytes, such as a log of calls holds.
    pub fn from_bytes(bytes: [u8; 32]) -> Address {
        Address(bytes)
    }

    /// `ADRSc = ADRS[3] || ADRS[8:16] || ADRS[19] || ADRS[20:32]` (section 11.2).
    pub fn compressed(&self) -> [u8; 22] {
        let mut c = [0u8; 22];
        c[0] = self.0[3];
        c[1..9].copy_from_slice(&self.0[8..16]);
        c[9] = self.0[19];
        c[10..22].copy_from_slice(&self.0[20..32]);
        c
    }

    fn set_word(&mut self, at: usize, value: u32) {
        self.0[at..at + 4].copy_from_slice(&value.to_be_bytes());
    }

    fn word(&self, at: usize) -> u32 {
        u32::from_be_bytes([self.0[at], self.0[at + 1], self.0[at + 2], self.0[at + 3]])
    }
}

#[cfg(test)]
mod tests {
    use super::*;

    #[test]
    fn fields_lie_where_figure_2_says() {
        let mut adrs = Address::new();
        adrs.set_layer_address(0x01020304);
        adrs.set_tree_address(0x1112131415161718);
        adrs.set_type_and_clear(AddressType::ForsPrf);
        adrs.set_key_pair_address(0x21222324);
        adrs.set_tree_height(0x31323334);
        adrs.set_tree_index(0x41424344);
        let mut expected = vec![1, 2, 3, 4, 0, 0, 0, 0, 0x11, 0x12, 0x13, 0x14, 0x15, 0x16, 0x17, 0x18];
        expected.extend([0, 0, 0, 6, 0x21, 0x22, 0x23, 0x24, 0x31, 0x32, 0x33, 0x34, 0x41, 0x42, 0x43, 0x44]);
        assert_eq!(adrs.bytes()[..], expected);
        let compressed = [&expected[3..4], &expected[8..16], &expected[19..32]].concat();
        assert_eq!(adrs.compressed()[..], compressed);
        assert_eq!((adrs.get_key_pair_address(), adrs.get_tree_index()), (0x21222324, 0x41424344));
        assert_eq!(Address::from_bytes(*adrs.bytes()), adrs);
    }

    #[test]
    fn changing_the_type_clears_the_words_only() {
        let mut adrs = Address::from_bytes([0xff; 32]);
        adrs.set_type_and_clear(AddressType::Tree);
        assert_eq!(adrs.bytes()[..16], [0xff; 16]);
        assert_eq!(adrs.bytes()[16..20], [0, 0, 0, 2]);
        assert_eq!(adrs.bytes()[20..], [0; 12]);
    }

    #[test]
    fn the_scope_example() {
        let mut adrs = Address::new();
        adrs.set_layer_address(6);
        adrs.set_tree_address(5);
        adrs.set_type_and_clear(AddressType::WotsHash);
        adrs.set_key_pair_address(3);
        adrs.set_chain_address(34);
        adrs.set_hash_address(14);
        let mut expected = [0u8; 32];
        (expected[3], expected[15], expected[23], expected[27], expected[31]) = (6, 5, 3, 0x22, 0x0e);
        assert_eq!(*adrs.bytes(), expected);
    }
}
