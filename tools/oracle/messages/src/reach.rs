
// Appended behind the last byte of tesla.rs when the oracle of messages is built: a key without a chain, and a tag 0 with any counter.
impl Key<Validated> {
    /// A key of zeros whose tags are made with the MAC function given.
    pub fn of_zeros(mac_function: MacFunction) -> Self {
        Key {
            data: [0; MAX_KEY_BYTES],
            chain: Chain {
                id: 0,
                hash_function: HashFunction::Sha256,
                mac_function,
                key_size_bytes: 16,
                tag_size_bits: 40,
                maclt: 27,
                alpha: 0,
            },
            gst_subframe: Gst::new(0, 0),
            _validated: Validated {},
        }
    }

    /// What `validate_tag0` does, with the counter given in place of 1.
    pub fn validate_tag0_counted(
        &self,
        tag0: &BitSlice,
        tag_gst: Gst,
        prna: Svn,
        ctr: u8,
        nma_status: NmaStatus,
        navdata: &BitSlice,
    ) -> bool {
        let mut mac = self.mac_digest();
        Self::update_mac_with_navdata(&mut mac, tag_gst, prna, ctr, nma_status, navdata);
        self.check_common(mac, tag0)
    }
}
