
// Appended behind the last byte of navmessage.rs when the oracle is built: a look at its private state, and no way to change it.
impl<S: StaticStorage> CollectNavMessage<S> {
    /// The row that words go to.
    pub fn current_row(&self) -> usize {
        self.write_pointer
    }

    /// The subframe of a row, where it has one.
    pub fn subframe(&self, row: usize) -> Option<Gst> {
        self.gsts[row]
    }

    /// Satellite, count, ages and data of a CED record.
    pub fn ced(&self, row: usize, slot: usize) -> (Option<Svn>, u16, &[u8], &[u8]) {
        let record = &self.ced_and_status[row * S::NUM_SATS + slot];
        (record.svn, record.authbits, &record.age, &record.data)
    }

    /// The same of a timing record.
    pub fn timing(&self, row: usize, slot: usize) -> (Option<Svn>, u16, &[u8], &[u8]) {
        let record = &self.timing_parameters[row * S::NUM_SATS + slot];
        (record.svn, record.authbits, &record.age, &record.data)
    }

    /// How many records have a count that is not zero.
    pub fn counted(&self) -> usize {
        self.ced_and_status.iter().filter(|x| x.authbits != 0).count()
            + self.timing_parameters.iter().filter(|x| x.authbits != 0).count()
    }
}
