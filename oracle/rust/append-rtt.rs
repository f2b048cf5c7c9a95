
// ---- appended by oracle/build ----
impl Rtt {
    /// Set the id of the first ping.
    pub(crate) fn oracle_set_next_id(&self, id: u32) {
        self.next_id.store(id, Ordering::Relaxed)
    }
}
