
// ---- appended by oracle/build ----
pub(crate) mod harness;
