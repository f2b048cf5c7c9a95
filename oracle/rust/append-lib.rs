
// ---- appended by oracle/build ----
pub use crate::connection::harness::{run as oracle_run, run_into as oracle_run_into, Options as OracleOptions};
