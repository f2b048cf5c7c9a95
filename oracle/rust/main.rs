//! `oracle [--bodies] [--wide] [--quiet] [--next-id N] < TRACE`: the lines that the original gives; quiet, the last alone.

use std::io::{BufReader, BufWriter, Write};

fn main() {
    let mut options = yamux::OracleOptions::default();
    let mut args = std::env::args().skip(1);
    while let Some(a) = args.next() {
        match a.as_str() {
            "--bodies" => options.bodies = true,
            "--wide" => options.wide = true,
            "--quiet" => options.quiet = true,
            "--next-id" => options.next_id = args.next().and_then(|n| n.parse().ok()),
            _ => panic!("oracle: {a}: no such option"),
        }
    }
    let trace = BufReader::with_capacity(1 << 16, std::io::stdin());
    let mut out = BufWriter::with_capacity(1 << 16, std::io::stdout());
    yamux::oracle_run_into(trace, &options, &mut out).expect("standard output");
    out.flush().expect("standard output");
}
