//! `model [--bodies] [--wide] [--next-id N] < TRACE`: the lines that the rules give.

#[path = "mod.rs"]
mod model;

use std::io::{Read, Write};

fn main() {
    let mut args = std::env::args().skip(1);
    let (mut bodies, mut bounds, mut next_id) = (false, model::REPLAY, None);
    while let Some(a) = args.next() {
        match a.as_str() {
            "--bodies" => bodies = true,
            "--wide" => bounds = model::WIDE,
            "--next-id" => next_id = args.next().and_then(|n| n.parse().ok()),
            _ => panic!("model: {a}: no such option"),
        }
    }
    let mut trace = Vec::new();
    std::io::stdin().read_to_end(&mut trace).expect("standard input");
    let out = model::trace::run(&trace, bounds, next_id, bodies);
    std::io::stdout().write_all(out.as_bytes()).expect("standard output");
}
