//! Traces through the original and through a second program; stops at the first difference with the shortened trace.
//!
//!     compare N SEED                    N traces of the seed
//!     compare --wide N SEED             the same under the library's bounds, first own ids near the top (model only)
//!     compare --exhaustive DEPTH NAME   every sequence of DEPTH events over an alphabet: small, remote, own, both
//!     compare --loose N SEED            traces the original cannot follow: the model and the second program alone
//!     compare --list N SEED             N traces with the original's answers, chosen for what they reach
//!     compare --answer < TRACES         the original's answers to the traces of such a list
//!     compare --hex SEED INDEX          one trace
//!
//! `--command CMD` is the second program, a path; `model` (the rules in this process, bodies compared too) by default.

#[path = "../model/mod.rs"]
mod model;

mod exhaustive;
mod gen;
mod list;
mod loose;
mod shrink;

use gen::Trace;
use std::collections::BTreeMap;
use std::fs::File;
use std::process::Command;
use yamux::{oracle_run, OracleOptions};

/// What the original's lines are compared with.
pub enum Second {
    Model,
    Program(String),
}

impl Second {
    fn lines(&self, trace: &Trace) -> String {
        match self {
            Second::Model => {
                let bounds = if trace.wide { model::WIDE } else { model::REPLAY };
                model::trace::run(&trace.bytes(), bounds, trace.next_id, true)
            }
            Second::Program(program) => Self::of_program(program, &trace.bytes()),
        }
    }

    fn of_program(program: &str, bytes: &[u8]) -> String {
        let path = std::env::temp_dir().join(format!("oracle-trace-{}", std::process::id()));
        std::fs::write(&path, bytes).expect("trace file");
        let input = File::open(&path).expect("trace file");
        let output = Command::new(program).stdin(input).output();
        let output = output.unwrap_or_else(|e| panic!("{program}: {e}"));
        let _ = std::fs::remove_file(&path);
        let mut lines = String::from_utf8_lossy(&output.stdout).into_owned();
        lines += &String::from_utf8_lossy(&output.stderr); // a message is a difference
        if !output.status.success() {
            lines += &format!("{program}: {}\n", output.status);
        }
        lines
    }

    fn original(&self, trace: &Trace) -> String {
        let bodies = matches!(self, Second::Model);
        let options = OracleOptions { wide: trace.wide, next_id: trace.next_id, bodies, ..Default::default() };
        oracle_run(&trace.bytes(), &options)
    }
}

#[derive(Default)]
pub struct Tally {
    traces: u64,
    events: u64,
    /// Events by kind and reply.
    replies: BTreeMap<(char, String), u64>,
}

impl Tally {
    fn add(&mut self, trace: &Trace, lines: &str) {
        self.traces += 1;
        self.events += trace.events.len() as u64;
        let numbered = lines.lines().filter(|l| l.as_bytes()[0].is_ascii_digit());
        for ((_, event), line) in trace.events.iter().zip(numbered) {
            let kind = match event {
                model::Event::Frame(h, _) => b"DUPG??"[usize::from(h[1].min(4))] as char,
                model::Event::Tick => 't',
                model::Event::Open => 'o',
                model::Event::Read(..) => 'r',
                model::Event::Write(..) => 'w',
                model::Event::Close(_) => 'c',
                model::Event::Drop(_) => 'd',
                model::Event::Gone => 'g',
            };
            let fields: Vec<&str> = line.split(' ').collect();
            let header = if fields[4] == "-" { "" } else { "h" };
            let wakes = fields[5].trim_matches('-');
            *self.replies.entry((kind, format!("{}{header}{wakes}", fields[1]))).or_default() += 1;
        }
    }

    fn print(&self) {
        println!("{} traces, {} events: no difference", self.traces, self.events);
        let mut kind = ' ';
        for ((k, what), n) in &self.replies {
            print!("{}{what}:{n}", if *k == kind { " ".into() } else { format!("\n  {k} ") });
            kind = *k;
        }
        println!();
    }
}

/// The model and the second program on a trace that the original cannot follow.
fn check_loose(bytes: &[u8], program: &str, tally: &mut Tally) {
    let left = model::trace::run(bytes, model::REPLAY, None, false);
    let right = Second::of_program(program, bytes);
    tally.traces += 1;
    tally.events += left.lines().count() as u64 - 1;
    for line in left.lines() {
        let word = match line.split(' ').nth(usize::from(line.as_bytes()[0].is_ascii_digit())) {
            Some("config") => line,
            word => word.unwrap_or(""),
        };
        *tally.replies.entry(('*', word.into())).or_default() += 1;
    }
    if left == right {
        return;
    }
    println!("difference at trace {}: {}", tally.traces, model::trace::hex(bytes));
    let lines = left.lines().zip(right.lines()).find(|(l, r)| l != r);
    println!("-- the model, the second\n{lines:?}");
    std::process::exit(1)
}

/// The two sets of lines, or the report of a difference.
pub fn check(trace: &Trace, second: &Second, tally: &mut Tally) {
    let (left, right) = (second.original(trace), second.lines(trace));
    if left == right {
        return tally.add(trace, &left);
    }
    println!("difference after {} traces, {} events without one", tally.traces, tally.events);
    let differs = |t: &Trace| gen::is_followed(t) && second.original(t) != second.lines(t);
    let short = shrink::shrink(trace.clone(), &differs);
    println!("settings {:?}, first own id {:?}", short.settings.numbers(), short.next_id);
    print!("{}", list::short_trace(&short));
    println!("-- the original\n{}", list::short_lines(&second.original(&short)));
    println!("-- the second\n{}", list::short_lines(&second.lines(&short)));
    std::process::exit(1)
}

fn main() {
    std::panic::set_hook(Box::new(|p| {
        if !p.location().is_some_and(|l| l.file().starts_with("src/")) {
            eprintln!("{p}");
        }
    }));
    let mut words = Vec::new();
    let mut second = Second::Model;
    let mut args = std::env::args().skip(1);
    while let Some(a) = args.next() {
        match a.as_str() {
            "--command" => match args.next().expect("--command CMD").as_str() {
                "model" => second = Second::Model,
                program => second = Second::Program(program.into()),
            },
            _ => words.push(a),
        }
    }
    let words: Vec<&str> = words.iter().map(String::as_str).collect();
    let number = |w: &str| w.parse::<u64>().unwrap_or_else(|_| panic!("{w}: not a number"));
    let mut tally = Tally::default();
    match words[..] {
        ["--hex", seed, index] => {
            println!("{}", model::trace::hex(&gen::trace(number(seed), number(index), false).bytes()));
            return;
        }
        ["--list", n, seed] => return list::print(number(n) as usize, number(seed)),
        ["--answer"] => return list::answer(),
        ["--exhaustive", depth, name] => exhaustive::run(number(depth) as usize, name, &second, &mut tally),
        ["--wide", n, seed] if matches!(second, Second::Model) => {
            for index in 0..number(n) {
                check(&gen::trace(number(seed), index, true), &second, &mut tally);
            }
        }
        ["--loose", n, seed] => {
            let Second::Program(program) = &second else { panic!("--loose needs --command PROGRAM") };
            for index in 0..number(n) {
                check_loose(&loose::bytes(number(seed), index), program, &mut tally);
            }
        }
        [n, seed] => {
            for index in 0..number(n) {
                check(&gen::trace(number(seed), index, false), &second, &mut tally);
            }
        }
        _ => panic!(
            "compare [--command CMD] [--wide] N SEED | --exhaustive DEPTH NAME | --loose N SEED | --list N SEED | --answer | --hex SEED INDEX"
        ),
    }
    tally.print();
}
