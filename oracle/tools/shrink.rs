//! The shortened trace: events are left out, and what is left made plainer, while the difference stays.

use crate::gen::Trace;
use crate::model::Event;

pub fn shrink(mut trace: Trace, differs: &dyn Fn(&Trace) -> bool) -> Trace {
    loop {
        let before = (trace.events.len(), trace.bytes().len());
        leave_out(&mut trace, differs);
        make_plain(&mut trace, differs);
        if (trace.events.len(), trace.bytes().len()) == before {
            return trace;
        }
    }
}

fn leave_out(trace: &mut Trace, differs: &dyn Fn(&Trace) -> bool) {
    let mut size = trace.events.len();
    while size > 0 {
        let mut end = trace.events.len();
        while end > 0 {
            let start = end.saturating_sub(size);
            let mut shorter = trace.clone();
            shorter.events.drain(start..end);
            if differs(&shorter) {
                *trace = shorter;
            }
            end = start.min(trace.events.len());
        }
        size /= 2;
    }
}

fn make_plain(trace: &mut Trace, differs: &dyn Fn(&Trace) -> bool) {
    for k in 0..trace.events.len() {
        for time in [0, 1] {
            try_with(trace, differs, |t| t.events[k].0 = time);
        }
        for n in [0, 1, 10] {
            try_with(trace, differs, |t| cut_bytes(&mut t.events[k].1, n));
        }
    }
}

fn cut_bytes(event: &mut Event, n: usize) {
    match event {
        Event::Frame(h, body) if h[1] == 0 && body.len() > n => {
            body.truncate(n);
            h[8..12].copy_from_slice(&(n as u32).to_be_bytes());
        }
        Event::Write(_, bytes) => bytes.truncate(n),
        Event::Read(_, count) => *count = (*count).min(n as u64),
        _ => {}
    }
}

fn try_with(trace: &mut Trace, differs: &dyn Fn(&Trace) -> bool, change: impl Fn(&mut Trace)) {
    let mut plainer = trace.clone();
    change(&mut plainer);
    if plainer.bytes().len() < trace.bytes().len() && differs(&plainer) {
        *trace = plainer;
    }
}
