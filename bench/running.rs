//! The same runtime in plain Rust, each thread over one table of atomic words: `running BUDGET SCRIPT` prints what `ompdlive` prints.

mod actor;
mod model;
mod script;
mod words;

use actor::{next, opening, resume, Outcome};
use model::{event_text, Event};
use script::{parse, Program, Stage};
use std::io::Write;
use std::sync::atomic::{AtomicU64, Ordering::SeqCst};
use words::{opening_image, Layout, Op, BASE};

/// What a thread keeps of a step: its operation, and the word that this found.
type Made = (Op, u64);

/// Makes an operation on its word, and answers the word before.
fn apply(words: &[AtomicU64], op: Op) -> u64 {
    let word = &words[((op.at() - BASE) >> 3) as usize];
    match op {
        Op::Load { .. } => word.load(SeqCst),
        Op::Store { new, .. } => word.swap(new, SeqCst),
        Op::Cas { old, new, .. } => word.compare_exchange(old, new, SeqCst, SeqCst).unwrap_or_else(|found| found),
        Op::Add { by, .. } => word.fetch_add(by, SeqCst),
        Op::Sub { by, .. } => word.fetch_sub(by, SeqCst),
    }
}

/// Makes at most so many steps of a thread. It ends behind `done`.
fn work(p: &Program, l: &Layout, words: &[AtomicU64], thread: u8, budget: u64) -> (Vec<Made>, Vec<(u64, Event)>) {
    let mut actor = opening(p, thread);
    let mut made = Vec::with_capacity(budget as usize);
    let mut events = Vec::with_capacity(budget as usize);
    for step in 1..=budget {
        let op = next(p, l, &actor);
        let old = apply(words, op);
        made.push((op, old));
        if let Outcome::Event(event) = resume(p, l, &mut actor, old) {
            let is_last = event == Event::Done;
            events.push((step, event));
            if is_last {
                break;
            }
        }
    }
    (made, events)
}

fn main() {
    let args: Vec<String> = std::env::args().skip(1).collect();
    let budget = args[0].parse().expect("a budget");
    let stage = Stage { free_records: true, groups: true };
    let text = std::fs::read_to_string(&args[1]).expect("a script");
    let p = parse(&text, stage).expect("a program");
    let l = Layout::family(0, p.threads, 2);
    let words: Vec<AtomicU64> = opening_image(&p, &l).w.into_iter().map(AtomicU64::new).collect();
    let (p, l, words) = (&p, &l, &words[..]);
    let ran: Vec<_> = std::thread::scope(|scope| {
        let threads: Vec<_> = (0..p.threads).map(|thread| scope.spawn(move || work(p, l, words, thread, budget))).collect();
        threads.into_iter().map(|thread| thread.join().expect("a thread")).collect()
    });
    let mut out = std::io::BufWriter::new(std::io::stdout().lock());
    for (thread, (made, events)) in ran.iter().enumerate() {
        let _ = writeln!(out, "thread {} steps {}", thread, made.len());
        for (step, event) in events {
            let _ = writeln!(out, "{} t{} {}", step, thread, event_text(event));
        }
    }
    let _ = writeln!(out, "end budget {}", budget);
}
