//! The loop over frames, and the faults that lie outside an answer.

use std::{
    env,
    io::{self, StdinLock, Write},
    process::exit,
    thread,
    time::Duration,
};

/// Answers before the faults `stop` and `hang` show.
const RIGHT_ANSWERS: usize = 100;

/// What the fault `extra` adds.
const EXTRA: &[u8] = b"0 0 2 0\n";

/// Answers frames until `answer` says that there is none.
pub fn serve(answer: impl Fn(&str, &mut StdinLock, &mut Vec<u8>) -> Option<()>) -> ! {
    let fault = env::var("IMITATION").unwrap_or_default();
    let (mut stdin, mut out) = (io::stdin().lock(), Vec::new());
    let mut answers = 0;
    while answer(&fault, &mut stdin, &mut out).is_some() {
        answers += 1;
        if answers == RIGHT_ANSWERS {
            stop_or_hang(&fault);
        }
        // Keeps a little back, as a program with a buffer does; the fault `hold` keeps all.
        if out.len() > 4_000 && fault != "hold" {
            io::stdout().write_all(&out).unwrap();
            out.clear();
        }
    }
    if fault == "extra" {
        out.extend(EXTRA);
    }
    io::stdout().write_all(&out).unwrap();
    exit(if fault == "exit" { 3 } else { 0 });
}

fn stop_or_hang(fault: &str) {
    match fault {
        "stop" => exit(0),
        "hang" => thread::sleep(Duration::from_secs(3600)),
        _ => {},
    }
}
