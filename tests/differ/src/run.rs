//! Feeds a program with cases, reads its answers and compares them.

use std::{
    collections::BTreeMap,
    io::{BufRead, BufReader, BufWriter, Read, Write},
    path::Path,
    process::{Child, Command, Stdio},
    sync::mpsc::{Receiver, Sender, SyncSender, channel, sync_channel},
    thread,
    time::{Duration, Instant},
};

use corpus::{Case, Family};

use crate::part::Part;

/// How many mismatches are shown, and how much of each text.
const SHOWN: usize = 5;
const SHOWN_BYTES: usize = 240;

/// Answers read before they are compared.
const AHEAD: usize = 32;

/// Bytes held on each side of the program.
const BUFFER: usize = 65_536;

/// What a run found.
pub struct Outcome {
    begun: Instant,
    counts: BTreeMap<Family, usize>,
    pub mismatches: usize,
    /// What is wrong besides single answers.
    troubles: Vec<String>,
    took: Duration,
}

/// A case whose answer has not come yet.
struct Pending {
    case: Case,
    expected: Vec<u8>,
}

impl Outcome {
    pub fn begun() -> Self {
        Self {
            begun: Instant::now(),
            counts: BTreeMap::new(),
            mismatches: 0,
            troubles: Vec::new(),
            took: Duration::ZERO,
        }
    }

    /// One more case of a family.
    pub fn count(&mut self, family: Family) {
        *self.counts.entry(family).or_default() += 1;
    }

    pub fn ended(self) -> Self {
        Self { took: self.begun.elapsed(), ..self }
    }

    pub fn agrees(&self) -> bool {
        self.mismatches == 0 && self.troubles.is_empty()
    }

    /// The counts by family, then the result in one line.
    pub fn print(&self, name: &str) {
        for (family, count) in &self.counts {
            println!("{:10} {count:8}", family.name());
        }
        println!("{:10} {:8.1} s", "time", self.took.as_secs_f64());
        for trouble in &self.troubles {
            println!("{name}: {trouble}");
        }
        let cases: usize = self.counts.values().sum();
        println!("{name}: {cases} cases, {} mismatches", self.mismatches);
    }
}

/// Runs the program over all cases. Feeding, reading and comparing are threads of their own:
/// a program may keep answers back until it has read more or all of its input.
pub fn run(
    part: &Part,
    program: &Path,
    patience: Duration,
    cases: impl Iterator<Item = Case> + Send,
) -> Outcome {
    let mut outcome = Outcome::begun();
    let mut child = start(program);
    let (stdin, stdout) = (child.stdin.take().unwrap(), child.stdout.take().unwrap());
    // Not bounded: the pipe holds the feeder back, and a bound could stop it before an answer.
    let (pending, to_compare) = channel();
    let (lines, expected_lines) = channel();
    let (answers, to_read) = sync_channel(AHEAD);

    thread::scope(|scope| {
        scope.spawn(|| feed(part, stdin, cases, pending, lines));
        scope.spawn(|| read(expected_lines, stdout, answers));
        if let Err(trouble) = compare(&to_compare, &to_read, patience, &mut outcome) {
            outcome.troubles.push(trouble);
            // Ends both threads, whichever pipe they wait for.
            let _ = child.kill();
        }
        drop((to_compare, to_read));
    });
    let status = child.wait().expect("the program is waited for");
    if outcome.troubles.is_empty() && !status.success() {
        outcome.troubles.push(format!("the program ended with {status}"));
    }
    outcome.ended()
}

/// The shell lifts the limit on the stack; then the program takes its place.
fn start(program: &Path) -> Child {
    Command::new("sh")
        .args(["-c", "ulimit -s unlimited; exec \"$0\""])
        .arg(program)
        .stdin(Stdio::piped())
        .stdout(Stdio::piped())
        .spawn()
        .expect("a shell starts")
}

/// Hands each case on before its frame is written. Ends early if the program or the comparer does.
fn feed(
    part: &Part,
    stdin: impl Write,
    cases: impl Iterator<Item = Case>,
    pending: Sender<Pending>,
    lines: Sender<usize>,
) {
    let mut stdin = BufWriter::with_capacity(BUFFER, stdin);
    for case in cases {
        let exchange = (part.exchange)(&case);
        let count = exchange.expected.iter().filter(|&&byte| byte == b'\n').count();
        if lines.send(count).is_err() {
            return;
        }
        let sent = pending.send(Pending { case, expected: exchange.expected });
        if sent.is_err() || stdin.write_all(&exchange.frame).is_err() {
            return;
        }
    }
    // A program that ended before is noticed by its missing answers.
    let _ = stdin.flush();
}

/// Sends on each answer, of as many lines as are expected, then what is left: nothing at the proper end.
fn read(lines: Receiver<usize>, stdout: impl Read, answers: SyncSender<Vec<u8>>) {
    let mut stdout = BufReader::with_capacity(BUFFER, stdout);
    for count in lines {
        let mut answer = Vec::new();
        for _ in 0..count {
            stdout.read_until(b'\n', &mut answer).expect("the pipe is read");
        }
        let ended = answer.is_empty();
        if answers.send(answer).is_err() || ended {
            return;
        }
    }
    let mut rest = Vec::new();
    stdout.read_until(b'\n', &mut rest).expect("the pipe is read");
    let _ = answers.send(rest);
}

fn compare(
    pending: &Receiver<Pending>,
    answers: &Receiver<Vec<u8>>,
    patience: Duration,
    outcome: &mut Outcome,
) -> Result<(), String> {
    let next = |count: usize| {
        let late = |_| format!("no answer for {} s after {count} answers", patience.as_secs());
        answers.recv_timeout(patience).map_err(late)
    };
    let mut count = 0;
    for Pending { case, expected } in pending {
        let answer = next(count).inspect_err(|_| outcome.mismatches += 1)?;
        outcome.count(case.family);
        if answer != expected {
            outcome.mismatches += 1;
            if outcome.mismatches <= SHOWN {
                show(&case, &expected, &answer);
            }
        }
        if answer.is_empty() {
            return Err(format!("the program stopped after {count} answers"));
        }
        count += 1;
    }
    if next(count)?.is_empty() {
        Ok(())
    } else {
        Err(format!("the program wrote more than {count} answers"))
    }
}

/// A case, and its two answers around the first place where they differ.
pub fn show(case: &Case, expected: &[u8], answer: &[u8]) {
    let same = expected.iter().zip(answer).take_while(|(a, b)| a == b).count();
    let Case { family, limit, source, .. } = case;
    println!("mismatch in {} ({} bytes, limit {limit})", family.name(), source.len());
    println!("  source   {}", shortened(source, 0));
    println!("  expected {}", shortened(expected, same));
    println!("  answer   {}", shortened(answer, same));
}

/// The text around a place, escaped.
pub fn shortened(text: &[u8], place: usize) -> String {
    let start = place.saturating_sub(SHOWN_BYTES / 2).min(text.len());
    let end = text.len().min(start + SHOWN_BYTES);
    let dots = |cut: bool| if cut { "..." } else { "" };
    format!("{}{}{}", dots(start > 0), text[start..end].escape_ascii(), dots(end < text.len()))
}
