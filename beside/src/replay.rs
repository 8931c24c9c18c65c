//! A history on crossbeam-epoch, and on `epoch-run`.
use crate::script::{History, Line};
use crossbeam_epoch::{unprotected, Collector, Guard, LocalHandle};
use std::cell::RefCell;
use std::io::Write;
use std::process::{Command, Stdio};
use std::rc::Rc;
use std::thread;

/// What each line of a history did on one side.
pub struct Calls {
    /// The deferred jobs that it called, in order. The first job of a history has the number 0.
    pub jobs: Vec<Vec<u64>>,
    /// Whether it called a job of its own at once.
    pub at_once: Vec<bool>,
    /// Whether it saw the participant pinned, where it looks.
    pub pinned: Vec<Option<bool>>,
}

impl Calls {
    fn new(lines: usize) -> Calls {
        Calls {
            jobs: vec![vec![]; lines],
            at_once: vec![false; lines],
            pinned: vec![None; lines],
        }
    }
}

/// A participant: its handle, and its guards by their numbers.
#[derive(Default)]
struct Participant {
    handle: Option<LocalHandle>,
    guards: Vec<Option<Guard>>,
}

struct Original<'h> {
    history: &'h History,
    collector: Option<Collector>,
    participants: Vec<Participant>,
    /// The line that is being done.
    line: usize,
    jobs: u64,
    calls: Rc<RefCell<(usize, Calls)>>,
}

/// Does the history on crossbeam-epoch.
pub fn on_original(history: &History) -> Calls {
    let calls = Rc::new(RefCell::new((0, Calls::new(history.lines.len()))));
    let mut original = Original {
        history,
        collector: Some(Collector::new()),
        participants: vec![],
        line: 0,
        jobs: 0,
        calls: Rc::clone(&calls),
    };
    original.go_on();
    drop(original);
    Rc::into_inner(calls).expect("each job was called").into_inner().1
}

impl Original<'_> {
    /// Does lines up to the end, or up to the one that ends the pause that is under way.
    fn go_on(&mut self) {
        while let Some(line) = self.history.lines.get(self.line).copied() {
            self.calls.borrow_mut().0 = self.line;
            self.line += 1;
            match line {
                Line::Pause(at, guard) => {
                    let mut paused = self.participants[at].guards[guard].take().unwrap();
                    paused.repin_after(|| self.go_on());
                    self.participants[at].guards[guard] = Some(paused);
                }
                Line::Resume(..) => return,
                _ => self.perform(line),
            }
        }
    }

    fn perform(&mut self, line: Line) {
        match line {
            Line::Register(at) => {
                self.participants
                    .resize_with(self.participants.len().max(at + 1), Participant::default);
                self.participants[at].handle = self.collector.as_ref().map(Collector::register);
            }
            Line::Pin(at, guard) => {
                let participant = &mut self.participants[at];
                participant
                    .guards
                    .resize_with(participant.guards.len().max(guard + 1), || None);
                participant.guards[guard] = participant.handle.as_ref().map(LocalHandle::pin);
            }
            Line::Unpin(at, guard) => drop(self.participants[at].guards[guard].take()),
            Line::Repin(at, guard) => self.participants[at].guards[guard].as_mut().unwrap().repin(),
            Line::Defer(at, guard) => {
                let (job, calls) = (self.jobs, Rc::clone(&self.calls));
                self.jobs += 1;
                let run = move || {
                    let (line, calls) = &mut *calls.borrow_mut();
                    calls.jobs[*line].push(job);
                };
                // SAFETY: all of this is on one thread.
                unsafe {
                    self.participants[at].guards[guard]
                        .as_ref()
                        .unwrap()
                        .defer_unchecked(run)
                };
            }
            Line::DeferUnprotected(_) => {
                let calls = Rc::clone(&self.calls);
                let run = move || {
                    let (line, calls) = &mut *calls.borrow_mut();
                    calls.at_once[*line] = true;
                };
                // SAFETY: all of this is on one thread.
                unsafe { unprotected().defer_unchecked(run) };
            }
            Line::Flush(at, guard) => self.participants[at].guards[guard].as_ref().unwrap().flush(),
            Line::Release(at) => self.participants[at].handle = None,
            Line::Look(at) => {
                let is_pinned = self.participants[at].handle.as_ref().unwrap().is_pinned();
                let (line, calls) = &mut *self.calls.borrow_mut();
                calls.pinned[*line] = Some(is_pinned);
            }
            Line::End => self.collector = None,
            Line::Pause(..) | Line::Resume(..) => unreachable!(),
        }
    }
}

/// Does the history on the program.
pub fn on_port(history: &History, program: &str) -> Result<Calls, String> {
    let mut child = Command::new(program)
        .stdin(Stdio::piped())
        .stdout(Stdio::piped())
        .spawn()
        .map_err(|error| format!("{program}: {error}"))?;
    let (text, mut input) = (history.text(), child.stdin.take().unwrap());
    let writer = thread::spawn(move || input.write_all(text.as_bytes()));
    let output = child.wait_with_output().map_err(|error| error.to_string())?;
    let written = writer.join().unwrap();
    if !output.status.success() || written.is_err() {
        return Err(format!("{program} ended with {}", output.status));
    }
    let answers = String::from_utf8(output.stdout).map_err(|error| error.to_string())?;
    read_answers(history, &answers)
}

fn read_answers(history: &History, answers: &str) -> Result<Calls, String> {
    let mut calls = Calls::new(history.lines.len());
    let mut answers = answers.lines();
    for (number, line) in history.lines.iter().enumerate() {
        loop {
            let answer = answers
                .next()
                .ok_or(format!("line {}: no answer: {line}", number + 2))?;
            let words: Vec<&str> = answer.split(' ').collect();
            match (words[..].first().copied().unwrap_or(""), line) {
                ("called", _) => calls.jobs[number].push(words[1].parse().unwrap()),
                ("called-now", _) => calls.at_once[number] = true,
                ("pinned" | "unpinned" | "repinned" | "deferred", _) => {}
                ("word", Line::Look(_)) => {
                    calls.pinned[number] = Some(words[1].parse::<u64>().unwrap() % 2 == 1);
                    break;
                }
                ("registered", Line::Register(at)) if words[1] == at.to_string() => break,
                ("guard", Line::Pin(_, guard) | Line::Resume(_, guard)) if words[1] == guard.to_string() => break,
                ("released", Line::Release(_)) | ("ended", Line::End) | ("done", _) => break,
                _ => return Err(format!("line {}: {line}: {answer}", number + 2)),
            }
        }
    }
    Ok(calls)
}
