//! Histories: random lines for several participants, each of which has something to do.
use std::fmt::{self, Display};

/// Participants of a history at most.
const PARTICIPANTS: usize = 6;

/// Places for bags, more than any history fills.
const PLACES: usize = 256;

/// Pauses within pauses at most.
const DEPTH: usize = 3;

/// A participant, and the number of one of its guards.
#[derive(Clone, Copy)]
pub enum Line {
    Register(usize),
    Pin(usize, usize),
    Unpin(usize, usize),
    Repin(usize, usize),
    Pause(usize, usize),
    Resume(usize, usize),
    Defer(usize, usize),
    DeferUnprotected(usize),
    Flush(usize, usize),
    Release(usize),
    Look(usize),
    End,
}

impl Display for Line {
    fn fmt(&self, out: &mut fmt::Formatter) -> fmt::Result {
        match self {
            Line::Register(_) => write!(out, "register"),
            Line::Pin(at, _) => write!(out, "call {at} pin"),
            Line::Unpin(at, guard) => write!(out, "call {at} unpin {guard}"),
            Line::Repin(at, guard) => write!(out, "call {at} repin {guard}"),
            Line::Pause(at, guard) => write!(out, "call {at} pause {guard}"),
            Line::Resume(at, guard) => write!(out, "call {at} resume {guard}"),
            Line::Defer(at, guard) => write!(out, "call {at} defer {guard}"),
            Line::DeferUnprotected(at) => write!(out, "call {at} defer -"),
            Line::Flush(at, guard) => write!(out, "call {at} flush {guard}"),
            Line::Release(at) => write!(out, "call {at} release"),
            Line::Look(at) => write!(out, "word {at}"),
            Line::End => write!(out, "endall"),
        }
    }
}

pub struct History {
    pub lines: Vec<Line>,
    /// Jobs that are deferred and not called at once.
    pub jobs: u64,
}

impl History {
    /// The script of `epoch-run`.
    pub fn text(&self) -> String {
        let mut text = format!("shape {PARTICIPANTS} 0 0 0 {PLACES} 1 0 0\n");
        for line in &self.lines {
            text += &format!("{line}\n");
        }
        text
    }
}

/// Random numbers by SplitMix64.
struct Random(u64);

impl Random {
    fn below(&mut self, bound: u64) -> u64 {
        self.0 = self.0.wrapping_add(0x9e37_79b9_7f4a_7c15);
        let mut mixed = self.0;
        mixed = (mixed ^ (mixed >> 30)).wrapping_mul(0xbf58_476d_1ce4_e5b9);
        mixed = (mixed ^ (mixed >> 27)).wrapping_mul(0x94d0_49bb_1331_11eb);
        (mixed ^ (mixed >> 31)) % bound
    }
}

/// What a participant has out.
#[derive(Clone, Default)]
struct Player {
    is_registered: bool,
    /// Whether each guard number is out.
    guards: Vec<bool>,
    paused: Option<usize>,
    /// The line at which it was pinned.
    since: usize,
}

impl Player {
    fn guards_out(&self) -> Vec<usize> {
        (0..self.guards.len()).filter(|guard| self.guards[*guard]).collect()
    }

    fn lowest(&self) -> usize {
        (0..)
            .find(|guard| !self.guards.get(*guard).copied().unwrap_or(false))
            .unwrap()
    }
}

struct Maker {
    random: Random,
    players: Vec<Player>,
    paused: Vec<(usize, usize)>,
    lines: Vec<Line>,
    jobs: u64,
    /// How many of a hundred lines defer.
    deferrals: u64,
    /// Lines after which a participant doesn't stay pinned any longer.
    patience: usize,
}

/// A history of about that many lines.
pub fn history(lines: u64, seed: u64) -> History {
    let mut random = Random(seed.wrapping_mul(0x2545_f491_4f6c_dd1d));
    let players = 1 + random.below(PARTICIPANTS as u64) as usize;
    let deferrals = [5, 20, 40, 80][random.below(4) as usize];
    let patience = [5, 20, 60, 150][random.below(4) as usize];
    let players = vec![Player::default(); players];
    let mut maker = Maker {
        random,
        players,
        paused: vec![],
        lines: vec![],
        jobs: 0,
        deferrals,
        patience,
    };
    while (maker.lines.len() as u64) < lines {
        maker.next();
    }
    maker.end();
    History {
        lines: maker.lines,
        jobs: maker.jobs,
    }
}

impl Maker {
    fn next(&mut self) {
        let at = self.random.below(self.players.len() as u64) as usize;
        let player = self.players[at].clone();
        if !player.is_registered {
            // The lowest free position is the one that is taken.
            let lowest = self.players.iter().position(|player| !player.is_registered).unwrap();
            return self.push(Line::Register(lowest));
        }
        if let Some(guard) = player.paused {
            if self.paused.last() == Some(&(at, guard)) {
                self.push(Line::Resume(at, guard));
            }
            return;
        }
        let guards = player.guards_out();
        let Some(guard) = self.one_of(&guards) else {
            let line = match self.random.below(100) {
                0..=1 => Line::Release(at),
                2..=4 => Line::Look(at),
                5 => Line::DeferUnprotected(at),
                _ => Line::Pin(at, 0),
            };
            return self.push(line);
        };
        if self.lines.len() - player.since > self.patience {
            return self.push(Line::Unpin(at, guard));
        }
        if self.random.below(100) < self.deferrals {
            return self.push(Line::Defer(at, guard));
        }
        let line = match self.random.below(100) {
            0..=34 => Line::Flush(at, guard),
            35..=64 => Line::Unpin(at, guard),
            65..=79 => Line::Repin(at, guard),
            80..=84 if self.paused.len() < DEPTH => Line::Pause(at, guard),
            85..=94 if guards.len() < 4 => Line::Pin(at, player.lowest()),
            _ => Line::Look(at),
        };
        self.push(line);
    }

    fn one_of(&mut self, guards: &[usize]) -> Option<usize> {
        let bound = guards.len().max(1) as u64;
        guards.get(self.random.below(bound) as usize).copied()
    }

    fn push(&mut self, line: Line) {
        let now = self.lines.len();
        self.lines.push(line);
        match line {
            Line::Register(at) => {
                self.players[at] = Player {
                    is_registered: true,
                    ..Player::default()
                }
            }
            Line::Pin(at, guard) => {
                let player = &mut self.players[at];
                if player.guards_out().is_empty() {
                    player.since = now;
                }
                player.guards.resize(player.guards.len().max(guard + 1), false);
                player.guards[guard] = true;
            }
            Line::Unpin(at, guard) => self.players[at].guards[guard] = false,
            Line::Pause(at, guard) => {
                self.players[at].paused = Some(guard);
                self.paused.push((at, guard));
            }
            Line::Resume(at, _) => {
                self.players[at].paused = None;
                self.players[at].since = now;
                self.paused.pop();
            }
            Line::Release(at) => self.players[at] = Player::default(),
            Line::Defer(..) => self.jobs += 1,
            Line::Repin(..) | Line::DeferUnprotected(_) | Line::Flush(..) | Line::Look(_) | Line::End => {}
        }
    }

    /// Ends each pause, gives each guard back, releases each participant, and ends the collector.
    fn end(&mut self) {
        while let Some((at, guard)) = self.paused.last().copied() {
            self.push(Line::Resume(at, guard));
        }
        for at in 0..self.players.len() {
            for guard in self.players[at].guards_out() {
                self.push(Line::Unpin(at, guard));
            }
            if self.players[at].is_registered {
                self.push(Line::Release(at));
            }
        }
        self.push(Line::End);
    }
}
