//! Plays a trace while it is read: 64 KiB of its text at a time, each event as soon as its line is read. Keeps no text, no
//! events and no history, but only the reply lines, or their counts, or one flip's pair.

use crate::collector::{StepReply, World};
use crate::cursor::Cursor;
use crate::machine::Reply;
use crate::text::{self, Answer, Event};
use std::io::{self, Read};

/// The most bytes of a trace.
const LIMIT: usize = 16_777_216;
const PIECE: usize = 65_536;

/// The requested result of a play.
#[derive(Clone, Copy, PartialEq)]
pub enum Wanted {
    Replies,
    Report,
    /// The pair of this flip, counted from 1.
    Pair(u32),
}

/// The numbers of a report.
#[derive(Default)]
struct Counts {
    events: u64,
    made: u64,
    full: u64,
    begun: u64,
    copied: u64,
    scanned: u64,
    applied: u64,
    flips: u64,
    pairs: u64,
    dropped: u64,
}

impl Counts {
    fn count(&mut self, answer: &Answer) {
        self.events += 1;
        match answer {
            Answer::Mutator(Reply::Made) => self.made += 1,
            Answer::Mutator(Reply::Full) => self.full += 1,
            Answer::Collector(StepReply::Begun) => self.begun += 1,
            Answer::Collector(StepReply::Copied) => self.copied += 1,
            Answer::Collector(StepReply::Scanned) => self.scanned += 1,
            Answer::Collector(StepReply::Applied) => self.applied += 1,
            Answer::Collector(StepReply::Flipped(pairs)) => {
                self.flips += 1;
                self.pairs += *pairs as u64;
            }
            Answer::Collector(StepReply::Dropped) => self.dropped += 1,
            _ => {}
        }
    }

    fn lines(&self, end: usize, size: usize) -> String {
        let Counts { events, made, full, begun, copied, scanned, applied, flips, pairs, dropped } = self;
        let free = size - end;
        format!(
            "events {events}\nmade {made}\nfull {full}\nbegun {begun}\ncopied {copied}\nscanned {scanned}\napplied {applied}\n\
             flips {flips}\npairs {pairs}\ndropped {dropped}\nrefused 0\nend {end}\nfree {free}\n"
        )
    }
}

/// A play of the lines after the heading.
struct Player {
    version: u8,
    mutators: u8,
    world: World,
    wanted: Wanted,
    counts: Counts,
    replies: Vec<u8>,
    pair: Option<Vec<u8>>,
    line: u64,
}

impl Player {
    fn new(heading: (u8, u32, u8), wanted: Wanted) -> Player {
        let (version, size, mutators) = heading;
        let world = World::new(size, mutators, matches!(wanted, Wanted::Pair(_)));
        Player { version, mutators, world, wanted, counts: Counts::default(), replies: Vec::new(), pair: None, line: 3 }
    }

    fn perform(&mut self, event: Event) {
        let answer = match event {
            Event::Mutate(m, op) => Answer::Mutator(self.world.mutate(m, op)),
            Event::Collect(step) => Answer::Collector(self.world.collect(step)),
        };
        if self.wanted == Wanted::Replies {
            text::push_answer(&mut self.replies, &answer);
            return;
        }
        self.counts.count(&answer);
        if let (Wanted::Pair(n), Answer::Collector(StepReply::Flipped(_))) = (self.wanted, &answer) {
            let kept = self.world.take_flip();
            if self.counts.flips == u64::from(n) {
                self.pair = kept.map(|(old, new, pairs)| crate::pair::text(&old, &new, &pairs));
            }
        }
    }

    /// Plays the complete lines of the text.
    fn play(&mut self, lines: &[u8]) -> Result<(), String> {
        let mut cursor = Cursor { bytes: lines, at: 0 };
        while cursor.at < lines.len() {
            let Some(event) = cursor.event(self.version) else {
                return Err(format!("trace: bad line {}", self.line));
            };
            if text::mutator_of(&event) >= self.mutators {
                return Err(format!("trace: no such mutator at line {}", self.line));
            }
            self.perform(event);
            self.line += 1;
        }
        Ok(())
    }

    fn output(self) -> Result<Vec<u8>, String> {
        match self.wanted {
            Wanted::Replies => Ok(self.replies),
            Wanted::Report => Ok(self.counts.lines(self.world.end(), self.world.size()).into_bytes()),
            Wanted::Pair(_) => self.pair.ok_or_else(|| "no such flip".to_string()),
        }
    }
}

/// Reads the rest of a trace with a fault, since a text that is too large has no other fault.
fn fault(reader: &mut impl Read, total: usize, line: String) -> io::Result<String> {
    let rest = io::copy(&mut reader.take((LIMIT + 1 - total) as u64), &mut io::sink())?;
    Ok(if total as u64 + rest > LIMIT as u64 { "trace: too large".to_string() } else { line })
}

/// Plays the reader's trace. `Err` is the line of its first fault.
pub fn played(reader: &mut impl Read, wanted: Wanted) -> io::Result<Result<Vec<u8>, String>> {
    let mut buffer = vec![0; 2 * PIECE];
    let (mut held, mut total) = (0, 0);
    let mut player: Option<Player> = None;
    loop {
        if held + PIECE > buffer.len() {
            return Ok(Err(fault(reader, total, format!("trace: bad line {}", player.map_or(1, |player| player.line)))?));
        }
        let count = reader.read(&mut buffer[held..held + PIECE])?;
        (held, total) = (held + count, total + count);
        if total > LIMIT {
            return Ok(Err("trace: too large".to_string()));
        }
        if count == 0 {
            return Ok(ended(player, held));
        }
        let Some(end) = buffer[..held].iter().rposition(|byte| *byte == b'\n').map(|at| at + 1) else {
            continue;
        };
        let mut from = 0;
        if player.is_none() {
            match text::header(&buffer[..end]) {
                Some((version, size, mutators, rest)) => {
                    from = end - rest.len();
                    player = Some(Player::new((version, size, mutators), wanted));
                }
                None if buffer[..end].iter().filter(|byte| **byte == b'\n').count() < 2 => continue,
                None => return Ok(Err(fault(reader, total, "trace: bad header".to_string())?)),
            }
        }
        if let Some(Err(line)) = player.as_mut().map(|player| player.play(&buffer[from..end])) {
            return Ok(Err(fault(reader, total, line)?));
        }
        buffer.copy_within(end..held, 0);
        held -= end;
    }
}

/// Ends a play at the end of the text: returns its output, or the line of the fault.
fn ended(player: Option<Player>, held: usize) -> Result<Vec<u8>, String> {
    match player {
        None => Err("trace: bad header".to_string()),
        Some(player) if held > 0 => Err(format!("trace: bad line {}", player.line)),
        Some(player) => player.output(),
    }
}
