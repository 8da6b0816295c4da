//! A runner of sheets over the Rust's `dispatch_with`, written for speed. It
//! keeps what the port promises: the same numbers and bytes, no heap, and no
//! byte touched past those written. Where `dispatch_with` does not show enough
//! for that, `Run::dispatch` says so.

mod read;
mod write;

use mallardtray::Answer;
use openprot_orchestrator_sm::{Chain, ChainError, Effect, EffectError, Event};
use oracle::histories::Reply;
use oracle::lists::answer::Answer as Verdict;
use oracle::sheets::{Line, Refusal};
use oracle::steps::answer::Rust;

use read::{Components, Lines};
use write::Transcript;

/// Runs a sheet and writes its transcript to `out`.
pub fn run(sheet: &[u8], out: &mut [u8], limit: u64) -> Answer {
    let mut run = Run {
        transcript: Transcript::new(out),
        settled: 0,
        limit,
    };
    let refusal = match run.whole(sheet) {
        Ok(()) => Refusal::NONE,
        Err(refusal) => refusal,
    };
    Answer {
        number: refusal.number,
        place: refusal.place,
        other: refusal.other,
        written: run.transcript.written() as u64,
        settled: run.settled,
    }
}

const NO_ROOM: Refusal = Refusal::new(8, 0, 0);
const LIMIT_MET: Refusal = Refusal::new(9, 0, 0);

struct Run<'a> {
    transcript: Transcript<'a>,
    /// The events settled; `Run::dispatch` says when it may be too high.
    settled: u64,
    limit: u64,
}

impl Run<'_> {
    /// Every question, in document 01's order.
    fn whole(&mut self, sheet: &[u8]) -> Result<(), Refusal> {
        let (head, mut lines) = read::read(sheet).map_err(bad_line)?;
        let components = head.components.clone();
        let chain = Chain::try_from(head.components).map_err(refused_chain)?;
        let mut machine = Rust::new(chain, head.max_retry);
        while let Some(line) = lines.next_line() {
            match line {
                Line::Event(event) => self.dispatch(&mut machine, event, &mut lines)?,
                Line::Reply(_) => return Err(stray_reply(&lines)),
            }
        }
        self.statuses(&machine, &components)
    }

    /// One E line. `dispatch_with` shows neither its queue nor the events that
    /// it takes, and runs to its end. So:
    ///
    /// - Settled events are counted where they are queued. All that are queued
    ///   are taken before the end, unless 8 wait and one is put out or lost.
    ///   The count is then too high. It can also be too high where the room
    ///   ends while events wait.
    /// - The limit is put before the event of each E line. If events that are
    ///   fed back go past it, the answer is 9 as well, but the lines that they
    ///   write are there.
    /// - After a line that finds no room every reply is a failure, which ends
    ///   the dispatch. The machine is not looked at again.
    fn dispatch(
        &mut self,
        machine: &mut Rust,
        event: Event,
        lines: &mut Lines,
    ) -> Result<(), Refusal> {
        if self.settled >= self.limit {
            return Err(LIMIT_MET);
        }
        let mut settled = self.settled + 1;
        let mut no_room = false;
        let mut failed = false;
        machine.dispatch_with(event, |effect| {
            if no_room || !self.transcript.effect(&effect) {
                no_room = true;
                return Err(EffectError);
            }
            let reply = lines.next_reply();
            settled += queued(&effect, reply, failed);
            failed |= reply == Reply::Failed;
            reply.result()
        });
        self.settled = settled;
        if no_room {
            return Err(NO_ROOM);
        }
        if settled > self.limit {
            return Err(LIMIT_MET);
        }
        fits(self.transcript.state(machine.state()))
    }

    fn statuses(&mut self, machine: &Rust, components: &Components) -> Result<(), Refusal> {
        for (position, (id, _)) in components.iter().enumerate() {
            fits(self.transcript.status(*id, machine.status(position)))?;
        }
        Ok(())
    }
}

/// How many events are queued after this reply to this effect: the one fed back,
/// the Emit that follows each report of a failed recovery, and EffectFailed at
/// the first failure.
fn queued(effect: &Effect, reply: Reply, failed: bool) -> u64 {
    let emitted = u64::from(matches!(effect, Effect::ReportRecoveryFailed(_)));
    match reply {
        Reply::Done => emitted,
        Reply::Then(_) => emitted + 1,
        Reply::Failed => u64::from(!failed),
    }
}

fn fits(room: bool) -> Result<(), Refusal> {
    if room { Ok(()) } else { Err(NO_ROOM) }
}

fn bad_line(line: usize) -> Refusal {
    Refusal::new(1, line as u64, 0)
}

fn refused_chain(error: ChainError) -> Refusal {
    let verdict = Verdict::from(error);
    Refusal::new(
        verdict.number.into(),
        verdict.place.into(),
        verdict.other.into(),
    )
}

/// The last line was a reply that no effect waits for.
fn stray_reply(lines: &Lines) -> Refusal {
    Refusal::new(7, lines.taken() as u64, 0)
}

#[cfg(test)]
mod tests;
