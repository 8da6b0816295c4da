//! A run of a sheet, recorded once without a limit and with room for every
//! line. What any limit and any buffer make of it can then be read off: up to
//! the place where it is stopped, a run is the same.

use openprot_orchestrator_sm::{Effect, Event};

use super::read::read;
use super::text::{effect, state, status};
use super::{Answer, Line, PROGRAM_BYTES, PROGRAM_LIMIT, Refusal, Sheet};
use crate::histories::Reply;
use crate::histories::stepwise::Stepwise;
use crate::lists::List;
use crate::lists::answer::{Answer as Verdict, answer as verdict, chain};
use crate::steps::answer::{Rust, read as machine};

/// Corners of a run beside those of settling.
pub const OK_BEFORE_AN_EVENT: &str = "answered_ok_before_an_E_line";
pub const OK_AT_THE_END: &str = "answered_ok_at_the_end";

/// What a run does in turn.
#[derive(Clone, PartialEq, Eq, Debug)]
pub enum Moment {
    /// An event is taken, and so settled.
    Taken,
    /// A line is written, with its byte 10.
    Line(String),
}

/// The whole run of a sheet.
#[derive(Clone, PartialEq, Eq, Debug)]
pub struct Recording {
    pub moments: Vec<Moment>,
    /// The question from 1 to 7 that refuses, if one does.
    pub refusal: Refusal,
    /// The corners that were reached, one entry for each time.
    pub corners: Vec<String>,
}

impl Recording {
    /// The run of a sheet, which may be damaged or too long.
    pub fn of(text: &[u8]) -> Self {
        match read(text) {
            Ok(sheet) => Self::of_sheet(&sheet),
            Err(line) => Self::refused(Refusal::new(1, line as u64, 0)),
        }
    }

    /// The run as the programs make it: a sheet that is too long for them is
    /// refused unread.
    pub fn of_input(text: &[u8]) -> Self {
        if text.len() > PROGRAM_BYTES {
            return Self::refused(Refusal::TOO_LONG);
        }
        Self::of(text)
    }

    fn refused(refusal: Refusal) -> Self {
        Self {
            moments: Vec::new(),
            refusal,
            corners: Vec::new(),
        }
    }

    fn of_sheet(sheet: &Sheet) -> Self {
        let answer = verdict(&List::whole(sheet.entries.clone()));
        if answer != Verdict::ACCEPTED {
            return Self::refused(Refusal::new(
                answer.number.into(),
                answer.place.into(),
                answer.other.into(),
            ));
        }
        Run::new(sheet).finish()
    }

    /// What check gives: questions 1 to 6.
    pub fn checked(&self) -> Answer {
        let refused = (1..=6).contains(&self.refusal.number);
        Answer {
            refusal: if refused { self.refusal } else { Refusal::NONE },
            written: 0,
            settled: 0,
        }
    }

    /// What run gives for a buffer of this length and this limit, and how many
    /// moments it lets happen.
    pub fn stopped(&self, buffer: usize, limit: u64) -> (Answer, usize) {
        let mut answer = Answer {
            refusal: self.refusal,
            written: 0,
            settled: 0,
        };
        for (place, moment) in self.moments.iter().enumerate() {
            let number = match moment {
                Moment::Taken if answer.settled >= limit => 9,
                Moment::Line(line) if answer.written as usize + line.len() > buffer => 8,
                Moment::Taken => {
                    answer.settled += 1;
                    continue;
                }
                Moment::Line(line) => {
                    answer.written += line.len() as u64;
                    continue;
                }
            };
            answer.refusal = Refusal::new(number, 0, 0);
            return (answer, place);
        }
        (answer, self.moments.len())
    }

    /// What run gives with the programs' buffer and limit.
    pub fn answer(&self) -> Answer {
        self.stopped(PROGRAM_BYTES, PROGRAM_LIMIT).0
    }

    /// Every line of the run.
    pub fn transcript(&self) -> Vec<u8> {
        let mut transcript = Vec::new();
        for moment in &self.moments {
            if let Moment::Line(line) = moment {
                transcript.extend(line.as_bytes());
            }
        }
        transcript
    }

    /// The lines that the programs write.
    pub fn written(&self) -> Vec<u8> {
        let mut transcript = self.transcript();
        transcript.truncate(self.answer().written as usize);
        transcript
    }

    /// What `replay` prints.
    pub fn printed(&self) -> Vec<u8> {
        let mut printed = self.written();
        let refusal = self.answer().refusal;
        if refusal != Refusal::NONE {
            printed.extend(refusal.to_string().into_bytes());
        }
        printed
    }
}

/// The run of a sheet whose chain is accepted. The Rust's `dispatch_with` gives
/// the effects, the states and the statuses. It does not show which events it
/// takes; the machine beside it does, and is held to it.
struct Run<'a> {
    sheet: &'a Sheet,
    /// How many of the sheet's lines have been looked at.
    looked_at: usize,
    stepwise: Stepwise,
    recording: Recording,
}

impl<'a> Run<'a> {
    fn new(sheet: &'a Sheet) -> Self {
        Self {
            sheet,
            looked_at: 0,
            stepwise: Stepwise::new(Self::machine(sheet), sheet.max_retry, sheet.entries.clone()),
            recording: Recording::refused(Refusal::NONE),
        }
    }

    fn machine(sheet: &Sheet) -> Rust {
        let chain = chain(&sheet.entries).expect("an accepted chain");
        Rust::new(chain, sheet.max_retry)
    }

    fn finish(mut self) -> Recording {
        let mut rust = Self::machine(self.sheet);
        self.run(&mut rust);
        if self.recording.refusal == Refusal::NONE {
            for (position, (id, _)) in self.sheet.entries.iter().enumerate() {
                self.line(status(*id, rust.status(position)));
            }
        }
        self.recording.corners.extend(self.stepwise.into_corners());
        self.recording
    }

    /// Line by line, up to a reply that no effect waits for.
    fn run(&mut self, rust: &mut Rust) {
        while let Some(line) = self.sheet.lines.get(self.looked_at) {
            self.looked_at += 1;
            match line {
                Line::Event(event) => self.dispatch(rust, *event),
                Line::Reply(reply) => {
                    assert_eq!(self.stepwise.reply(*reply), 7, "nothing waits");
                    let place = self.sheet.line_number(self.looked_at - 1);
                    self.recording.refusal = Refusal::new(7, place as u64, 0);
                    return;
                }
            }
        }
    }

    /// One E line, with the replies to its effects.
    fn dispatch(&mut self, rust: &mut Rust, event: Event) {
        assert_eq!(self.stepwise.begin(event), 0, "nothing waits");
        self.taken();
        rust.dispatch_with(event, |handed| {
            self.hand_out(handed);
            let reply = self.next_reply();
            assert_eq!(self.stepwise.reply(reply), 0, "an effect waits");
            self.taken();
            reply.result()
        });
        assert_eq!(self.stepwise.waiting(), None, "the Rust has no effect left");
        let beside = self.stepwise.machine();
        assert_eq!(beside, machine(rust), "the Rust's machine");
        self.line(format!("S\t{}\n", state(rust.state())));
    }

    fn hand_out(&mut self, handed: Effect) {
        assert_eq!(self.stepwise.waiting(), Some(handed), "the Rust's effect");
        self.line(format!("X\t{}\n", effect(&handed)));
    }

    /// The reply on the next line. Where that is no R line it is ok.
    fn next_reply(&mut self) -> Reply {
        let silent = match self.sheet.lines.get(self.looked_at) {
            Some(Line::Reply(reply)) => {
                self.looked_at += 1;
                return *reply;
            }
            Some(Line::Event(_)) => OK_BEFORE_AN_EVENT,
            None => OK_AT_THE_END,
        };
        self.recording.corners.push(silent.into());
        Reply::Done
    }

    /// The events that the last call took.
    fn taken(&mut self) {
        for _ in 0..self.stepwise.call_taken() {
            self.recording.moments.push(Moment::Taken);
        }
    }

    fn line(&mut self, line: String) {
        self.recording.moments.push(Moment::Line(line));
    }
}

#[cfg(test)]
mod tests {
    use super::*;

    const WORKED: &str = "B\t2\nC\t7\tActive\tRequired\t0\t-\nE\tPowerGood\tProvisioned\n\
                          E\tVerificationPassed\t7\n";
    const TRANSCRIPT: &str = "X\tReadFirmware\t7\nX\tVerifyFirmware\t7\nS\tPreSupervision\n\
                              X\tReleaseReset\t7\nS\tReady\nT\t7\tNominal\t0\t1\t1\n";

    fn printed(sheet: &str) -> String {
        let recording = Recording::of_input(sheet.as_bytes());
        String::from_utf8(recording.printed()).unwrap()
    }

    /// Number, two places, bytes written, events settled.
    fn numbers(answer: Answer) -> [u64; 5] {
        let Refusal {
            number,
            place,
            other,
        } = answer.refusal;
        [number, place, other, answer.written, answer.settled]
    }

    fn run(sheet: &str, buffer: usize, limit: u64) -> [u64; 5] {
        numbers(Recording::of(sheet.as_bytes()).stopped(buffer, limit).0)
    }

    fn check(sheet: &str) -> [u64; 5] {
        numbers(Recording::of(sheet.as_bytes()).checked())
    }

    #[test]
    fn the_sheet_of_document_01() {
        assert_eq!(printed(WORKED), TRANSCRIPT);
        let whole = TRANSCRIPT.len();
        assert_eq!(run(WORKED, whole, 2), [0, 0, 0, whole as u64, 2]);
        assert_eq!(check(WORKED), [0; 5]);
    }

    /// A sheet that questions 1 to 6 refuse: nothing is written or settled, and
    /// check says the same.
    fn refused(sheet: &str, refusal: [u64; 3]) {
        let [number, place, other] = refusal;
        let expected = [number, place, other, 0, 0];
        assert_eq!(run(sheet, 1_000, 1_000), expected, "{sheet:?}");
        assert_eq!(run(sheet, 0, 0), expected, "{sheet:?}");
        assert_eq!(check(sheet), expected, "{sheet:?}");
        assert_eq!(printed(sheet), format!("F\t{number}\t{place}\t{other}\n"));
    }

    #[test]
    fn questions_1_to_6_write_nothing() {
        let component = |line: &str| format!("B\t2\nC\t4\tActive\tRequired\t0\t-\n{line}\n");
        refused("", [1, 1, 0]);
        refused(&WORKED[..WORKED.len() - 1], [1, 4, 0]);
        refused("B\t2\nE\tPowerGood\tProvisioned\n", [2, 0, 0]);
        refused("B\t2\nR\tok\n", [2, 0, 0]);
        refused(&component("C\t4\tActive\tRequired\t0\t-"), [4, 4, 0]);
        refused(&component("C\t5\tActive\tRequired\t0\t9"), [5, 5, 9]);
        refused(&component("C\t5\tActive\tRequired\t0\t5"), [6, 5, 5]);
        refused(
            &component("C\t5\tActive\tRequired\t0\t9\nR\tok\nC"),
            [1, 5, 0],
        );
    }

    #[test]
    fn question_3_from_256_components_on() {
        for count in [256, 257, 1_000] {
            let lines: String = (0..count)
                .map(|id| format!("C\t{}\tActive\tRequired\t0\t-\n", id % 256))
                .collect();
            refused(&format!("B\t2\n{lines}E\tUpdateRequest\n"), [3, 0, 0]);
        }
    }

    /// Question 7: the S line of the event before it is there, no T line is.
    #[test]
    fn a_reply_that_no_effect_waits_for() {
        let head = &WORKED[..WORKED.find("E\tVer").unwrap()];
        let sheet = format!("{head}R\tok\nR\tok\nR\tno\n");
        let lines = "X\tReadFirmware\t7\nX\tVerifyFirmware\t7\nS\tPreSupervision\n";
        let written = lines.len();
        assert_eq!(printed(&sheet), format!("{lines}F\t7\t6\t0\n"));
        assert_eq!(run(&sheet, written, 1), [7, 6, 0, written as u64, 1]);
        // The S line does not fit: question 8 comes first.
        let without = written - "S\tPreSupervision\n".len();
        assert_eq!(run(&sheet, written - 1, 1), [8, 0, 0, without as u64, 1]);
        assert_eq!(check(&sheet), [0; 5]);
    }

    #[test]
    fn a_reply_before_any_event() {
        let sheet = "B\t2\nC\t7\tActive\tRequired\t0\t-\nR\tok\nE\tUpdateRequest\n";
        assert_eq!(printed(sheet), "F\t7\t3\t0\n");
        assert_eq!(run(sheet, 0, 0), [7, 3, 0, 0, 0]);
    }

    /// Question 8 keeps the whole lines before it; the event that hands out the
    /// effect is settled.
    #[test]
    fn a_line_that_does_not_fit() {
        let first = "X\tReadFirmware\t7\n".len();
        assert_eq!(run(WORKED, 0, 9), [8, 0, 0, 0, 1]);
        assert_eq!(run(WORKED, first - 1, 9), [8, 0, 0, 0, 1]);
        assert_eq!(run(WORKED, first, 9), [8, 0, 0, first as u64, 1]);
        let last = TRANSCRIPT.find("T\t").unwrap();
        assert_eq!(
            run(WORKED, TRANSCRIPT.len() - 1, 9),
            [8, 0, 0, last as u64, 2]
        );
    }

    /// Question 9 comes before an event past the limit.
    #[test]
    fn an_event_past_the_limit() {
        assert_eq!(run(WORKED, 1_000, 0), [9, 0, 0, 0, 0]);
        let first = TRANSCRIPT.find("X\tRelease").unwrap();
        assert_eq!(run(WORKED, 1_000, 1), [9, 0, 0, first as u64, 1]);
    }

    #[test]
    fn without_an_event_there_are_only_statuses() {
        let sheet = "B\t0\nC\t7\tPassive\tIsolable\t9\t-\n";
        assert_eq!(printed(sheet), "T\t7\tNominal\t0\t0\t0\n");
        assert_eq!(run(sheet, 100, 0), [0, 0, 0, 18, 0]);
        assert_eq!(run(sheet, 17, 0), [8, 0, 0, 0, 0]);
    }

    /// Document 01, "Readings that go wrong": the restore that is queued ahead
    /// of RecoveryFailed leads to PreSupervision, where that does nothing.
    #[test]
    fn a_report_is_not_lockdown() {
        let sheet = "B\t2\nC\t7\tActive\tRequired\t0\t-\nE\tPowerGood\tProvisioned\n\
                     E\tVerificationFailed\t7\nE\tRecoveryUnavailable\t7\n\
                     R\tthen\tRestored\t7\n";
        let expected = "X\tReadFirmware\t7\nX\tVerifyFirmware\t7\nS\tPreSupervision\n\
                        X\tRecoverComponent\t7\t0\nS\tRecovering\t7\n\
                        X\tReportRecoveryFailed\t7\nX\tReadFirmware\t7\nX\tVerifyFirmware\t7\n\
                        S\tPreSupervision\nT\t7\tNominal\t1\t0\t0\n";
        assert_eq!(printed(sheet), expected);
        // Three events begun, Restored and RecoveryFailed.
        assert_eq!(run(sheet, 1_000, 5)[4], 5);
        // RecoveryFailed is taken after both effects of the walk, before the S line.
        let before = expected.rfind("S\t").unwrap() as u64;
        assert_eq!(run(sheet, 1_000, 4), [9, 0, 0, before, 4]);
    }

    /// One failure: EffectFailed is settled besides the event, and no reply is
    /// asked for the effects that are left.
    #[test]
    fn a_failed_effect_locks() {
        let sheet = "B\t2\nC\t7\tActive\tRequired\t0\t-\nE\tPowerGood\tProvisioned\nR\tno\n";
        let expected = "X\tReadFirmware\t7\nX\tLatchLockdown\nS\tLocked\nT\t7\tNominal\t0\t0\t0\n";
        assert_eq!(printed(sheet), expected);
        assert_eq!(run(sheet, 1_000, 9)[4], 2);
    }

    /// A cascade over five components hands out ten effects. Eight replies fill
    /// the queue, the ninth finds it full: its event is lost, the eighth is put
    /// out, and EffectFailed goes to the front. So 1 + 1 + 7 are settled.
    #[test]
    fn events_that_are_lost_or_put_out_are_not_settled() {
        let components: String = (2..=5)
            .map(|id| format!("C\t{id}\tActive\tRequired\t0\t{}\n", id - 1))
            .collect();
        let replies = "R\tthen\tUpdateRequest\n".repeat(9);
        let sheet = format!(
            "B\t2\nC\t1\tActive\tCascading\t0\t-\n{components}\
             E\tPowerGood\tProvisioned\nE\tCorruptionDetected\t1\n{replies}"
        );
        let held: Vec<String> = (1..=5)
            .map(|id| format!("X\tAssertReset\t{id}\nX\tReportIsolated\t{id}\n"))
            .collect();
        // The tenth effect is not handed out.
        let held = held.concat();
        let held = held.strip_suffix("X\tReportIsolated\t5\n").unwrap();
        let start = "X\tReadFirmware\t1\nX\tVerifyFirmware\t1\nS\tPreSupervision\n";
        let statuses: String = (1..=5)
            .map(|id| format!("T\t{id}\tIsolated\t0\t0\t0\n"))
            .collect();
        let expected = format!("{start}{held}X\tLatchLockdown\nS\tLocked\n{statuses}");
        assert_eq!(printed(&sheet), expected);
        assert_eq!(run(&sheet, 10_000, 1_000)[4], 1 + 9);
    }

    #[test]
    fn a_sheet_too_long_for_the_programs_is_refused_unread() {
        let line = "E\tBooted\t1\n";
        let most = (PROGRAM_BYTES - WORKED.len()) / line.len();
        let sheet = format!("{WORKED}{}", line.repeat(most));
        assert!(printed(&sheet).ends_with("T\t7\tNominal\t0\t1\t1\n"));
        let longer = format!("{sheet}{line}");
        assert_eq!(printed(&longer), "F\t1\t0\t0\n");
        assert_eq!(check(&longer), [0; 5]);
    }

    #[test]
    fn a_transcript_too_long_for_the_programs_is_cut_at_a_line() {
        // AwaitingReady 7 is 18 bytes for each line of 11.
        let head = "B\t2\nC\t7\tActive\tRequired\t0\t-\nC\t8\tActive\tRequired\t0\t-\n\
                    E\tPowerGood\tProvisioned\nE\tVerificationPassed\t7\n";
        let sheet = format!("{head}{}", "E\tBooted\t1\n".repeat(4_000));
        let printed = printed(&sheet);
        assert!(printed.ends_with("S\tAwaitingReady\t7\nF\t8\t0\t0\n"));
        let room = PROGRAM_BYTES + "F\t8\t0\t0\n".len() - printed.len();
        assert!(room < "S\tAwaitingReady\t7\n".len());
    }
}
