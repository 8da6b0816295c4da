//! Reads a sheet without the heap: once to put question 1 to every line and to
//! keep the components, and once more line by line while it is run. The oracle's
//! reader keeps every line in lists and is slow; a test holds this one to it.

use openprot_orchestrator_sm::{
    BootFailureKind, ComponentAttrs, ComponentId, ComponentKind, Event, FailurePolicy,
    PowerOnResult, RegionId,
};
use oracle::histories::Reply;
use oracle::lists::{CAPACITY, Entry};
use oracle::sheets::Line;
use oracle::steps::numbers::event as numbered;
use oracle::steps::rules::BOOT_FAILED;

pub type Components = heapless::Vec<Entry, CAPACITY>;

/// The B line and the C lines.
pub struct Head {
    pub max_retry: u8,
    /// At most 256: that many are too many already.
    pub components: Components,
}

/// The head and the lines after it, or the first bad line from 1.
pub fn read(sheet: &[u8]) -> Result<(Head, Lines<'_>), usize> {
    let mut text = Text(sheet);
    let max_retry = text.first().ok_or(1_usize)?;
    let mut head = Head {
        max_retry,
        components: Components::new(),
    };
    let mut line = 1;
    while text.0.first() == Some(&b'C') {
        line += 1;
        let entry = text.component().ok_or(line)?;
        // The list is full only where it is refused as too long.
        let _ = head.components.push(entry);
    }
    let lines = Lines { text, taken: line };
    while !text.0.is_empty() {
        line += 1;
        text.line().ok_or(line)?;
    }
    Ok((head, lines))
}

/// The lines after the components, each of which was found good.
pub struct Lines<'a> {
    text: Text<'a>,
    taken: usize,
}

impl Lines<'_> {
    /// The lines of the sheet up to here, those of its head included.
    pub fn taken(&self) -> usize {
        self.taken
    }

    pub fn next_line(&mut self) -> Option<Line> {
        self.taken += 1;
        self.text.line()
    }

    /// The reply on the next line. Where that is no R line it is ok.
    pub fn next_reply(&mut self) -> Reply {
        if self.text.0.first() == Some(&b'R')
            && let Some(Line::Reply(reply)) = self.next_line()
        {
            return reply;
        }
        Reply::Done
    }
}

/// What is left of a sheet. Each function takes what it names from the front,
/// and gives none where something else stands there.
#[derive(Clone, Copy)]
struct Text<'a>(&'a [u8]);

impl<'a> Text<'a> {
    /// The bytes up to the next tab or end of a line, and which of them it is.
    fn field(&mut self) -> Option<(&'a [u8], u8)> {
        let text = self.0;
        let end = text.iter().position(|byte| matches!(byte, b'\t' | b'\n'))?;
        self.0 = &text[end + 1..];
        Some((&text[..end], text[end]))
    }

    /// A field with another one after it.
    fn inner(&mut self) -> Option<&'a [u8]> {
        let (field, end) = self.field()?;
        (end == b'\t').then_some(field)
    }

    /// The last field of its line.
    fn last(&mut self) -> Option<&'a [u8]> {
        let (field, end) = self.field()?;
        (end == b'\n').then_some(field)
    }

    fn prefix(&mut self, prefix: &[u8]) -> Option<()> {
        self.0 = self.0.strip_prefix(prefix)?;
        Some(())
    }

    /// The B line.
    fn first(&mut self) -> Option<u8> {
        self.prefix(b"B\t")?;
        byte(self.last()?)
    }

    fn component(&mut self) -> Option<Entry> {
        self.prefix(b"C\t")?;
        let id = byte(self.inner()?)?;
        let kind = match self.inner()? {
            b"Active" => ComponentKind::Active,
            b"Passive" => ComponentKind::Passive,
            _ => return None,
        };
        let failure_policy = match self.inner()? {
            b"Required" => FailurePolicy::Required,
            b"Isolable" => FailurePolicy::Isolable,
            b"Cascading" => FailurePolicy::Cascading,
            _ => return None,
        };
        let recovery_region = RegionId::new(byte(self.inner()?)?);
        let depends_on = match self.last()? {
            b"-" => None,
            id => Some(ComponentId::new(byte(id)?)),
        };
        let attrs = ComponentAttrs {
            kind,
            failure_policy,
            recovery_region,
            depends_on,
        };
        Some((ComponentId::new(id), attrs))
    }

    fn line(&mut self) -> Option<Line> {
        match self.0 {
            [b'E', b'\t', rest @ ..] => {
                self.0 = rest;
                self.event().map(Line::Event)
            }
            [b'R', b'\t', rest @ ..] => {
                self.0 = rest;
                self.reply().map(Line::Reply)
            }
            _ => None,
        }
    }

    fn reply(&mut self) -> Option<Reply> {
        match self.field()? {
            (b"ok", b'\n') => Some(Reply::Done),
            (b"no", b'\n') => Some(Reply::Failed),
            (b"then", b'\t') => self.event().map(Reply::Then),
            _ => None,
        }
    }

    fn event(&mut self) -> Option<Event> {
        match self.field()? {
            (name, b'\n') => plain(name),
            (b"PowerGood", _) => power_on_result(self.last()?).map(Event::PowerGood),
            (b"BootFailed", _) => self.boot_failed(),
            (name, _) => naming(name, ComponentId::new(byte(self.last()?)?)),
        }
    }

    /// The Rust keeps a checkpoint as a text that lives as long as the program,
    /// so the oracle's table of them is asked. It is slow; no workload has this
    /// event.
    fn boot_failed(&mut self) -> Option<Event> {
        let id = byte(self.inner()?)?;
        let checkpoint = decimal(self.inner()?)?;
        let kind = match self.last()? {
            b"TimedOut" => BootFailureKind::TimedOut,
            b"DeviceRetriable" => BootFailureKind::DeviceRetriable,
            b"DeviceFatal" => BootFailureKind::DeviceFatal,
            _ => return None,
        };
        numbered([BOOT_FAILED as u16, id.into(), checkpoint, kind as u16]).ok()
    }
}

/// The events without fields.
fn plain(name: &[u8]) -> Option<Event> {
    Some(match name {
        b"AttestationChallenge" => Event::AttestationChallenge,
        b"UpdateRequest" => Event::UpdateRequest,
        b"UpdateVerified" => Event::UpdateVerified,
        b"UpdateRejected" => Event::UpdateRejected,
        b"RecoveryFailed" => Event::RecoveryFailed,
        b"CommitTimeout" => Event::CommitTimeout,
        b"EffectFailed" => Event::EffectFailed,
        _ => return None,
    })
}

/// The events whose one field is a component.
fn naming(name: &[u8], id: ComponentId) -> Option<Event> {
    Some(match name {
        b"VerificationPassed" => Event::VerificationPassed(id),
        b"VerificationFailed" => Event::VerificationFailed(id),
        b"ComponentReady" => Event::ComponentReady(id),
        b"Booted" => Event::Booted(id),
        b"BootConfirmed" => Event::BootConfirmed(id),
        b"CorruptionDetected" => Event::CorruptionDetected(id),
        b"Restored" => Event::Restored(id),
        b"RecoveryUnavailable" => Event::RecoveryUnavailable(id),
        b"Timeout" => Event::Timeout(id),
        _ => return None,
    })
}

fn power_on_result(name: &[u8]) -> Option<PowerOnResult> {
    Some(match name {
        b"Provisioned" => PowerOnResult::Provisioned,
        b"Unprovisioned" => PowerOnResult::Unprovisioned,
        b"SelfVerificationFailed" => PowerOnResult::SelfVerificationFailed,
        _ => return None,
    })
}

fn byte(field: &[u8]) -> Option<u8> {
    decimal(field)?.try_into().ok()
}

/// A number up to 65535 without leading zeros.
fn decimal(field: &[u8]) -> Option<u16> {
    let digits = match field {
        [b'0'] => return Some(0),
        [b'1'..=b'9', ..] if field.len() <= 5 => field,
        _ => return None,
    };
    let mut number = 0_u32;
    for digit in digits {
        if !digit.is_ascii_digit() {
            return None;
        }
        number = number * 10 + u32::from(digit - b'0');
    }
    number.try_into().ok()
}
