//! Writes the lines of a transcript. A line that does not fit is left out as a
//! whole, and no byte past those written is touched. Names stand here as bytes:
//! the oracle takes them from `Debug`, which is slow; a test holds these to it.

use openprot_orchestrator_sm::{BootFailureKind, ComponentId, Effect, State, Status};

pub struct Transcript<'a> {
    out: &'a mut [u8],
    written: usize,
}

impl<'a> Transcript<'a> {
    pub fn new(out: &'a mut [u8]) -> Self {
        Self { out, written: 0 }
    }

    pub fn written(&self) -> usize {
        self.written
    }

    /// An X line; false where it does not fit. Emit is never handed out, and
    /// has no line.
    pub fn effect(&mut self, effect: &Effect) -> bool {
        match effect {
            Effect::ReadFirmware(id) => self.named(b"X\tReadFirmware\t", *id),
            Effect::VerifyFirmware(id) => self.named(b"X\tVerifyFirmware\t", *id),
            Effect::ReleaseReset(id) => self.named(b"X\tReleaseReset\t", *id),
            Effect::AssertReset(id) => self.named(b"X\tAssertReset\t", *id),
            Effect::CommitSvnFloor(id) => self.named(b"X\tCommitSvnFloor\t", *id),
            Effect::ReportIsolated(id) => self.named(b"X\tReportIsolated\t", *id),
            Effect::ReportRecoveryFailed(id) => self.named(b"X\tReportRecoveryFailed\t", *id),
            Effect::RecoverComponent { id, attempt } => self.recover_component(*id, *attempt),
            Effect::ReportBootFailed {
                id,
                checkpoint,
                kind,
            } => self.report_boot_failed(*id, checkpoint, *kind),
            Effect::SignAttestation => self.line([b"X\tSignAttestation\n"]),
            Effect::AuthenticateUpdate => self.line([b"X\tAuthenticateUpdate\n"]),
            Effect::StageUpdate => self.line([b"X\tStageUpdate\n"]),
            Effect::ActivateUpdate => self.line([b"X\tActivateUpdate\n"]),
            Effect::DiscardStaged => self.line([b"X\tDiscardStaged\n"]),
            Effect::ReportUpdateDeferred => self.line([b"X\tReportUpdateDeferred\n"]),
            Effect::ReportUpdateAborted => self.line([b"X\tReportUpdateAborted\n"]),
            Effect::LatchLockdown => self.line([b"X\tLatchLockdown\n"]),
            Effect::Emit(_) => true,
        }
    }

    fn recover_component(&mut self, id: ComponentId, attempt: u8) -> bool {
        self.line([
            b"X\tRecoverComponent\t",
            decimal(id.get()),
            b"\t",
            decimal(attempt),
            b"\n",
        ])
    }

    fn report_boot_failed(
        &mut self,
        id: ComponentId,
        checkpoint: &str,
        kind: BootFailureKind,
    ) -> bool {
        self.line([
            b"X\tReportBootFailed\t",
            decimal(id.get()),
            b"\t",
            checkpoint.as_bytes(),
            match kind {
                BootFailureKind::TimedOut => b"\tTimedOut\n",
                BootFailureKind::DeviceRetriable => b"\tDeviceRetriable\n",
                BootFailureKind::DeviceFatal => b"\tDeviceFatal\n",
            },
        ])
    }

    /// An S line; false where it does not fit.
    pub fn state(&mut self, state: State) -> bool {
        match state {
            State::PowerOnReset => self.line([b"S\tPowerOnReset\n"]),
            State::PreSupervision => self.line([b"S\tPreSupervision\n"]),
            State::AwaitingReady(Some(id)) => self.named(b"S\tAwaitingReady\t", id),
            State::AwaitingReady(None) => self.line([b"S\tAwaitingReady\t-\n"]),
            State::Ready => self.line([b"S\tReady\n"]),
            State::Updating => self.line([b"S\tUpdating\n"]),
            State::Recovering(id) => self.named(b"S\tRecovering\t", id),
            State::Locked => self.line([b"S\tLocked\n"]),
        }
    }

    /// A T line; false where it does not fit.
    pub fn status(&mut self, id: ComponentId, status: Status) -> bool {
        self.line([
            b"T\t",
            decimal(id.get()),
            if status.isolated {
                b"\tIsolated\t"
            } else {
                b"\tNominal\t"
            },
            decimal(status.retry),
            match (status.awaiting_boot, status.released) {
                (false, false) => b"\t0\t0\n",
                (false, true) => b"\t0\t1\n",
                (true, false) => b"\t1\t0\n",
                (true, true) => b"\t1\t1\n",
            },
        ])
    }

    fn named(&mut self, start: &[u8], id: ComponentId) -> bool {
        self.line([start, decimal(id.get()), b"\n"])
    }

    /// A line in pieces: all of them, or none.
    fn line<const PIECES: usize>(&mut self, pieces: [&[u8]; PIECES]) -> bool {
        let length: usize = pieces.iter().map(|piece| piece.len()).sum();
        let Some(mut room) = self.out.get_mut(self.written..self.written + length) else {
            return false;
        };
        for piece in pieces {
            let (here, rest) = room.split_at_mut(piece.len());
            here.copy_from_slice(piece);
            room = rest;
        }
        self.written += length;
        true
    }
}

/// The digits of a byte, and how many they are.
#[derive(Clone, Copy)]
struct Digits([u8; 3], u8);

static DIGITS: [Digits; 256] = {
    let mut table = [Digits([0; 3], 0); 256];
    let mut number = 0;
    while number < 256 {
        let [hundreds, tens, ones] = [number / 100, number / 10 % 10, number % 10];
        let [hundreds, tens, ones] = [b'0' + hundreds as u8, b'0' + tens as u8, b'0' + ones as u8];
        table[number] = match number {
            0..10 => Digits([ones, 0, 0], 1),
            10..100 => Digits([tens, ones, 0], 2),
            _ => Digits([hundreds, tens, ones], 3),
        };
        number += 1;
    }
    table
};

fn decimal(number: u8) -> &'static [u8] {
    let Digits(bytes, length) = &DIGITS[usize::from(number)];
    &bytes[..usize::from(*length)]
}
