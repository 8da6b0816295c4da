//! The two programs that take a sheet: `replay`, and the board's C loader. What
//! each of them says to one sheet is held to the recording.

use std::ffi::OsStr;
use std::fs;
use std::io::{self, Write};
use std::path::{Path, PathBuf};
use std::process::{Child, Command, Output, Stdio};
use std::{env, process, thread};

use super::Refusal;
use super::record::Recording;

/// The programs, and the file in which a sheet is handed to the loader.
pub struct Programs<'a> {
    replay: &'a OsStr,
    loader: &'a OsStr,
    file: PathBuf,
}

impl Drop for Programs<'_> {
    fn drop(&mut self) {
        // There is no file if no sheet was run.
        let _ = fs::remove_file(&self.file);
    }
}

impl<'a> Programs<'a> {
    pub fn new(replay: &'a OsStr, loader: &'a OsStr) -> Self {
        let name = format!("mallardtray-{}.sheet", process::id());
        Self {
            replay,
            loader,
            file: env::temp_dir().join(name),
        }
    }

    /// What the programs say otherwise than the recording of this sheet.
    pub fn differences(&self, text: &[u8], recording: &Recording) -> io::Result<Vec<String>> {
        fs::write(&self.file, text)?;
        let loader = start_loader(self.loader, &self.file)?;
        let replay = run_replay(self.replay, text)?;
        let loader = loader.wait_with_output()?;
        let differences = [
            replay_difference(&replay, recording),
            loader_difference(&loader, recording),
        ];
        Ok(differences.into_iter().flatten().collect())
    }
}

fn start_loader(loader: &OsStr, file: &Path) -> io::Result<Child> {
    Command::new(loader)
        .arg(file)
        .stdin(Stdio::null())
        .stdout(Stdio::piped())
        .stderr(Stdio::piped())
        .spawn()
}

/// The sheet goes through a pipe while the output is read, so neither side
/// waits for the other for ever.
fn run_replay(replay: &OsStr, text: &[u8]) -> io::Result<Output> {
    let mut child = Command::new(replay)
        .stdin(Stdio::piped())
        .stdout(Stdio::piped())
        .stderr(Stdio::piped())
        .spawn()?;
    let mut input = child.stdin.take().expect("a piped standard input");
    thread::scope(|scope| {
        scope.spawn(move || {
            // It may end before it has read a sheet that is too long.
            let _ = input.write_all(text);
        });
        child.wait_with_output()
    })
}

/// `replay` prints the transcript and the refusal, and nothing else.
fn replay_difference(output: &Output, recording: &Recording) -> Option<String> {
    let expected = recording.printed();
    if !output.status.success() || !output.stderr.is_empty() {
        let errors = output.stderr.escape_ascii();
        return Some(format!("replay ended with {}: {errors}", output.status));
    }
    (output.stdout != expected)
        .then(|| format!("replay printed {}", apart(&output.stdout, &expected)))
}

/// The loader prints the transcript, says a refusal in one line on standard
/// error, and ends with its number.
fn loader_difference(output: &Output, recording: &Recording) -> Option<String> {
    let (expected, refusal) = (recording.written(), recording.answer().refusal);
    if output.stdout != expected {
        let apart = apart(&output.stdout, &expected);
        return Some(format!("the loader printed {apart}"));
    }
    let errors = output.stderr.escape_ascii();
    if output.status.code() != Some(refusal.number as i32) {
        return Some(format!("the loader ended with {}: {errors}", output.status));
    }
    (!says(&output.stderr, refusal)).then(|| format!("the loader said {errors} to {refusal:?}"))
}

/// Whether the text is `refused NUMBER PLACE PLACE: WORDS` in one line, or
/// nothing where nothing is refused.
fn says(text: &[u8], refusal: Refusal) -> bool {
    let Refusal {
        number,
        place,
        other,
    } = refusal;
    if refusal == Refusal::NONE {
        return text.is_empty();
    }
    let head = format!("refused {number} {place} {other}: ");
    let words = text
        .strip_prefix(head.as_bytes())
        .and_then(|rest| rest.strip_suffix(b"\n"));
    words.is_some_and(|words| !words.is_empty() && !words.contains(&b'\n'))
}

/// Two outputs from the line on in which they differ.
fn apart(port: &[u8], oracle: &[u8]) -> String {
    const SHOWN: usize = 200;
    let same = port.iter().zip(oracle).take_while(|(a, b)| a == b).count();
    let line = port[..same].iter().rposition(|byte| *byte == b'\n');
    let start = line.map_or(0, |place| place + 1);
    let from = |output: &[u8]| {
        let rest = &output[start..];
        rest[..rest.len().min(SHOWN)].escape_ascii().to_string()
    };
    format!(
        "from byte {start}: {}\noracle: {}",
        from(port),
        from(oracle)
    )
}

#[cfg(test)]
mod tests {
    use std::os::unix::process::ExitStatusExt;
    use std::process::ExitStatus;

    use super::*;

    const SHEET: &str = "B\t2\nC\t7\tActive\tRequired\t0\t-\nE\tPowerGood\tProvisioned\n";
    const LINES: &str = "X\tReadFirmware\t7\nX\tVerifyFirmware\t7\nS\tPreSupervision\n";

    fn output(code: i32, stdout: &str, stderr: &str) -> Output {
        Output {
            status: ExitStatus::from_raw(code << 8),
            stdout: stdout.into(),
            stderr: stderr.into(),
        }
    }

    /// A third reply, where two effects are handed out.
    fn refused() -> Recording {
        let sheet = format!("{SHEET}R\tok\nR\tok\nR\tok\n");
        Recording::of_input(sheet.as_bytes())
    }

    #[test]
    fn right_outputs_have_no_difference() {
        let replay = output(0, &format!("{LINES}F\t7\t6\t0\n"), "");
        assert_eq!(replay_difference(&replay, &refused()), None);
        let loader = output(7, LINES, "refused 7 6 0: no effect waits\n");
        assert_eq!(loader_difference(&loader, &refused()), None);
        let run = Recording::of_input(SHEET.as_bytes());
        let whole = format!("{LINES}T\t7\tNominal\t0\t0\t0\n");
        let right = output(0, &whole, "");
        assert_eq!(replay_difference(&right, &run), None);
        assert_eq!(loader_difference(&right, &run), None);
    }

    #[test]
    fn every_wrong_output_of_replay_is_found() {
        for (code, stdout, stderr) in [
            (1, format!("{LINES}F\t7\t6\t0\n"), ""),
            (0, format!("{LINES}F\t7\t6\t0\n"), "trap"),
            (0, format!("{LINES}F\t7\t5\t0\n"), ""),
            (0, format!("{LINES}F\t7\t6\t0"), ""),
            (0, LINES.into(), ""),
            (0, format!("{LINES}{LINES}F\t7\t6\t0\n"), ""),
            (0, "F\t7\t6\t0\n".into(), ""),
            (0, String::new(), ""),
        ] {
            let replay = output(code, &stdout, stderr);
            assert!(
                replay_difference(&replay, &refused()).is_some(),
                "{stdout:?}"
            );
        }
    }

    #[test]
    fn every_wrong_output_of_the_loader_is_found() {
        let words = "refused 7 6 0: no effect waits\n";
        for (code, stdout, stderr) in [
            (0, LINES, words),
            (8, LINES, words),
            (7, &LINES[1..], words),
            (7, "", words),
            (7, LINES, ""),
            (7, LINES, "refused 7 6 0: \n"),
            (7, LINES, "refused 7 5 0: no effect waits\n"),
            (7, LINES, "refused 7 6 1: no effect waits\n"),
            (7, LINES, "refused 7 6 0: no effect waits"),
            (7, LINES, "refused 7 6 0: no effect waits\nand more\n"),
        ] {
            let loader = output(code, stdout, stderr);
            assert!(
                loader_difference(&loader, &refused()).is_some(),
                "{stderr:?}"
            );
        }
        let run = Recording::of_input(SHEET.as_bytes());
        let whole = format!("{LINES}T\t7\tNominal\t0\t0\t0\n");
        let loader = output(0, &whole, "refused 0 0 0: nothing\n");
        assert!(loader_difference(&loader, &run).is_some());
    }

    #[test]
    fn outputs_are_shown_from_the_line_in_which_they_differ() {
        let shown = apart(b"S\tReady\nX\tA\n", b"S\tReady\nX\tB\n");
        assert_eq!(shown, "from byte 8: X\\tA\\n\noracle: X\\tB\\n");
    }
}
