//! What this program is compared with: one trait, an implementation for each
//! way of asking.

use std::io::{ErrorKind, Read, Write};
use std::path::PathBuf;
use std::process::{Command, Stdio};
use std::thread;
use std::time::Duration;

/// Something that answers as the rules say. Checks run on several threads.
pub trait Subject: Sync {
    /// The program's whole text for an input, or why there is none.
    fn text(&self, input: &[u8]) -> Result<Vec<u8>, String>;
}

/// A program, asked by one process for each input.
pub struct Program {
    pub path: PathBuf,
}

impl Subject for Program {
    fn text(&self, input: &[u8]) -> Result<Vec<u8>, String> {
        self.fed(&[input])
    }
}

impl Program {
    /// Asks with the input in pieces, a short pause before each further one,
    /// so that a program which takes one short read for the whole shows itself.
    pub fn fed(&self, pieces: &[&[u8]]) -> Result<Vec<u8>, String> {
        let mut child = Command::new(&self.path)
            .stdin(Stdio::piped())
            .stdout(Stdio::piped())
            .stderr(Stdio::null())
            .spawn()
            .map_err(|e| format!("cannot start {}: {e}", self.path.display()))?;
        // An input whose text is longer than a pipe holds is itself far shorter
        // than that, so writing all of it before reading cannot block for ever.
        if let Some(mut stdin) = child.stdin.take() {
            for (i, piece) in pieces.iter().enumerate() {
                if i > 0 {
                    thread::sleep(Duration::from_millis(5));
                }
                match stdin.write_all(piece) {
                    // It need not read beyond the input's bound.
                    Err(e) if e.kind() == ErrorKind::BrokenPipe => break,
                    Err(e) => return Err(format!("cannot write its input: {e}")),
                    Ok(()) => {}
                }
            }
        }
        let mut text = Vec::new();
        if let Some(mut stdout) = child.stdout.take() {
            stdout
                .read_to_end(&mut text)
                .map_err(|e| format!("cannot read its text: {e}"))?;
        }
        let status = child
            .wait()
            .map_err(|e| format!("cannot wait for it: {e}"))?;
        // The rules name no exit status; only a crash is no answer.
        match status.code() {
            Some(_) => Ok(text),
            None => Err(format!("it was ended: {status}")),
        }
    }
}

#[cfg(test)]
mod tests {
    use super::*;

    #[test]
    fn a_program_gets_its_input_and_gives_its_text() {
        let cat = Program {
            path: "/bin/cat".into(),
        };
        assert_eq!(cat.text(b"010203\n"), Ok(b"010203\n".to_vec()));
        assert_eq!(cat.fed(&[b"01", b"", b"02"]), Ok(b"0102".to_vec()));
        assert!(
            Program {
                path: "/no/such/program".into()
            }
            .text(b"")
            .is_err()
        );
    }
}
