//! Programs that read a script and write its replies, in one process for each script.
use crate::script::Script;
use std::ffi::OsString;
use std::io::{Read, Write};
use std::path::Path;
use std::process::{Child, Command, Stdio};

/// A program that reads a script from standard input.
pub struct Program {
    /// The command and its arguments.
    words: Vec<OsString>,
}

impl Program {
    /// Names the port's program, `moka_run`.
    pub fn port(program: &Path) -> Program {
        Program {
            words: vec![program.into()],
        }
    }

    /// Names the model, a Python program.
    pub fn model(file: &Path) -> Program {
        Program {
            words: vec!["python3".into(), "-I".into(), "-S".into(), file.into()],
        }
    }

    /// Runs the program on a script, and returns its lines of output, or what went wrong.
    pub fn replies(&self, script: &Script) -> Result<Vec<String>, String> {
        let mut child = self.started()?;
        let replies = talk(&mut child, &script.words());
        let status = child.wait().map_err(|error| error.to_string())?;
        let replies = replies?;
        if !status.success() {
            return Err(format!("it ended with {status}, and wrote {replies:?}"));
        }
        Ok(replies.lines().map(str::to_string).collect())
    }

    fn started(&self) -> Result<Child, String> {
        Command::new(&self.words[0])
            .args(&self.words[1..])
            .stdin(Stdio::piped())
            .stdout(Stdio::piped())
            .stderr(Stdio::inherit())
            .spawn()
            .map_err(|error| format!("{}: {error}", self.words[0].display()))
    }
}

/// Writes the whole script, and then reads the replies. The program replies only after it has read the script to its end.
fn talk(child: &mut Child, words: &str) -> Result<String, String> {
    let mut input = child.stdin.take().ok_or("no input")?;
    let written = input.write_all(words.as_bytes());
    drop(input);
    let mut replies = String::new();
    let mut output = child.stdout.take().ok_or("no output")?;
    output.read_to_string(&mut replies).map_err(|error| error.to_string())?;
    written.map_err(|error| error.to_string())?;
    Ok(replies)
}
