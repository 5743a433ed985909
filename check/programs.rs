//! The programs: how one is run on a text, what it should print, and what that counts for.

use crate::{desk, logger, month};
use std::fs::{self, File};
use std::path::PathBuf;
use std::process::{Child, Command, ExitStatus, Stdio};
use std::thread::sleep;
use std::time::{Duration, Instant};

const LONGEST_RUN: Duration = Duration::from_secs(60);

#[derive(Clone, Copy)]
pub enum Program {
    Desk,
    Ledger,
    Import,
}

impl Program {
    pub fn name(self) -> &'static str {
        match self {
            Program::Desk => "desk",
            Program::Ledger => "ledger",
            Program::Import => "import",
        }
    }

    /// The lines that it should print.
    pub fn expected(self, input: &[u8]) -> Vec<String> {
        match self {
            Program::Desk => desk::questions(input).iter().flat_map(desk::Question::lines).collect(),
            Program::Ledger => month::transcript(input),
            Program::Import => logger::transcript(input),
        }
    }

    /// How many answers a line holds: each field of desk's, one in a line of ledger, in a fault's line and in a frame;
    /// both numbers of a second that import prints, one in its refusal.
    pub fn answers(self, line: &str) -> usize {
        match self {
            Program::Desk if !line.starts_with("line") => line.split(' ').count(),
            Program::Import if !line.starts_with("refused") => line.split(' ').count(),
            _ => 1,
        }
    }

    /// What the line at this place answers.
    pub fn asked(self, input: &[u8], at: usize) -> String {
        let found = match self {
            Program::Desk => {
                let asked = desk::questions(input);
                let mut by_line = asked.iter().flat_map(|question| question.lines().into_iter().map(move |_| question));
                by_line.nth(at).map(desk::Question::shown)
            }
            Program::Ledger => month::lines(input).nth(at).map(|line| String::from_utf8_lossy(line).into_owned()),
            Program::Import => Some(logger::asked(input, at)),
        };
        found.unwrap_or("the input's end".to_string())
    }
}

/// Where the programs are, and the folder for inputs and outputs.
pub struct Runner {
    pub programs: PathBuf,
    pub room: PathBuf,
}

impl Runner {
    pub fn input_file(&self, label: &str) -> PathBuf {
        self.room.join(format!("{label}.in"))
    }

    /// Runs a program on an input, from a file into a file, so that neither side waits for the other; gives what it printed.
    pub fn run(&self, program: Program, input: &[u8], label: &str) -> Result<Vec<u8>, String> {
        let (from, into) = (self.input_file(label), self.room.join(format!("{label}.out")));
        let failed = |error: std::io::Error| format!("{}: {error}", program.name());
        fs::write(&from, input).map_err(failed)?;
        let child = Command::new(self.programs.join(program.name()))
            .stdin(File::open(&from).map_err(failed)?)
            .stdout(File::create(&into).map_err(failed)?)
            .stderr(Stdio::inherit())
            .spawn();
        let ended = wait(child.map_err(failed)?).map_err(failed)?;
        let printed = fs::read(&into).map_err(failed)?;
        fs::remove_file(&into).map_err(failed)?;
        match ended {
            Some(status) if status.success() => Ok(printed),
            Some(status) => Err(format!("{} ended with {status}", program.name())),
            None => Err(format!("{} did not end in {} seconds", program.name(), LONGEST_RUN.as_secs())),
        }
    }
}

/// Waits for the program's end; nothing where it takes too long, and then stops it.
fn wait(mut child: Child) -> std::io::Result<Option<ExitStatus>> {
    let began = Instant::now();
    while began.elapsed() < LONGEST_RUN {
        if let Some(status) = child.try_wait()? {
            return Ok(Some(status));
        }
        sleep(Duration::from_millis(1));
    }
    child.kill()?;
    child.wait()?;
    Ok(None)
}
