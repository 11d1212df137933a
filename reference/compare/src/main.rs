//! Runs the proved library and the reference side by side.

use std::env;
use std::path::Path;
use std::process::ExitCode;

mod bench;
mod folder;
mod kinds;
mod library;
mod run;
mod stored;

const USAGE: &str = "usage:
  compare run [--seed N] [--count N] [--kind NAME] [--from N]
  compare batch FILE [--full]
  compare cases [DIR]
  compare folder DIR
  compare bench [PART]";

/// Why a command ends with status 1.
pub struct Failed {
    /// Nothing where all is said already.
    text: Option<String>,
}

impl Failed {
    pub fn new(text: impl Into<String>) -> Failed {
        let text = Some(text.into());
        Failed { text }
    }

    pub fn told() -> Failed {
        Failed { text: None }
    }
}

impl From<std::io::Error> for Failed {
    fn from(error: std::io::Error) -> Failed {
        Failed::new(error.to_string())
    }
}

fn main() -> ExitCode {
    let args: Vec<String> = env::args().skip(1).collect();
    let words: Vec<&str> = args.iter().map(String::as_str).collect();
    match command(&words) {
        Ok(()) => ExitCode::SUCCESS,
        Err(Failed { text }) => {
            if let Some(text) = text {
                eprintln!("{text}");
            }
            ExitCode::FAILURE
        }
    }
}

fn command(words: &[&str]) -> Result<(), Failed> {
    match words {
        ["run", options @ ..] => run::run(&plan(options)?),
        ["batch", file] => stored::batch(Path::new(file), false),
        ["batch", file, "--full"] => stored::batch(Path::new(file), true),
        ["cases"] => stored::cases(Path::new(concat!(env!("CARGO_MANIFEST_DIR"), "/../cases"))),
        ["cases", dir] => stored::cases(Path::new(dir)),
        ["folder", dir] => folder::folder(Path::new(dir)),
        ["bench"] => bench::bench(None),
        ["bench", part] => bench::bench(Some(part)),
        _ => Err(Failed::new(USAGE)),
    }
}

fn plan(options: &[&str]) -> Result<run::Plan, Failed> {
    let mut plan = run::Plan {
        seed: 1,
        from: 0,
        count: None,
        kind: None,
    };
    let number = |word: &str| word.parse().map_err(|_| Failed::new(USAGE));
    for option in options.chunks(2) {
        match option {
            ["--seed", word] => plan.seed = number(word)?,
            ["--from", word] => plan.from = number(word)?,
            ["--count", word] => plan.count = Some(number(word)?),
            ["--kind", name] => plan.kind = Some(name.to_string()),
            _ => return Err(Failed::new(USAGE)),
        }
    }
    Ok(plan)
}
