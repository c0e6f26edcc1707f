//! Packs stories, shows tapes and explains sheets.

use sheets::run;
use sheets::tape::Tape;
use std::io::Write;
use std::process::ExitCode;
use tape::explain::explain;
use tape::show::show;
use tape::story::{pack, LINES};

const USAGE: &str = "usage: tape pack STORY > TAPE
       tape show TAPE                                  the story of the tape
       tape explain TAPE [--sheet COMMAND WORD..]      its sheet in words; the command is `tools/run sheet` if not given
       tape forms                                      every form that a line of a story has";

fn main() -> ExitCode {
    let words: Vec<String> = std::env::args().skip(1).collect();
    let words: Vec<&str> = words.iter().map(String::as_str).collect();
    let out = match words[..] {
        ["pack", story] => packed(story),
        ["show", tape] => shown(tape),
        ["explain", tape] => explained(tape, &["tools/run", "sheet"]),
        ["explain", tape, "--sheet", ref command @ ..] if !command.is_empty() => explained(tape, command),
        ["forms"] => Ok(LINES.iter().flat_map(|(_, form)| [form.as_bytes(), b"\n"].concat()).collect()),
        _ => {
            eprintln!("{USAGE}");
            return ExitCode::from(2);
        }
    };
    match out.and_then(|bytes| std::io::stdout().write_all(&bytes).map_err(|error| error.to_string())) {
        Ok(()) => ExitCode::SUCCESS,
        Err(reason) => {
            eprintln!("tape: {reason}");
            ExitCode::FAILURE
        }
    }
}

fn read(file: &str) -> Result<Vec<u8>, String> {
    std::fs::read(file).map_err(|error| format!("{file}: {error}"))
}

fn packed(file: &str) -> Result<Vec<u8>, String> {
    let story = String::from_utf8(read(file)?).map_err(|_| format!("{file}: expected text in UTF-8"))?;
    let tape = pack(&story).map_err(|(line, reason)| format!("{file}:{line}: {reason}"))?;
    Ok(tape.bytes())
}

fn shown(file: &str) -> Result<Vec<u8>, String> {
    let tape = Tape::read(&read(file)?).map_err(|damage| format!("{file}: expected a good tape: {damage}"))?;
    Ok(show(&tape).into_bytes())
}

fn explained(file: &str, command: &[&str]) -> Result<Vec<u8>, String> {
    let tape = read(file)?;
    let sheet = run(command, &tape)?;
    explain(&tape, &sheet).map(String::into_bytes).map_err(|reason| format!("{file}: {reason}"))
}
