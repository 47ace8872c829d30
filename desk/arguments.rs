//! What is asked for on the command line. Arguments are bytes and need not be text.

use crate::commands::{Command, COMMANDS};
use crate::input::STANDARD_INPUT;
use crate::report::Misuse;
use crate::words::{capital, listed, quoted};
use std::ffi::{OsStr, OsString};
use std::os::unix::ffi::OsStrExt;

pub enum Request<'a> {
    /// Of one command, or of the program.
    Help(Option<&'static Command>),
    Version,
    Answer {
        command: &'static Command,
        operands: Vec<&'a OsStr>,
        as_json: bool,
    },
}

#[derive(Default)]
struct Flags {
    help: bool,
    version: bool,
    json: bool,
}

/// Flags may stand anywhere before `--`; the first other argument is the command.
pub fn read(arguments: &[OsString]) -> Result<Request<'_>, Misuse> {
    let mut flags = Flags::default();
    let mut operands: Vec<&OsStr> = Vec::new();
    let mut arguments = arguments.iter();
    for argument in arguments.by_ref() {
        match argument.as_bytes() {
            b"--" => break,
            b"--help" | b"-h" => flags.help = true,
            b"--version" => flags.version = true,
            b"--json" => flags.json = true,
            [b'-', _, ..] => return Err(unknown_flag(argument)),
            _ => operands.push(argument),
        }
    }
    operands.extend(arguments.map(OsString::as_os_str));
    request(flags, &operands)
}

fn request<'a>(flags: Flags, operands: &[&'a OsStr]) -> Result<Request<'a>, Misuse> {
    let command = operands.first().map(|name| find_command(name)).transpose()?;
    let Some(command) = command else {
        return match (flags.help, flags.version) {
            (true, _) => Ok(Request::Help(None)),
            (_, true) => Ok(Request::Version),
            _ => Err(Misuse(format!("name a command ({}); packdesk --help says more", command_names("or")))),
        };
    };
    let operands = operands[1..].to_vec();
    match flags {
        Flags { help: true, .. } => Ok(Request::Help(Some(command))),
        Flags { version: true, .. } => Ok(Request::Version),
        _ => {
            count_operands(command, &operands)?;
            Ok(Request::Answer { command, operands, as_json: flags.json })
        }
    }
}

fn unknown_flag(argument: &OsStr) -> Misuse {
    let flag = quoted(argument.as_bytes());
    Misuse(format!("there is no flag {flag} (--json, --help and --version there are); what is no flag stands after --"))
}

fn find_command(name: &OsStr) -> Result<&'static Command, Misuse> {
    COMMANDS.iter().find(|command| name == command.name).ok_or_else(|| {
        let name = quoted(name.as_bytes());
        Misuse(format!("there is no command {name}: the commands are {}", command_names("and")))
    })
}

fn command_names(last: &str) -> String {
    let names: Vec<String> = COMMANDS.iter().map(|command| command.name.to_string()).collect();
    listed(&names, last)
}

fn count_operands(command: &Command, operands: &[&OsStr]) -> Result<(), Misuse> {
    let usage = format!("packdesk {} {}", command.name, command.operands);
    if operands.len() < command.least {
        return Err(Misuse(format!("{} is missing: {usage}", missing(command, operands.len()))));
    }
    if operands.len() > command.most {
        let surplus = quoted(operands[command.most].as_bytes());
        return Err(Misuse(format!("{surplus} is an argument too many: {usage}")));
    }
    if operands.iter().filter(|operand| **operand == STANDARD_INPUT).count() > 1 {
        return Err(Misuse("standard input can be read only once, and - stands there twice".to_string()));
    }
    Ok(())
}

/// The operand that is due after so many.
fn missing(command: &Command, found: usize) -> &'static str {
    command.operands.split(' ').nth(found).unwrap_or(command.operands).trim_end_matches('.')
}

/// The text of `--help`.
pub fn help(command: Option<&Command>) -> String {
    let flags = "  --json      answer with one JSON object (docs/packdesk.1 says what its keys mean)\n  \
                 -h, --help  this text\n  --version   the version\n  --          what follows is no flag\n";
    let statuses = "Exit status: 0 accepted, 1 the pack, a query, a term or a clause text is refused, 2 misuse,\n\
                    a file that can't be read or output that can't be written, 3 the desk works out something\n\
                    else than the library answers.\n";
    let Some(command) = command else {
        let rows = COMMANDS
            .iter()
            .map(|command| format!("  packdesk {:<8} {:<13} {}\n", command.name, command.operands, command.about));
        let rows: String = rows.collect();
        let about = "Says in words what the library answers of a pack, for those who write packs.";
        return format!("{about}\n\n{rows}\n{flags}\n{statuses}");
    };
    format!(
        "packdesk {} {}: {}\n\n{}\n\n{flags}\n{statuses}",
        command.name,
        command.operands,
        capital(command.about),
        command.help
    )
}

#[cfg(test)]
mod tests {
    use super::*;

    fn arguments(words: &[&[u8]]) -> Vec<OsString> {
        words.iter().map(|word| OsStr::from_bytes(word).to_os_string()).collect()
    }

    fn is_misuse(words: &[&[u8]]) -> bool {
        read(&arguments(words)).is_err()
    }

    #[test]
    fn flags_stand_anywhere_before_the_dashes() {
        let words = arguments(&[b"--json", b"reserve", b"a.pack", b"--", b"--json", b"\xff"]);
        let Ok(Request::Answer { command, operands, as_json }) = read(&words) else { panic!("a request") };
        assert_eq!((command.name, as_json), ("reserve", true));
        assert_eq!(operands, [OsStr::new("a.pack"), OsStr::new("--json"), OsStr::from_bytes(b"\xff")]);
    }

    #[test]
    fn misuse_is_told() {
        assert!(is_misuse(&[]));
        assert!(is_misuse(&[b"chek", b"a"]));
        assert!(is_misuse(&[b"check"]));
        assert!(is_misuse(&[b"check", b"a", b"b"]));
        assert!(is_misuse(&[b"check", b"a", b"--jsn"]));
        assert!(is_misuse(&[b"reserve", b"a"]));
        assert!(is_misuse(&[b"reserve", b"-", b"-"]));
        assert!(is_misuse(&[b"measure"]));
        assert!(is_misuse(&[b"\xff"]));
    }

    #[test]
    fn help_and_version_need_no_operands() {
        assert!(matches!(read(&arguments(&[b"--help"])), Ok(Request::Help(None))));
        assert!(matches!(read(&arguments(&[b"check", b"-h"])), Ok(Request::Help(Some(_)))));
        assert!(matches!(read(&arguments(&[b"measure", b"--version"])), Ok(Request::Version)));
        assert!(COMMANDS.iter().all(|command| help(Some(command)).contains(command.operands)));
    }
}
