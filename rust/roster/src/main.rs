//! roster [FILE]: the answer sheet of a text and the size of its pool, or its refusal in words; HELP says how it is called.

use roster::{answer, size_of_accepted, told_of_size, Answer, LONGEST_TEXT};
use std::ffi::OsString;
use std::fmt::Display;
use std::fs::File;
use std::io::{self, IsTerminal, Read, Write};
use std::os::fd::AsFd;
use std::process::ExitCode;
use std::sync::atomic::{AtomicBool, Ordering::Relaxed};

const HELP: &str = "\
Usage: roster [FILE]

Reads a text, a pool of riders and a number of rounds, and prints its answer sheet; how many pairs there are and the most partners that
one rider has are told on standard error, and so is a refusal, in words. The text is FILE, or standard input without FILE and for FILE -.
docs/FORMAT.md describes texts, sheets and refusals.

Exit status: 0 the sheet was printed; 1 the text is refused; 2 a wrong call, or a file that cannot be read or written.
";

static INPUT_CLOSED: AtomicBool = AtomicBool::new(false);
static OUTPUT_CLOSED: AtomicBool = AtomicBool::new(false);

extern "C" fn look() {
    INPUT_CLOSED.store(io::stdin().as_fd().try_clone_to_owned().is_err(), Relaxed);
    OUTPUT_CLOSED.store(io::stdout().as_fd().try_clone_to_owned().is_err(), Relaxed);
}

/// Before `main`, Rust opens /dev/null in place of a closed input or output: the text would be empty, the sheet lost. The C library calls
/// what stands in .init_array before that.
#[used]
#[link_section = ".init_array"]
static LOOK: extern "C" fn() = look;

fn open(closed: &AtomicBool) -> io::Result<()> {
    match closed.load(Relaxed) {
        true => Err(io::Error::other("it is closed")),
        false => Ok(()),
    }
}

fn tell(told: impl Display) {
    // nobody is left to be told that this failed
    let _ = writeln!(io::stderr(), "{told}");
}

/// The text, up to one byte more than is allowed, which is enough to refuse it.
fn read(source: impl Read) -> io::Result<Vec<u8>> {
    let mut text = vec![];
    source.take(LONGEST_TEXT as u64 + 1).read_to_end(&mut text)?;
    Ok(text)
}

fn read_input() -> io::Result<Vec<u8>> {
    open(&INPUT_CLOSED)?;
    if io::stdin().is_terminal() {
        tell("roster: waiting for a text; Ctrl-D on a line of its own ends it, and --help says more");
    }
    read(io::stdin().lock())
}

fn write(bytes: &[u8]) -> io::Result<()> {
    open(&OUTPUT_CLOSED)?;
    io::stdout().write_all(bytes)?;
    io::stdout().flush()
}

/// The exit status, or what is told of a failure.
fn run(words: &[OsString]) -> Result<u8, String> {
    let print = |bytes: &[u8]| write(bytes).map_err(|error| format!("standard output: {error}"));
    let text = match words {
        [word, ..] if word == "-h" || word == "--help" => {
            print(HELP.as_bytes())?;
            return Ok(0);
        }
        [_, _, ..] => return Err(format!("{} arguments, and it takes one file; --help says more", words.len())),
        [word] if word != "-" && word.as_encoded_bytes().starts_with(b"-") => {
            return Err(format!("no option {}; --help says more", word.display()));
        }
        [path] if path != "-" => File::open(path).and_then(read).map_err(|error| format!("{}: {error}", path.display()))?,
        _ => read_input().map_err(|error| format!("standard input: {error}"))?,
    };
    match answer(&text) {
        Answer::Sheet(sheet) => {
            print(&sheet)?;
            tell(told_of_size(size_of_accepted(&text)));
            Ok(0)
        }
        refused => {
            tell(refused);
            Ok(1)
        }
    }
}

fn main() -> ExitCode {
    let words: Vec<_> = std::env::args_os().skip(1).collect();
    match run(&words) {
        Ok(status) => ExitCode::from(status),
        Err(told) => {
            tell(format!("roster: {told}"));
            ExitCode::from(2)
        }
    }
}
