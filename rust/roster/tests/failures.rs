//! What the roster says of wrong calls, and of files that cannot be read or written.

use std::process::{Command, Stdio};

/// A line of bash in examples/: its exit status, what it prints, what it says on standard error.
fn run(line: &str) -> (i32, String, String) {
    let line = format!("roster() {{ \"$0\" \"$@\"; }}; {line}");
    let output = Command::new("bash")
        .args(["-c", &line, env!("CARGO_BIN_EXE_roster")])
        .current_dir(pools::examples_folder())
        .stdin(Stdio::null())
        .output()
        .unwrap();
    let text = |bytes| String::from_utf8(bytes).unwrap();
    (output.status.code().unwrap(), text(output.stdout), text(output.stderr))
}

#[test]
fn failures() {
    let full = "standard output: No space left on device (os error 28)";
    let gone = "standard output: Broken pipe (os error 32)";
    for (line, told) in [
        ("roster 'no such'", "no such: No such file or directory (os error 2)"),
        ("roster .", ".: Is a directory (os error 21)"),
        ("roster <.", "standard input: Is a directory (os error 21)"),
        ("roster <&-", "standard input: it is closed"),
        ("roster - <&-", "standard input: it is closed"),
        ("roster chain.txt >&-", "standard output: it is closed"),
        ("roster --help >&-", "standard output: it is closed"),
        ("roster chain.txt >/dev/full", full),
        ("roster --help >/dev/full", full),
        ("exec 3> >(exit); wait $!; roster chain.txt >&3", gone),
        ("roster chain.txt stations.txt", "2 arguments, and it takes one file; --help says more"),
        ("roster --sheet", "no option --sheet; --help says more"),
    ] {
        assert_eq!(run(line), (2, String::new(), format!("roster: {told}\n")), "{line}");
    }
    assert_eq!(run("roster 'no such' 2>/dev/full").0, 2);
}

/// What is told of the chain's size.
const SIZE: &str = "Pairs: 3. Most partners of one rider: 2.\n";

#[test]
fn streams_that_are_not_used() {
    let (status, chain, _) = run("cat chain.sheet");
    assert_eq!(status, 0);
    for line in ["roster chain.txt <&-", "roster - <chain.txt"] {
        assert_eq!(run(line), (0, chain.clone(), SIZE.into()), "{line}");
    }
    for line in ["roster <chain.txt 2>&-", "roster chain.txt 2>/dev/full"] {
        assert_eq!(run(line), (0, chain.clone(), String::new()), "{line}");
    }
    // the size comes behind the sheet
    assert_eq!(run("roster chain.txt 2>&1"), (0, chain + SIZE, String::new()));
    let refused = run("roster bad_line.txt");
    assert_eq!((refused.0, refused.1.is_empty()), (1, true));
    for line in ["roster bad_line.txt >&-", "roster bad_line.txt >/dev/full"] {
        assert_eq!(run(line), refused, "{line}");
    }
    assert_eq!(run("roster bad_line.txt 2>/dev/full").0, 1);
}

#[test]
fn help() {
    let (status, help, said) = run("roster --help");
    assert_eq!((status, said), (0, String::new()));
    assert!(help.starts_with("Usage: roster [FILE]\n"));
    assert_eq!(run("roster -h <&-"), (0, help, String::new()));
}

#[test]
fn terminal() {
    let (status, screen, _) = run("script -qec \"'$0'\" /dev/null <chain.txt");
    assert_eq!(status, 0);
    assert!(screen.contains("roster: waiting for a text; Ctrl-D") && screen.contains(SIZE.trim_end()), "{screen}");
}
