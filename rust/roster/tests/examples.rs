//! The roster on the folder examples/, as a library and as a program.

use planner::{Refusal, Size};
use pools::Example;
use roster::{answer, size_of_accepted, Answer};
use std::io::Write;
use std::process::{Command, Output, Stdio};

fn roster() -> Command {
    let mut command = Command::new(env!("CARGO_BIN_EXE_roster"));
    command.stdin(Stdio::piped()).stdout(Stdio::piped()).stderr(Stdio::piped());
    command
}

fn by_file(example: &Example) -> Output {
    roster().arg(pools::examples_folder().join(&example.name).with_extension("txt")).output().unwrap()
}

fn by_input(text: &[u8]) -> Output {
    let mut child = roster().spawn().unwrap();
    // it stops reading a text that is too long
    let _ = child.stdin.take().unwrap().write_all(text);
    child.wait_with_output().unwrap()
}

/// What is told on standard error of a text's size, which is counted naively.
fn told_of_size(text: &[u8]) -> String {
    let Size { edges, max_degree } = size_of_accepted(text);
    let counted = reference::size(&reference::admit_text(text, 64320).ok().unwrap().graph);
    assert_eq!((edges, max_degree), (counted.edges, counted.max_degree));
    format!("Pairs: {edges}. Most partners of one rider: {max_degree}.\n")
}

#[test]
fn examples() {
    for example in pools::examples() {
        let (told, said) = match answer(&example.text) {
            Answer::Sheet(sheet) => (Ok(sheet), told_of_size(&example.text)),
            refused @ Answer::Refused(Refusal { number, place }) => (Err((number, place)), format!("{refused}\n")),
        };
        let printed = told.clone().unwrap_or_default();
        for output in [by_file(&example), by_input(&example.text)] {
            assert_eq!(output.status.code(), Some(told.is_err() as i32));
            assert!(output.stdout == printed, "{}", example.name);
            assert_eq!(String::from_utf8(output.stderr).unwrap(), said);
        }
        assert!(pools::printed(told) == example.printed, "{}", example.name);
    }
}

/// docs/FORMAT.md has the line that is told of the chain.
#[test]
fn format_page() {
    let page = std::fs::read_to_string(pools::examples_folder().join("../docs/FORMAT.md")).unwrap();
    let chain = pools::examples().into_iter().find(|example| example.name == "chain").unwrap();
    let line = "Pairs: 3. Most partners of one rider: 2.";
    assert_eq!(by_file(&chain).stderr, format!("{line}\n").into_bytes());
    assert!(page.contains(&format!("`{line}`")));
}

#[test]
fn damaged() {
    let chain = pools::examples().into_iter().find(|example| example.name == "chain").unwrap();
    let short = &chain.text[..chain.text.len() - 1];
    assert_eq!(answer(short), Answer::Refused(Refusal { number: 18, place: 7 }));
    let output = by_input(short);
    assert_eq!(output.status.code(), Some(1));
    let sentence = "Refused, number 18, place 7: line 7 departs from the form, is missing, or is one too many.\n";
    assert_eq!(String::from_utf8(output.stderr).unwrap(), sentence);
    let output = by_input(&[b' '; 70000]);
    assert_eq!(output.status.code(), Some(1));
    assert_eq!(String::from_utf8(output.stderr).unwrap(), "Refused, number 17, place 0: the text has more than 65536 bytes.\n");
}
