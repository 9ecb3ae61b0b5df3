//! The fields of four digits: what their writer prints of every number, and that neither it nor a function that it calls divides.

mod source;

use source::{file, functions, Function};

const LINE: &str = "crates/sheet/src/line.rt";

/// The parts of a line that have four digits, the field alone, which program four_digits prints, and the writer of these.
const PARTS: [&str; 3] = ["retain", "redone", "put_four"];
const WRITER: &str = "four";

/// What the gate has program four_digits print is what Rust prints.
#[test]
fn every_number() {
    let numbers: String = (0..10_000).map(|v| format!("{v:04}\n")).collect();
    assert!(file("crates/four_digits/stdout") == numbers);
}

/// What may be called and is no function of the file: a slice's length, and a value that is there.
const KNOWN: [&str; 2] = [".len", "Some"];

/// Whom a body calls: every word before a `(`, a method with its point, unless it is one of `self` or of a writer that the body makes, and what
/// has a path with the end of that.
fn calls(body: &[&str]) -> Vec<String> {
    let is_word = |token: &str| token.starts_with(|c: char| c.is_alphabetic() || c == '_');
    let places = (1..body.len()).filter(|&i| body[i] == "(" && is_word(body[i - 1]));
    let is_own = |owner: &str| owner == "self" || body.windows(4).any(|made| made == [owner, "=", "Writer", "{"]);
    let called = |i: usize| match body[..i] {
        [.., owner, ".", name] if is_own(owner) => name.to_string(),
        [.., ".", name] => format!(".{name}"),
        [.., path, ":", ":", name] => format!("{path}::{name}"),
        _ => body[i - 1].to_string(),
    };
    places.map(called).collect()
}

/// These functions of a file and all that they call; or one that divides, or that the file does not have.
fn undivided(functions: &[Function], from: &[&str]) -> Result<Vec<String>, String> {
    let mut waiting: Vec<String> = from.iter().map(|name| name.to_string()).collect();
    let mut reached = vec![];
    while let Some(name) = waiting.pop() {
        if KNOWN.contains(&name.as_str()) || reached.contains(&name) {
            continue;
        }
        let Some(function) = functions.iter().find(|function| function.name == name) else {
            return Err(format!("{name} is not in the file"));
        };
        if let Some(sign) = function.body.iter().find(|token| ["/", "%"].contains(token)) {
            return Err(format!("{name} has {sign}"));
        }
        waiting.extend(calls(&function.body));
        reached.push(name);
    }
    Ok(reached)
}

#[test]
fn no_division() {
    let source = file(LINE);
    let reached = undivided(&functions(LINE, &source).unwrap(), &PARTS).unwrap();
    println!("{} do not divide", reached.join(", "));
    assert!(reached.iter().any(|name| name == WRITER), "{WRITER} writes no part of a line");
}

/// What is told of `a`, and of `b`, which calls `c`.
#[test]
fn divisions() {
    let told = |a: &str, c: &str| {
        let a = format!("fn a(v: u16) -> u16\n    ensures {{ result ≡ v / 10 }}\n{{\n    {a}\n}}\n");
        let source = format!("{a}fn b(s: &[u8]) {{ c(s.len(), '%') }}\nfn c() {{ {c} }}\nfn D() {{ 1 / 2 }}\n");
        undivided(&functions("e.rt", &source).unwrap(), &["a"]).map(|reached| reached.join(" "))
    };
    let wrong = |sentence: &str| Err(sentence.to_string());
    assert_eq!(told("v - 1 // v / 10", "D()"), Ok("a".into()));
    assert_eq!(told("match b(\"/\") { Some(x) => self.b(b'/') }", "a(0) - D"), Ok("a b c".into()));
    assert_eq!(told("let w = Writer { v }; w.b(v)", "1"), Ok("a b c".into()));
    assert_eq!(told("v / 10", ""), wrong("a has /"));
    assert_eq!(told("b(v)", "v %= 10"), wrong("c has %"));
    assert_eq!(told("if b(v) { b(v) }", "D(v)"), wrong("D has /"));
    assert_eq!(told("b(v)", "other::a(v)"), wrong("other::a is not in the file"));
    assert_eq!(told("b(v)", "Units::D(v)"), wrong("Units::D is not in the file"));
    assert_eq!(told("b(v)", "v.b()"), wrong(".b is not in the file"));
}
