//! The exports three times over, in the Rattle source, in rust/planner's declarations and in include/planner.h: the same structs with the
//! same fields, the same functions with the same parameters by name, type and order, and none more.

mod source;

use source::{file, Read, Reader};
use std::fmt;

/// The types of numbers: in Rattle and Rust, and in C.
const NUMBERS: [(&str, &str); 6] =
    [("u8", "uint8_t"), ("u16", "uint16_t"), ("i16", "int16_t"), ("u32", "uint32_t"), ("u64", "uint64_t"), ("usize", "size_t")];

#[derive(Clone, Copy, PartialEq, Eq)]
enum Kind {
    Number,
    Slice,
    MutSlice,
}

/// `number` is the type, of a slice that of its elements, as Rattle and Rust call it.
#[derive(PartialEq, Eq)]
struct Parameter {
    name: String,
    kind: Kind,
    number: &'static str,
}

struct Function {
    name: String,
    parameters: Vec<Parameter>,
    result: String,
}

struct Struct {
    name: String,
    fields: Vec<Parameter>,
}

#[derive(Default)]
struct Interface {
    structs: Vec<Struct>,
    functions: Vec<Function>,
}

/// As Rattle writes it.
impl fmt::Display for Parameter {
    fn fmt(&self, f: &mut fmt::Formatter) -> fmt::Result {
        let Parameter { name, kind, number } = self;
        match kind {
            Kind::Number => write!(f, "{name}: {number}"),
            Kind::Slice => write!(f, "{name}: &[{number}]"),
            Kind::MutSlice => write!(f, "{name}: &mut [{number}]"),
        }
    }
}

fn joined(parameters: &[Parameter]) -> String {
    parameters.iter().map(Parameter::to_string).collect::<Vec<_>>().join(", ")
}

impl Interface {
    /// Each struct and each function as a line.
    fn lines(&self) -> Vec<String> {
        let structs = self.structs.iter().map(|s| format!("struct {} {{ {} }}", s.name, joined(&s.fields)));
        let functions = self.functions.iter().map(|f| format!("{}({}) -> {}", f.name, joined(&f.parameters), f.result));
        structs.chain(functions).collect()
    }

    /// Where another one differs first.
    fn difference(&self, other: &Interface) -> Option<String> {
        let (ours, theirs) = (self.lines(), other.lines());
        let first = (0..ours.len().max(theirs.len())).find(|&i| ours.get(i) != theirs.get(i))?;
        let [ours, theirs] = [ours, theirs].map(|lines| lines.get(first).map_or("nothing more".into(), |line| format!("`{line}`")));
        Some(format!("{theirs} where the Rattle source has {ours}"))
    }

    /// With every result one of the structs.
    fn closed(self) -> Read<Interface> {
        match self.functions.iter().find(|f| self.structs.iter().all(|s| s.name != f.result)) {
            Some(f) => Err(format!("{} answers {}, which is no struct of the exports", f.name, f.result)),
            None => Ok(self),
        }
    }
}

/// A type by its name in the language that is picked.
fn number_by(reader: &mut Reader, pick: fn(&(&'static str, &'static str)) -> &'static str) -> Read<&'static str> {
    let found = NUMBERS.iter().find(|names| pick(names) == reader.peek());
    let Some((number, _)) = found else { return reader.fail("a type of numbers") };
    reader.next()?;
    Ok(number)
}

fn number(reader: &mut Reader) -> Read<&'static str> {
    number_by(reader, |names| names.0)
}

fn c_number(reader: &mut Reader) -> Read<&'static str> {
    number_by(reader, |names| names.1)
}

fn name_of(reader: &mut Reader) -> Read<String> {
    reader.word().map(str::to_owned)
}

/// `#[repr(C)]` has been read: the struct under it, in Rattle as in Rust.
fn laid_out(reader: &mut Reader) -> Read<Struct> {
    reader.expect("pub struct")?;
    let name = name_of(reader)?;
    reader.expect("{")?;
    let fields = reader.list("}", |reader| {
        reader.expect("pub")?;
        let name = name_of(reader)?;
        reader.expect(":")?;
        Ok(Parameter { name, kind: Kind::Number, number: number(reader)? })
    })?;
    Ok(Struct { name, fields })
}

/// A function from its name to its result, in Rattle as in Rust.
fn signature(reader: &mut Reader, parameter: fn(&mut Reader) -> Read<Parameter>) -> Read<Function> {
    let name = name_of(reader)?;
    reader.expect("(")?;
    let parameters = reader.list(")", parameter)?;
    reader.expect("->")?;
    Ok(Function { name, parameters, result: name_of(reader)? })
}

/// Rust and C pass a slice as a pointer, read so far as the slice, and behind it the length under the pointer's name with `_len`.
fn with_lengths(function: Function) -> Read<Function> {
    let (mut parameters, mut rest) = (vec![], function.parameters.into_iter());
    while let Some(parameter) = rest.next() {
        let length = Parameter { name: format!("{}_len", parameter.name), kind: Kind::Number, number: "usize" };
        if parameter.kind != Kind::Number && rest.next() != Some(length) {
            return Err(format!("{}: no length behind {}", function.name, parameter.name));
        }
        parameters.push(parameter);
    }
    Ok(Function { parameters, ..function })
}

fn rattle_parameter(reader: &mut Reader) -> Read<Parameter> {
    let name = name_of(reader)?;
    reader.expect(":")?;
    let kind = match reader.take("&") {
        false => Kind::Number,
        true if reader.take("mut") => Kind::MutSlice,
        true => Kind::Slice,
    };
    if kind == Kind::Number {
        return Ok(Parameter { name, kind, number: number(reader)? });
    }
    reader.expect("[")?;
    let number = number(reader)?;
    reader.expect("]")?;
    Ok(Parameter { name, kind, number })
}

/// A file of planner_c: nothing but modules, imports and exports.
fn rattle_functions(reader: &mut Reader, functions: &mut Vec<Function>) -> Read<()> {
    while !reader.is_done() {
        if ["ghost use", "use", "pub mod"].into_iter().any(|item| reader.take(item)) {
            reader.skip_past(";")?;
            continue;
        }
        reader.expect("#[unsafe(no_mangle)] pub extern \"C\" fn")?;
        functions.push(signature(reader, rattle_parameter)?);
        reader.contract()?;
        reader.block()?;
    }
    Ok(())
}

/// The structs among the items of numbers.
fn rattle_structs(reader: &mut Reader) -> Read<Vec<Struct>> {
    let mut structs = vec![];
    while !reader.is_done() {
        if reader.take("#[repr(C)]") {
            while reader.take("#[derive") {
                reader.skip_past("]")?;
            }
            structs.push(laid_out(reader)?);
            continue;
        }
        if reader.peek() == "struct" {
            return reader.fail("`#[repr(C)]` above it");
        }
        reader.next()?;
    }
    Ok(structs)
}

/// The source of numbers, and of planner_c its files, each with its path.
fn rattle(numbers: &str, files: &[(String, String)]) -> Read<Interface> {
    let structs = rattle_structs(&mut Reader::new("numbers", numbers))?;
    let mut functions = vec![];
    for (path, source) in files {
        rattle_functions(&mut Reader::new(path, source), &mut functions)?;
    }
    Interface { structs, functions }.closed()
}

fn rust_parameter(reader: &mut Reader) -> Read<Parameter> {
    let name = name_of(reader)?;
    reader.expect(":")?;
    let kind = match reader.take("*") {
        false => Kind::Number,
        true if reader.take("mut") => Kind::MutSlice,
        true => reader.expect("const").map(|_| Kind::Slice)?,
    };
    Ok(Parameter { name, kind, number: number(reader)? })
}

/// rust/planner's declarations: structs, and functions in a block for C.
fn rust(source: &str) -> Read<Interface> {
    let (mut reader, mut interface) = (Reader::new("exports.rs", source), Interface::default());
    while !reader.is_done() {
        if reader.take("#[repr(C)]") {
            interface.structs.push(laid_out(&mut reader)?);
            continue;
        }
        reader.expect("extern \"C\" {")?;
        while !reader.take("}") {
            reader.expect("pub fn")?;
            interface.functions.push(with_lengths(signature(&mut reader, rust_parameter)?)?);
            reader.expect(";")?;
        }
    }
    interface.closed()
}

/// A struct of C by its name in Rattle: `planner_two_words` is `TwoWords`.
fn c_struct_name(reader: &mut Reader) -> Read<String> {
    let Some(words) = reader.peek().strip_prefix("planner_") else { return reader.fail("a name that begins with planner_") };
    reader.next()?;
    Ok(words.split('_').map(|word| word[..1].to_uppercase() + &word[1..]).collect())
}

/// `typedef struct` has been read.
fn c_struct(reader: &mut Reader) -> Read<Struct> {
    let (name, mut fields) = (c_struct_name(reader)?, vec![]);
    reader.expect("{")?;
    while !reader.take("}") {
        let number = c_number(reader)?;
        fields.push(Parameter { name: name_of(reader)?, kind: Kind::Number, number });
        reader.expect(";")?;
    }
    if c_struct_name(reader)? != name {
        return Err(format!("another name behind struct {name}"));
    }
    reader.expect(";")?;
    Ok(Struct { name, fields })
}

fn c_parameter(reader: &mut Reader) -> Read<Parameter> {
    let constant = reader.take("const");
    let number = c_number(reader)?;
    let kind = match (constant, reader.take("*")) {
        (true, true) => Kind::Slice,
        (false, true) => Kind::MutSlice,
        (false, false) => Kind::Number,
        (true, false) => return reader.fail("`*`"),
    };
    Ok(Parameter { name: name_of(reader)?, kind, number })
}

fn c_function(reader: &mut Reader) -> Read<Function> {
    let (result, name) = (c_struct_name(reader)?, name_of(reader)?);
    reader.expect("(")?;
    let parameters = reader.list(")", c_parameter)?;
    reader.expect(";")?;
    with_lengths(Function { name, parameters, result })
}

/// The header without the lines that the preprocessor takes, which are these and no other.
fn preprocessed(header: &str) -> Read<String> {
    const LINES: [&str; 6] =
        ["#ifndef PLANNER_H", "#define PLANNER_H", "#include <stddef.h>", "#include <stdint.h>", "#ifdef __cplusplus", "#endif"];
    let line = |line: &str| match line.starts_with('#') {
        true if LINES.contains(&line) => Ok("\n".into()),
        true => Err(format!("planner.h: `{line}` is not understood")),
        false => Ok(format!("{line}\n")),
    };
    header.lines().map(line).collect()
}

/// The header: structs and functions in a block for C.
fn c(header: &str) -> Read<Interface> {
    let header = preprocessed(header)?;
    let (mut reader, mut interface) = (Reader::new("planner.h", &header), Interface::default());
    reader.expect("extern \"C\" {")?;
    while !reader.take("}") {
        if reader.take("typedef struct") {
            interface.structs.push(c_struct(&mut reader)?);
        } else {
            interface.functions.push(c_function(&mut reader)?);
        }
    }
    match reader.is_done() {
        true => interface.closed(),
        false => reader.fail("the end"),
    }
}

/// The files of planner_c in the order in which its root names them.
fn exporting_files() -> Read<Vec<(String, String)>> {
    let source = file("crates/planner_c/src/lib.rt");
    let (mut reader, mut files) = (Reader::new("crates/planner_c/src/lib.rt", &source), vec![]);
    reader.expect("#![tactic(auto)]")?;
    while !reader.is_done() {
        reader.expect("pub mod")?;
        let path = format!("crates/planner_c/src/{}.rt", reader.word()?);
        reader.expect(";")?;
        files.push((path.clone(), file(&path)));
    }
    Ok(files)
}

#[test]
fn declarations() {
    let exported = exporting_files().and_then(|files| rattle(&file("crates/numbers/src/lib.rt"), &files)).unwrap();
    assert!(!exported.functions.is_empty());
    let declared = [("rust/planner/src/exports.rs", rust as fn(&str) -> Read<Interface>), ("include/planner.h", c)];
    for (path, parse) in declared {
        let difference = exported.difference(&parse(&file(path)).unwrap());
        assert!(difference.is_none(), "{path}: {}", difference.unwrap());
    }
    println!("{} functions are declared as they are exported", exported.functions.len());
}

/// A small interface in each of the three, to try the parsers by. The Rattle source is two texts with a line between.
const RATTLE: &str = r#"// answers
ghost use a.{b};
fn accepted(first: u8) -> Answer
    ensures { result.first ≡ first }
{
    Answer { number: 0, first }
}

#[repr(C)]
#[derive(Drop)]
pub struct Answer {
    pub number: u64,
    pub first: u64,
}
----
use numbers::Answer;

#[unsafe(no_mangle)]
pub extern "C" fn planner_a(from: &[u16], to: &mut [i16]) -> Answer
    requires { from }
    ensures answer { cond { a } { b } }
{
    if from[0] == b'{' as u16 { a(from, to) } else { b(from, to) }
}

#[unsafe(no_mangle)]
pub extern "C" fn planner_b(
    from: &[u8],
    x: usize,
    y: u16,
) -> Answer
{
    b(from, x, y)
}
"#;

const RUST: &str = r#"//! Declarations.

/// An answer.
#[repr(C)]
pub struct Answer {
    pub number: u64,
    pub first: u64,
}

extern "C" {
    pub fn planner_a(from: *const u16, from_len: usize, to: *mut i16, to_len: usize) -> Answer;
    pub fn planner_b(
        from: *const u8, from_len: usize, x: usize, y: u16,
    ) -> Answer;
}
"#;

const HEADER: &str = r#"/* For C: planner_c() is not declared here. */
#ifdef __cplusplus
extern "C" {
#endif
typedef struct planner_answer {
    uint64_t number; // 0 where accepted
    uint64_t first;
} planner_answer;
planner_answer planner_a(const uint16_t *from, size_t from_len, int16_t *to, size_t to_len);
planner_answer planner_b(
    const uint8_t *from, size_t from_len, size_t x, uint16_t y);
#ifdef __cplusplus
}
#endif
"#;

type Parse = fn(&str) -> Read<Interface>;

fn rattle_of_two(text: &str) -> Read<Interface> {
    let (numbers, exports) = text.split_once("----\n").unwrap();
    rattle(numbers, &[("exports".into(), exports.into())])
}

/// The parser's answer to the text with the one place that holds `old` changed.
fn changed(text: &str, parse: Parse, old: &str, new: &str) -> Read<Interface> {
    assert_eq!(text.matches(old).count(), 1, "{old}");
    parse(&text.replace(old, new))
}

/// A type, the order of parameters, what may be written, a function left out, a field's name, a parameter's, a number for a slice, a
/// function's name, another field, the type of a number that is no slice: in each of the three it is told from what the others say.
#[test]
fn changes_are_told() {
    let rattle_b = &RATTLE[RATTLE.rfind("#[unsafe(no_mangle)]").unwrap()..];
    let rust_b = &RUST[RUST.find("    pub fn planner_b").unwrap()..RUST.rfind('}').unwrap()];
    let header_b = &HEADER[HEADER.find("planner_answer planner_b").unwrap()..HEADER.rfind("#ifdef").unwrap()];
    let cases: [(&str, Parse, [(&str, &str); 10]); 3] = [
        (RATTLE, rattle_of_two, [
            ("from: &[u16]", "from: &[u32]"),
            ("from: &[u16], to: &mut [i16]", "to: &mut [i16], from: &[u16]"),
            ("&mut [i16]", "&[i16]"),
            (rattle_b, ""),
            ("pub first", "pub value"),
            ("x: usize", "v: usize"),
            ("from: &[u8]", "from: u8"),
            ("planner_a", "planner_d"),
            ("pub first: u64,", "pub first: u64,\n    pub second: u64,"),
            ("y: u16", "y: usize"),
        ]),
        (RUST, rust, [
            ("from: *const u16", "from: *const u32"),
            ("from: *const u16, from_len: usize, to: *mut i16, to_len: usize", "to: *mut i16, to_len: usize, from: *const u16, from_len: usize"),
            ("*mut i16", "*const i16"),
            (rust_b, ""),
            ("pub first", "pub value"),
            ("x: usize", "v: usize"),
            ("from: *const u8, from_len: usize", "from: u8"),
            ("planner_a", "planner_d"),
            ("pub first: u64,", "pub first: u64,\n    pub second: u64,"),
            ("y: u16", "y: usize"),
        ]),
        (HEADER, c, [
            ("const uint16_t *from", "const uint32_t *from"),
            ("const uint16_t *from, size_t from_len, int16_t *to, size_t to_len", "int16_t *to, size_t to_len, const uint16_t *from, size_t from_len"),
            ("int16_t *to", "const int16_t *to"),
            (header_b, ""),
            ("uint64_t first", "uint64_t value"),
            ("size_t x", "size_t v"),
            ("const uint8_t *from, size_t from_len", "uint8_t from"),
            ("planner_a(", "planner_d("),
            ("uint64_t first;", "uint64_t first;\n    uint64_t second;"),
            ("uint16_t y", "size_t y"),
        ]),
    ];
    let right = rattle_of_two(RATTLE).unwrap();
    let lines = [
        "struct Answer { number: u64, first: u64 }",
        "planner_a(from: &[u16], to: &mut [i16]) -> Answer",
        "planner_b(from: &[u8], x: usize, y: u16) -> Answer",
    ];
    assert_eq!(right.lines(), lines);
    for (text, parse, changes) in cases {
        assert_eq!(right.difference(&parse(text).unwrap()), None);
        for (old, new) in changes {
            let other = changed(text, parse, old, new).unwrap_or_else(|e| panic!("{old}: {e}"));
            assert!(right.difference(&other).is_some() && other.difference(&right).is_some(), "{old}");
        }
    }
}

/// What a parser does not understand it refuses, with the file and the line where it stands.
#[test]
fn strangers_are_refused() {
    let cases: [(&str, Parse, &str, &str, &str); 17] = [
        (RATTLE, rattle_of_two, "&[u16]", "&[bool]", "exports:4: `bool` where a type of numbers is expected"),
        (RATTLE, rattle_of_two, "&mut [i16]", "&mut [i16; 4]", "exports:4: `;` where `]` is expected"),
        (RATTLE, rattle_of_two, "y: u16", "y: &u16", "exports:15: `u16` where `[` is expected"),
        (RATTLE, rattle_of_two, "#[unsafe(no_mangle)]\npub extern \"C\" fn planner_b", "pub extern \"C\" fn planner_b", "exports:11: `pub` where `#[unsafe(no_mangle)] pub extern \"C\" fn` is expected"),
        (RATTLE, rattle_of_two, "#[unsafe(no_mangle)]\npub extern \"C\" fn planner_b", "fn planner_b", "exports:11: `fn` where `#[unsafe(no_mangle)] pub extern \"C\" fn` is expected"),
        (RATTLE, rattle_of_two, ",\n) -> Answer", ",\n) -> Other", "planner_b answers Other, which is no struct of the exports"),
        (RATTLE, rattle_of_two, "#[repr(C)]\n", "", "numbers:10: `struct` where `#[repr(C)]` above it is expected"),
        (RUST, rust, "*const u8", "*u8", "exports.rs:13: `u8` where `const` is expected"),
        (RUST, rust, "to: *mut i16, to_len: usize", "to: *mut i16, room: usize", "planner_a: no length behind to"),
        (RUST, rust, "from_len: usize, x: usize", "x: usize, from_len: usize", "planner_b: no length behind from"),
        (RUST, rust, "#[repr(C)]\n", "#[repr(C)]\n#[derive(Clone)]\n", "exports.rs:5: `#` where `pub struct` is expected"),
        (RUST, rust, "#[repr(C)]\n", "", "exports.rs:4: `pub` where `extern \"C\" {` is expected"),
        (HEADER, c, "const uint8_t *", "const unsigned char *", "planner.h:11: `unsigned` where a type of numbers is expected"),
        (HEADER, c, "size_t to_len", "uint32_t to_len", "planner_a: no length behind to"),
        (HEADER, c, "} planner_answer;", "} planner_other;", "another name behind struct Answer"),
        (HEADER, c, "#ifdef __cplusplus\nextern", "#define size_t int\nextern", "planner.h: `#define size_t int` is not understood"),
        (HEADER, c, "planner_answer planner_b", "const planner_answer planner_b", "planner.h:10: `const` where a name that begins with planner_ is expected"),
    ];
    for (text, parse, old, new, told) in cases {
        assert_eq!(changed(text, parse, old, new).err().as_deref(), Some(told), "{old}");
    }
}
