//! include/planner.h from C: examples/call.c and examples/ceiling.c are compiled with the C compiler that links Rust's programs, linked with
//! the archive, and run.

mod source;

use std::path::Path;
use std::process::{Command, Output};

/// What call.c prints: of an answer the number, its values and the size of the table; under it what it filled.
const PRINTED: &str = "\
check: 0 0 0, edges 3, max_degree 2
check of five links: 4 4 0, edges 0, max_degree 0
work: 0 0 0, edges 3, max_degree 2
  levels 65535 1 1 1
  layers 0 3 2 1
  components 65535 1 1 1
list_components: 0 1 0, edges 3, max_degree 2
  level, size, number 1 3 1
followers: 0 2 2, edges 3, max_degree 2
  marks 0 2 2 0
collapse: 0 0 0, edges 3, max_degree 2
  marks 0 0 0 1
check_sheet: 0 0 0, edges 3, max_degree 2
check_sheet with a layer of 9: 21 1 0, edges 0, max_degree 0
first_day: 0 8 1, edges 3, max_degree 2
first_day before day 8: 0 0 0, edges 3, max_degree 2
first_day with an end of 5: 25 2 0, edges 0, max_degree 0
houses: 0 156 0, edges 3, max_degree 2
(round 01 (retain 0001) (marks ....) (redone 0002))
(round 02 (retain 0003) (marks ..+.) (redone 0001))
(round 03 (retain 0002) (marks ....) (redone 0000))
houses with a house 2: 27 3 0, edges 0, max_degree 0
run: 0 0 0, edges 3, max_degree 2
  starts 0 3 4 6 8
  links 1 2 3 0 0 3 0 2
  anchored 1 0 0 1
  levels 65535 1 2 65535
  layers 0 1 1 0
  components 65535 1 2 65535
  yields -32768 0 0 -32768
  reached 65535 0 0 65535
  stamps 0 3 6 1
  status 0 0 0 22 15 0
  lifted 2 0 0 0 0 0
  redone 2 2 2 0 0 1
text_to_sheet: 12 0
text_to_sheet: 0 50
(round 01 (retain 0000) (marks ..) (redone 0000))
";

/// What ceiling.c prints, an answer a line.
const PRINTED_OF_CEILINGS: &str = "\
ceiling: 0 2 0, edges 3, max_degree 2
ceiling of rider 0: 16 0 0, edges 0, max_degree 0
";

fn done(command: &mut Command) -> Output {
    let output = command.output().unwrap_or_else(|e| panic!("{command:?}: {e}"));
    assert!(output.status.success(), "{command:?}: {}", String::from_utf8_lossy(&output.stderr));
    output
}

/// What the example of that name prints.
fn printed(name: &str) -> String {
    let (root, program) = (source::root(), Path::new(env!("CARGO_TARGET_TMPDIR")).join(name));
    let mut compiler = Command::new("cc");
    compiler.args(["-std=c99", "-Wall", "-Wextra", "-Wpedantic", "-Werror", "-Iinclude"]).arg(format!("examples/{name}.c"));
    done(compiler.arg("crates/planner_c/out/libplanner_c.a").arg("-o").arg(&program).current_dir(root));
    String::from_utf8(done(&mut Command::new(program)).stdout).unwrap()
}

#[test]
fn a_program_in_c() {
    assert_eq!(printed("call"), PRINTED);
}

#[test]
fn ceilings_in_c() {
    assert_eq!(printed("ceiling"), PRINTED_OF_CEILINGS);
}
