//! docs/FORMAT.md: its worked example and its refusals are what the naive working answers.

use std::path::Path;

/// What stands between backquotes.
fn quoted(cell: &str) -> Option<String> {
    let (_, rest) = cell.split_once('`')?;
    let (text, _) = rest.rsplit_once('`')?;
    Some(text.replace("\\n", "\n"))
}

#[test]
fn format() {
    let page = std::fs::read_to_string(Path::new(env!("CARGO_MANIFEST_DIR")).join("../../docs/FORMAT.md")).unwrap();
    let chain = pools::examples().into_iter().find(|example| example.name == "chain").unwrap();
    let text = String::from_utf8(chain.text).unwrap();
    assert!(page.contains(&format!("```\n{text}```")));
    assert!(page.contains(&format!("```\n{}```", String::from_utf8(chain.printed).unwrap())));

    let mut count = 0;
    for row in page.lines().filter(|line| line.contains("| line ") && line.contains("(refused")) {
        let cells: Vec<&str> = row.split('|').collect();
        let line: usize = cells[4].trim().strip_prefix("line ").unwrap().split(':').next().unwrap().parse().unwrap();
        let mut lines: Vec<String> = text.split_inclusive('\n').map(String::from).collect();
        // left out, with a line more that is not closed, or replaced
        lines[line - 1] = match quoted(cells[4]) {
            None => String::new(),
            Some(changed) if changed.contains('\n') => changed,
            Some(changed) => changed + "\n",
        };
        let answer = reference::text_to_sheet(lines.concat().as_bytes(), 64320);
        let printed = pools::printed(answer.map_err(|(number, place)| (number as u64, place)));
        assert_eq!(String::from_utf8(printed).unwrap().trim_end(), quoted(cells[5]).unwrap(), "{row}");
        count += 1;
    }
    assert_eq!(count, 11);
}
