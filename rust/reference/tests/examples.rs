//! The folder examples/: the naive working gives what stands there, and for large pools the quick one.

#[test]
fn examples() {
    let told = |answer: Result<Vec<u8>, reference::Refusal>| pools::printed(answer.map_err(|(number, place)| (number as u64, place)));
    let examples = pools::examples();
    assert!(examples.len() >= 5);
    for example in examples {
        assert!(told(reference::quick::text_to_sheet(&example.text, 64320)) == example.printed, "{}", example.name);
        if example.text.len() < 5000 {
            assert!(told(reference::text_to_sheet(&example.text, 64320)) == example.printed, "{}", example.name);
        }
    }
}
