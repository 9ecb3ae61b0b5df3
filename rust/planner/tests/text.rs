//! From a text to the sheet, against the naive working: document 01's listing, every refusal with its place, damaged texts, room and
//! limits. PLANNER_LONG=1 runs more.

mod shared;

use planner::Refusal;
use pools::{Pool, Random};
use reference::quick;
use shared::{greatest_yield, held_bytes, least_yield, refusal, small_pools};
use std::collections::BTreeMap;

const LONGEST: usize = 64320;

/// The call with some room; bytes that it has no business with must stay.
fn call(text: &[u8], room: usize) -> Result<Vec<u8>, Refusal> {
    let held = held_bytes(room);
    let mut sheet = held.clone();
    let answer = planner::text_to_sheet(text, &mut sheet);
    let written = *answer.as_ref().unwrap_or(&0);
    assert!(written <= room && sheet[written..] == held[written..], "bytes past the sheet were written: {answer:?}");
    sheet.truncate(written);
    answer.map(|_| sheet)
}

fn said(text: &[u8]) -> String {
    String::from_utf8_lossy(&text[..text.len().min(400)]).into_owned()
}

/// Against the naive working.
fn compare(text: &[u8], room: usize) -> Result<Vec<u8>, Refusal> {
    let answer = call(text, room);
    assert_eq!(answer, reference::text_to_sheet(text, room).map_err(refusal), "room {room}, {}", said(text));
    answer
}

/// Against the quick working.
fn compare_large(text: &[u8], room: usize) -> Result<Vec<u8>, Refusal> {
    let answer = call(text, room);
    assert!(answer == quick::text_to_sheet(text, room).map_err(refusal), "room {room}, {}", said(text));
    answer
}

fn refused(text: &str, room: usize, number: u64, place: u64) {
    assert_eq!(compare(text.as_bytes(), room), Err(Refusal { number, place }), "{}", said(text.as_bytes()));
}

const CHAIN: &str = "(riders 4)\n(rider 0 (with 1))\n(rider 1 (with 0 2))\n(rider 2 (with 1 3))\n(rider 3 (with 2))\n(retained)\n(rounds 2)\n";

#[test]
fn listing() {
    let sheet = "(round 01 (retain 0000) (marks ....) (redone 0002))\n(round 02 (retain 0003) (marks .++.) (redone 0002))\n";
    assert_eq!(compare(CHAIN.as_bytes(), 104), Ok(sheet.as_bytes().to_vec()));
    for room in [104, 105, 500, LONGEST, 100000] {
        assert_eq!(compare(CHAIN.as_bytes(), room), Ok(sheet.as_bytes().to_vec()));
    }
    for room in 0..104 {
        refused(CHAIN, room, 12, 0);
    }
}

/// A round anchors the vertex of greatest net yield, even where that is below 0.
#[test]
fn choices() {
    // nobody lifts anyone; 0 has climbed a level, 3 has not
    let climbed = Pool::of_edges(4, [(0, 1), (0, 2)], vec![0, 1, 1, 0]).text(2);
    let lines = "(round 01 (retain 0003) (marks ....) (redone 0000))\n(round 02 (retain 0000) (marks ....) (redone 0000))\n";
    assert_eq!(compare(&climbed, 104), Ok(lines.as_bytes().to_vec()));
    let both = Pool::of_edges(4, [(0, 1), (1, 2), (2, 3)], vec![1, 0, 0, 1]).text(1);
    assert!(compare(&both, 52).unwrap().starts_with(b"(round 01 (retain 0001) (marks ....)"));
    for (pool, chosen, lifted) in [(least_yield(), "0000", 0), (greatest_yield(), "1023", 1023)] {
        let sheet = String::from_utf8(compare_large(&pool.text(1), 1072).unwrap()).unwrap();
        assert!(sheet.starts_with(&format!("(round 01 (retain {chosen}) (marks ")));
        assert_eq!(sheet.matches('+').count(), lifted);
    }
}

/// Each form of a line departed from: the line's number.
#[test]
fn departures() {
    let lines: Vec<&str> = CHAIN.split_inclusive('\n').collect();
    let with = |line: usize, text: &str| {
        let mut all = lines.clone();
        all[line - 1] = text;
        all.concat()
    };
    let cases: &[(usize, &[&str])] = &[
        (1, &["(riders 04)\n", "(riders )\n", "(riders +4)\n", "(riders 4) \n", "(riders  4)\n", "(rider 4)\n", "(Riders 4)\n", "(riders 65536)\n"]),
        (1, &["(riders 4)\r\n", "(riders 4\n", "(riders 4))\n", " (riders 4)\n", "\n", "(riders\t4)\n", "(riders 4)\0\n", "(riders 99999999999999999999)\n"]),
        (2, &["(rider 1 (with 1))\n", "(rider 00 (with 1))\n", "(rider 0 (with 01))\n", "(rider 0 (with ))\n", "(rider 0 (with  1))\n"]),
        (2, &["(rider 0 (with 65536))\n", "(rider 0 (with 1 ))\n", "(rider 0 (with 1)\n", "(rider 0 with 1)\n", "(rider 0 (with1))\n", "(rider 0)\n", ""]),
        (5, &["(rider 2 (with 2))\n", "(rider 3 (with 2))x\n", "(rider 3 (with 2,))\n", "(rider 3 (with -2))\n", "(retained)\n"]),
        (6, &["(retained )\n", "(retained 1 1)\n", "(retained 3 1)\n", "(retained 9 1)\n", "(retained 1  3)\n", "(retained 01)\n", "(retained 65536)\n", ""]),
        (7, &["(rounds 02)\n", "(rounds)\n", "(rounds )\n", "(rounds 65536)\n", "(rounds 2)", "(round 2)\n", "(rounds 2)\r\n", ""]),
        (8, &["(rounds 2)\n\n", "(rounds 2)\n)", "(rounds 2)\n(rounds 2)\n", "(rounds 2)\n "]),
    ];
    for (place, texts) in cases {
        for text in *texts {
            refused(&with(*place.min(&7), text), LONGEST, 18, *place as u64);
        }
    }
    refused("", LONGEST, 18, 1);
    // cut anywhere: the place is that of the line cut, or of the first one missing
    for end in 0..CHAIN.len() {
        let whole = CHAIN[..end].matches('\n').count() as u64;
        refused(&CHAIN[..end], LONGEST, 18, whole + 1);
    }
}

/// Every refusal with its place, and each pair of neighbors in the order at once.
#[test]
fn refusals() {
    let text = |n: usize, lists: &[&str], retained: &str, rounds: usize| {
        let mut text = format!("(riders {n})\n");
        for v in 0..n {
            text.push_str(&format!("(rider {v} (with{}))\n", lists.get(v).unwrap_or(&"")));
        }
        text + &format!("(retained{retained})\n(rounds {rounds})\n")
    };
    let many = " 1".repeat(16385);
    let enough = " 1".repeat(16384);
    refused(&"(".repeat(65537), LONGEST, 17, 0);
    refused(&text(1025, &[], "", 0), LONGEST, 2, 0);
    refused(&text(3, &[&many], "", 0), LONGEST, 3, 0);
    refused(&text(3, &[&enough], "", 0), LONGEST, 7, 0);
    refused(&text(3, &[" 1", " 0 3"], "", 0), LONGEST, 5, 1);
    refused(&text(3, &[" 1", " 0", " 65535"], "", 0), LONGEST, 5, 2);
    refused(&text(3, &[" 1", " 0 1"], "", 0), LONGEST, 6, 1);
    refused(&text(3, &[" 2 1", " 0", " 0"], "", 0), LONGEST, 7, 0);
    refused(&text(3, &[" 1 1", " 0"], "", 0), LONGEST, 7, 0);
    refused(&text(3, &[" 1", "", ""], "", 0), LONGEST, 8, 0);
    refused(&text(3, &["", "", " 1"], "", 0), LONGEST, 8, 2);
    refused(&text(3, &[" 1", " 0"], "", 61), LONGEST, 11, 0);
    refused(&text(3, &[" 1", " 0"], "", 65535), LONGEST, 11, 0);
    refused(&text(3, &[" 1", " 0"], "", 2), 101, 12, 0);
    refused(&text(3, &[" 1", " 0"], " 1 3 7", 2), LONGEST, 15, 3);
    refused(&text(0, &[], " 0", 0), LONGEST, 15, 0);
    refused(&text(3, &[], " 65535", 0), LONGEST, 15, 65535);

    refused(&(text(3, &[&"9".repeat(65536)], "", 0)), LONGEST, 17, 0);
    refused(&(text(1025, &[], "", 0) + "\n"), LONGEST, 18, 1029);
    refused(&text(1025, &[&many], "", 0), LONGEST, 2, 0);
    refused(&text(3, &[&many, " 9"], "", 0), LONGEST, 3, 0);
    refused(&text(3, &[" 0", " 9"], "", 0), LONGEST, 5, 1);
    refused(&text(3, &[" 2 1", " 1"], "", 0), LONGEST, 6, 1);
    refused(&text(3, &[" 1", " 2 0", ""], "", 0), LONGEST, 7, 1);
    refused(&text(3, &["", " 0"], "", 61), LONGEST, 8, 1);
    refused(&text(3, &[], "", 61), 0, 11, 0);
    refused(&text(3, &[], " 3", 1), 50, 12, 0);
    refused(&text(3, &[], " 3 2", 1), 50, 18, 5);
}

/// The text of every small pool, with just enough room, with more and with less.
#[test]
fn all_small_pools() {
    let (mut texts, mut lines, mut nobody) = (0, 0, 0);
    for pool in small_pools(5) {
        let (text, need) = (pool.text(3), 3 * (48 + pool.size()));
        let sheet = compare(&text, need).unwrap();
        assert_eq!(call(&text, need + 1), Ok(sheet.clone()));
        assert_eq!(call(&text, need - 1), Err(Refusal { number: 12, place: 0 }));
        let sheet = String::from_utf8(sheet).unwrap();
        texts += 1;
        lines += sheet.lines().count();
        nobody += sheet.matches("(retain ----)").count();
    }
    println!("the texts of {texts} pools: {lines} lines, {nobody} of them with nobody left to anchor");
    // 1 + 2 + 8 + 64 + 1,024 + 32,768 pools of 0 to 5 vertices; a graph of n vertices has one anchor set that leaves none, n that leave
    // one and n(n-1)/2 that leave two: 3 lines each, 2 and 1, together 3, 5, 8, 12, 17 and 23 for 1, 1, 2, 8, 64 and 1,024 graphs
    assert_eq!((texts, lines, nobody), (33_867, 3 * 33_867, 24_760));
}

/// A byte deleted, inserted, replaced, moved; the text cut; a digit put before another.
fn change_bytes(random: &mut Random, text: &mut Vec<u8>) {
    let (i, j) = (random.below(text.len()), random.below(text.len()));
    let byte = if random.one_in(4) { random.below(256) as u8 } else { b"0123456789 ()\n\rwr"[random.below(17)] };
    let digits: Vec<usize> = (0..text.len()).filter(|&i| text[i].is_ascii_digit()).collect();
    match random.below(7) {
        0 => drop(text.remove(i)),
        1 => text.insert(i, byte),
        2 => text[i] = byte,
        3 => text.swap(i, j),
        4 => text.truncate(i),
        5 => text.push(byte),
        _ if digits.is_empty() => {}
        _ => text.insert(digits[random.below(digits.len())], b"0019"[random.below(4)]),
    }
}

/// A line deleted, doubled, moved; a CR before its end.
fn change_lines(random: &mut Random, text: &mut Vec<u8>) {
    let mut lines: Vec<Vec<u8>> = text.split_inclusive(|&b| b == 10).map(|line| line.to_vec()).collect();
    let (i, j) = (random.below(lines.len()), random.below(lines.len()));
    match random.below(4) {
        0 => drop(lines.remove(i)),
        1 => lines.insert(i, lines[j].clone()),
        2 => lines.swap(i, j),
        _ => {
            let end = lines[i].len() - 1;
            lines[i].insert(end, 13);
        }
    }
    *text = lines.concat();
}

/// A digit replaced: mostly a well-formed text that says something else.
fn change_number(random: &mut Random, text: &mut Vec<u8>) {
    let digits: Vec<usize> = (0..text.len()).filter(|&i| text[i].is_ascii_digit()).collect();
    if !digits.is_empty() {
        text[digits[random.below(digits.len())]] = b'0' + random.below(10) as u8;
    }
}

fn mutated(random: &mut Random, text: &[u8]) -> Vec<u8> {
    let mut text = text.to_vec();
    for _ in 0..1 + random.below(2) {
        match random.below(3) {
            _ if text.is_empty() => {}
            0 => change_bytes(random, &mut text),
            1 => change_lines(random, &mut text),
            _ => change_number(random, &mut text),
        }
    }
    text
}

#[test]
fn mutated_texts() {
    let (mut random, mut seen) = (Random(2236067977), BTreeMap::new());
    let count = if pools::long() { 1000000 } else { 60000 };
    for _ in 0..count {
        let pool = Pool::random_small(&mut random, 8);
        let rounds = random.below(5);
        let text = pool.text(rounds);
        let need = rounds * (48 + pool.size());
        assert!(compare(&text, need).is_ok());
        let number = match compare(&mutated(&mut random, &text), need + random.below(60)) {
            Ok(_) => 0,
            Err(e) => e.number,
        };
        *seen.entry(number).or_insert(0) += 1;
    }
    println!("{count} texts, each also mutated; answers {seen:?}");
    for number in [0, 5, 6, 7, 8, 11, 12, 15, 18] {
        assert!(seen.contains_key(&number), "answer {number} was not met");
    }
}

#[test]
fn rounds_and_room() {
    let mut random = Random(6180339887);
    for n in 0..40 {
        let mut pool = Pool::random_small(&mut random, 9);
        if n == 0 {
            pool = Pool::of_edges(0, [], vec![]);
        }
        for rounds in [0, 1, pool.size(), pool.size() + 1, 60] {
            let (text, need) = (pool.text(rounds), rounds * (48 + pool.size()));
            assert_eq!(compare(&text, need).unwrap().len(), need);
            if need > 0 {
                assert_eq!(compare(&text, need - 1), Err(Refusal { number: 12, place: 0 }));
            }
        }
        assert_eq!(compare(&pool.text(61), LONGEST), Err(Refusal { number: 11, place: 0 }));
    }
    let empty = Pool::of_edges(0, [], vec![]).text(2);
    let lines = "(round 01 (retain ----) (marks ) (redone 0000))\n(round 02 (retain ----) (marks ) (redone 0000))\n";
    assert_eq!(compare(&empty, 96), Ok(lines.as_bytes().to_vec()));
    let all = Pool::of_edges(2, [(0, 1)], vec![1, 1]).text(1);
    assert_eq!(compare(&all, 50), Ok(b"(round 01 (retain ----) (marks ..) (redone 0000))\n".to_vec()));
}

/// A sound pool whose text has exactly this many bytes.
fn of_length(random: &mut Random, n: usize, rounds: usize, length: usize) -> Vec<u8> {
    let digits = |v: usize| v.to_string().len();
    let mut edges = std::collections::BTreeSet::new();
    let mut now = Pool::of_edges(n, [], vec![0; n]).text(rounds).len();
    while now < length {
        let (u, v) = (random.below(n), random.below(n));
        let after = now + digits(u) + digits(v) + 2;
        // an edge takes 4 bytes or more
        if u < v && (after == length || after + 4 <= length) && edges.insert((u, v)) {
            now = after;
        }
    }
    Pool::of_edges(n, edges, vec![0; n]).text(rounds)
}

#[test]
fn greatest_texts() {
    let mut random = Random(1732050807);
    let text = of_length(&mut random, 1000, 2, 65536);
    assert_eq!(text.len(), 65536);
    assert_eq!(compare_large(&text, LONGEST).unwrap().len(), 2 * 1048);
    assert_eq!(compare_large(&[&text[..], b"\n"].concat(), LONGEST), Err(Refusal { number: 17, place: 0 }));
    let longer = of_length(&mut random, 1000, 2, 65537);
    assert_eq!(compare_large(&longer, LONGEST), Err(Refusal { number: 17, place: 0 }));
    assert_eq!(compare_large(&[b'('; 65536], LONGEST), Err(Refusal { number: 18, place: 1 }));

    let most = Pool::random(&mut random, 1024, 3000).text(60);
    assert_eq!(compare_large(&most, LONGEST).unwrap().len(), LONGEST);
    assert_eq!(compare_large(&most, LONGEST - 1), Err(Refusal { number: 12, place: 0 }));
    let dense = Pool::of_edges(192, (0..64).flat_map(|u| (64..192).map(move |v| (u, v))), vec![0; 192]).text(1);
    assert_eq!(compare_large(&dense, LONGEST).unwrap().len(), 240);

    // far more riders or links than a table may have still are read to the end
    let riders = |n: usize| Pool::of_edges(n, [], vec![0; n]).text(0);
    let n = (1025..4000).take_while(|&n| riders(n).len() <= 65536).last().unwrap();
    assert_eq!(compare_large(&riders(n), LONGEST), Err(Refusal { number: 2, place: 0 }));
    let cut = riders(n).len() - 1;
    assert_eq!(compare_large(&riders(n)[..cut], LONGEST), Err(Refusal { number: 18, place: n as u64 + 3 }));
    let list = |count: usize| format!("(riders 1)\n(rider 0 (with{}))\n(retained)\n(rounds 0)\n", " 7".repeat(count));
    assert_eq!(compare_large(list(32700).as_bytes(), 0), Err(Refusal { number: 3, place: 0 }));
    assert_eq!(compare_large(list(16384).as_bytes(), 0), Err(Refusal { number: 5, place: 0 }));
    println!("{n} riders are read; a text of 65,536 bytes is answered");
}
