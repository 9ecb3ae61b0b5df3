//! Sheets that houses share, where they are told by hand, and by the quick working.

use pools::{Pool, Random};
use reference::quick::{self, Scope};
use reference::{Houses, Plain};

/// By both workings, the quick one in both scopes.
fn share_rounds(pool: &Pool, of: &[u16], quotas: &[u16]) -> String {
    let houses = Houses { of, quotas };
    let (graph, set) = reference::admit_houses(&pool.starts, &pool.links, &pool.anchored, houses, 64320).unwrap();
    let sheet = reference::share_rounds(&mut Plain::default(), &graph, &set, houses);
    assert_eq!(sheet.len(), houses.lines() * (48 + pool.size()));
    let plain = quick::Pool { starts: &pool.starts, links: &pool.links };
    for scope in [Scope::House, Scope::All] {
        assert_eq!(quick::share_rounds(plain, &set, houses, scope), sheet, "{pool:?} {of:?} {quotas:?}");
    }
    String::from_utf8(sheet).unwrap()
}

/// Lines as vertex or `----`, marks and redone.
fn lines(told: &[(&str, &str, usize)]) -> String {
    let line = |(i, (name, marks, redone)): (usize, &(&str, &str, usize))| {
        format!("(round {:02} (retain {name}) (marks {marks}) (redone {redone:04}))\n", i + 1)
    };
    told.iter().enumerate().map(line).collect()
}

fn chain(anchored: [u8; 4]) -> Pool {
    Pool::of_edges(4, [(0, 1), (1, 2), (2, 3)], anchored.to_vec())
}

/// Who is named, in vertices without edges: all net yields are 0, so that a house names its vertices in rising order.
#[test]
fn turns() {
    let names = |of: &[u16], quotas: &[u16]| {
        let sheet = share_rounds(&Pool::of_edges(of.len(), [], vec![0; of.len()]), of, quotas);
        sheet.lines().map(|line| line[18..22].trim_start_matches("000").to_string()).collect::<Vec<_>>().join(" ")
    };
    // house 0 has 2 and 5, house 1 has 0 and 1, house 2 has 3 and 4
    let six = [1, 1, 0, 2, 2, 0];
    assert_eq!(names(&six, &[2, 2, 2]), "2 0 3 5 1 4");
    assert_eq!(names(&six, &[1, 2, 1]), "2 0 3 1");
    assert_eq!(names(&six, &[1, 2, 2]), "2 0 3 1 4");
    assert_eq!(names(&six, &[2, 1, 2]), "2 0 3 5 4");
    assert_eq!(names(&six, &[0, 1, 2]), "0 3 4");
    assert_eq!(names(&six, &[0, 0, 1]), "3");
    assert_eq!(names(&six, &[0, 0, 0]), "");
    // nobody is left in house 0, then in house 2
    assert_eq!(names(&six, &[5, 1, 1]), "2 0 3 5 ---- ---- ----");
    assert_eq!(names(&six, &[1, 1, 5]), "2 0 3 4 ---- ---- ----");
    // the turn after house 2 is house 0's again; house 1 has nobody
    assert_eq!(names(&[0, 2, 0, 2, 0], &[2, 3, 3]), "0 1 2 3 ---- ---- ---- ----");
    assert_eq!(names(&[0, 2, 0, 2, 0], &[3, 0, 2]), "0 1 2 3 4");
    assert_eq!(names(&[], &[1, 1]), "---- ----");
}

/// Worked out by hand.
#[test]
fn by_hand() {
    // 0 first among equals of its house; then 2 and 3 would lift one and two
    let told = lines(&[("0000", "....", 2), ("0003", ".++.", 2), ("0001", "....", 0), ("0002", "....", 0)]);
    assert_eq!(share_rounds(&chain([0; 4]), &[0, 0, 1, 1], &[2, 2]), told);
    // with 1 retained only 3 and 0 look at what changed; then house 0 has spent its quota, and house 1 has nobody left
    let told = lines(&[("0001", "....", 2), ("0000", "....", 0), ("----", "....", 0), ("----", "....", 0)]);
    assert_eq!(share_rounds(&chain([0; 4]), &[1, 0, 0, 0], &[1, 3]), told);
    // 3 would lift two, but it is the turn of a house whose best, 2, lifts one
    let told = lines(&[("0002", ".+..", 2), ("0003", "....", 0)]);
    assert_eq!(share_rounds(&chain([1, 0, 0, 0]), &[0, 0, 0, 1], &[1, 1]), told);
    // nobody lifts anyone; 0 has climbed a level and 3 has not, which matters only within a house
    let climbed = Pool::of_edges(4, [(0, 1), (0, 2)], vec![0, 1, 1, 0]);
    assert_eq!(share_rounds(&climbed, &[0, 0, 0, 0], &[2]), lines(&[("0003", "....", 0), ("0000", "....", 0)]));
    assert_eq!(share_rounds(&climbed, &[0, 0, 0, 1], &[1, 1]), lines(&[("0000", "....", 0), ("0003", "....", 0)]));
    let none = Pool::of_edges(0, [], vec![]);
    assert_eq!(share_rounds(&none, &[], &[1]), lines(&[("----", "", 0)]));
    let all = Pool::of_edges(2, [(0, 1)], vec![1, 1]);
    assert_eq!(share_rounds(&all, &[0, 1], &[1, 0]), lines(&[("----", "..", 0)]));
}

/// The order of the tests, by what is left wrong when the first is mended.
#[test]
fn order_of_refusals() {
    let refusal = |starts: &[u16], bytes: &[u8], of: &[u16], quotas: &[u16], room: usize| {
        reference::admit_houses(starts, &[1, 0], bytes, Houses { of, quotas }, room).err()
    };
    let (table, many) = ([0, 1, 2], [65535; 65538]);
    assert_eq!(refusal(&[0, 1, 1], &[0], &[9], &many, 0), Some((4, 2)));
    assert_eq!(refusal(&table, &[0], &[9, 9], &many, 0), Some((9, 0)));
    assert_eq!(refusal(&table, &[0, 2], &[9], &many, 0), Some((9, 0)));
    assert_eq!(refusal(&table, &[0, 2], &[9; 3], &many, 0), Some((9, 0)));
    assert_eq!(refusal(&table, &[0, 2], &[9, 9], &many, 0), Some((10, 1)));
    assert_eq!(refusal(&table, &[0, 1], &[9, 9], &many, 0), Some((11, 0)));
    assert_eq!(refusal(&table, &[0, 1], &[9, 9], &[30, 31], 0), Some((11, 0)));
    assert_eq!(refusal(&table, &[0, 1], &[17, 18], &[1; 17], 0), Some((26, 0)));
    assert_eq!(refusal(&table, &[0, 1], &[9, 9], &[], 0), Some((26, 0)));
    assert_eq!(refusal(&table, &[0, 1], &[15, 16], &[1; 16], 0), Some((27, 1)));
    assert_eq!(refusal(&table, &[0, 1], &[16, 15], &[1; 16], 0), Some((27, 0)));
    assert_eq!(refusal(&table, &[0, 1], &[15, 0], &[1; 16], 799), Some((12, 0)));
    assert_eq!(refusal(&table, &[0, 1], &[15, 0], &[1; 16], 800), None);
    assert_eq!(refusal(&table, &[0, 1], &[1, 0], &[30, 30], 3000), None);
    assert_eq!(refusal(&table, &[0, 1], &[0, 0], &[0], 0), None);
}

/// One house has the ordinary sheet; and many random pools and houses by both workings.
#[test]
fn quick_is_naive() {
    let (mut random, mut named, mut nobody) = (Random(2463534242), 0, 0);
    for i in 0..if pools::long() { 20000 } else { 2000 } {
        let pool = Pool::random_small(&mut random, if i % 20 == 0 { 30 } else { 12 });
        let (of, quotas) = pool.random_houses(&mut random, 8);
        let sheet = share_rounds(&pool, &of, &quotas);
        nobody += sheet.matches("----").count();
        named += sheet.lines().count();
        let (graph, set) = reference::admit(&pool.starts, &pool.links, &pool.anchored).unwrap();
        let rounds = random.below(5);
        let alone = share_rounds(&pool, &vec![0; pool.size()], &[rounds as u16]);
        assert_eq!(alone.into_bytes(), reference::rounds(&graph, &set, rounds), "{pool:?}");
    }
    println!("{named} lines of houses, {nobody} of them with nobody left to anchor");
    assert!(500 < nobody && 2 * nobody < named);
}
