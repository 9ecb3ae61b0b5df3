//! Sheets that houses share against plain Rust that works all levels afresh.

use crate::measures::{input, plain, thousand, times, Line};
use pools::Random;
use reference::quick::{self, Scope};
use reference::Houses;

/// 16 houses with the vertices shared out at random, and 60 rounds.
pub fn share_rounds(seeds: &[u64]) -> Vec<Line> {
    let ours = "sheet that 16 houses share: 1,000 vertices, 5,000 edges, 60 rounds";
    let theirs = |whom: &str| format!("plain Rust: the same sheet, in each round all levels afresh by buckets for {whom}, no checks");
    let mut lines = [Line::new(ours, &theirs("each vertex")), Line::new(ours, &theirs("each vertex of the house served"))];
    let quotas: Vec<u16> = (0..16).map(|house| 3 + (house < 12) as u16).collect();
    for &seed in seeds {
        let (pool, mut random, none) = (thousand(seed), Random(seed * 67867967), vec![false; 1000]);
        let of: Vec<u16> = (0..1000).map(|_| random.below(16) as u16).collect();
        let (houses, mut sheet, mut expected) = (Houses { of: &of, quotas: &quotas }, vec![0; 60 * 1048], [vec![], vec![]]);
        let [of_all, of_house] = &mut expected;
        let [ours, all, house] = times(
            3,
            1,
            [
                &mut || assert_eq!(planner::share_rounds(input(&pool), &of, &quotas, &mut sheet).unwrap().length, 60 * 1048),
                &mut || *of_all = quick::share_rounds(plain(&pool), &none, houses, Scope::All),
                &mut || *of_house = quick::share_rounds(plain(&pool), &none, houses, Scope::House),
            ],
        );
        assert!(expected.iter().all(|lines| *lines == sheet));
        lines[0].times.push((ours, all));
        lines[1].times.push((ours, house));
    }
    lines.into()
}
