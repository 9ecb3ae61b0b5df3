//! Writes the folder examples/: texts, and beside each what the quick working of rust/reference answers.

use pools::{examples_folder, printed, Pool, Random};
use std::fs;

/// Forty riders of four stations: most pairs within a station, some across, a few riders with one partner only.
fn stations() -> Pool {
    let mut random = Random(63352);
    let ends = [0, 13, 24, 33, 37];
    let mut edges = vec![];
    for (station, share) in [30, 45, 60, 90].into_iter().enumerate() {
        for u in ends[station]..ends[station + 1] {
            edges.extend((u + 1..ends[station + 1]).filter(|_| random.below(100) < share).map(|v| (u, v)));
        }
    }
    for _ in 0..14 {
        edges.push((random.below(13), 13 + random.below(24)));
    }
    edges.extend((37..40).map(|v| (random.below(37), v)));
    let mut anchored = vec![0; 40];
    for v in [4, 17, 28] {
        anchored[v] = 1;
    }
    Pool::of_edges(40, edges, anchored)
}

/// The text without the first partner of one rider, who still lists that rider.
fn without_return(pool: &Pool, v: usize, rounds: usize) -> String {
    let text = String::from_utf8(pool.text(rounds)).unwrap();
    let first = format!("(rider {v} (with {}", pool.list(v)[0]);
    text.replace(&first, &format!("(rider {v} (with"))
}

fn main() {
    let chain = Pool::of_edges(4, [(0, 1), (1, 2), (2, 3)], vec![0; 4]);
    let chain_text = String::from_utf8(chain.text(2)).unwrap();
    let texts = [
        ("chain", chain_text.clone().into_bytes()),
        ("stations", stations().text(8)),
        ("thousand", Pool::random(&mut Random(1000), 1000, 5000).text(20)),
        ("missing_return", without_return(&stations(), 20, 8).into_bytes()),
        ("bad_line", chain_text.replace("(with 1 3)", "(with 1 03)").into_bytes()),
    ];
    fs::create_dir_all(examples_folder()).unwrap();
    for (name, text) in texts {
        let answer = reference::quick::text_to_sheet(&text, 64320).map_err(|(number, place)| (number as u64, place));
        let path = examples_folder().join(name);
        fs::write(path.with_extension("txt"), text).unwrap();
        fs::write(path.with_extension("sheet"), printed(answer)).unwrap();
    }
}
