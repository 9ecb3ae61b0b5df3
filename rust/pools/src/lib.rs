//! Pools to test and to measure by: a deterministic generator, random tables, small ones by enumeration, ladders with many upstair walks,
//! their texts, and events, terms and houses on them.

use reference::{Event, Term, PLACES};
use std::collections::BTreeSet;
use std::fs;
use std::path::{Path, PathBuf};

/// A deterministic generator (xorshift).
pub struct Random(pub u64);

impl Random {
    pub fn below(&mut self, n: usize) -> usize {
        self.0 ^= self.0 << 13;
        self.0 ^= self.0 >> 7;
        self.0 ^= self.0 << 17;
        (self.0 >> 11) as usize % n
    }

    pub fn one_in(&mut self, n: usize) -> bool {
        self.below(n) == 0
    }

    /// A vertex of n, or now and then a number that is none.
    pub fn vertex(&mut self, n: usize) -> usize {
        if self.one_in(40) { 65535 - self.below(3) } else { self.below(n + 1) }
    }

    /// In random order.
    pub fn shuffle<T>(&mut self, items: &mut [T]) {
        for i in (1..items.len()).rev() {
            items.swap(i, self.below(i + 1));
        }
    }
}

/// Whether the longer tests are asked for.
pub fn long() -> bool {
    std::env::var("PLANNER_LONG").is_ok()
}

/// A table and its anchored bytes, sound or not.
#[derive(Clone, PartialEq, Eq, PartialOrd, Ord, Debug)]
pub struct Pool {
    pub starts: Vec<u16>,
    pub links: Vec<u16>,
    pub anchored: Vec<u8>,
}

impl Pool {
    /// The sound table of some edges.
    pub fn of_edges(n: usize, edges: impl IntoIterator<Item = (usize, usize)>, anchored: Vec<u8>) -> Pool {
        let mut lists = vec![BTreeSet::new(); n];
        for (u, v) in edges {
            lists[u].insert(v as u16);
            lists[v].insert(u as u16);
        }
        let mut starts = vec![0u16];
        let mut links = vec![];
        for list in lists {
            links.extend(list);
            starts.push(links.len() as u16);
        }
        Pool { starts, links, anchored }
    }

    /// n vertices and m edges, none anchored.
    pub fn random(random: &mut Random, n: usize, m: usize) -> Pool {
        let mut edges = BTreeSet::new();
        while edges.len() < m {
            let (u, v) = (random.below(n), random.below(n));
            if u != v {
                edges.insert((u.min(v), u.max(v)));
            }
        }
        Pool::of_edges(n, edges, vec![0; n])
    }

    /// Up to `most` vertices, up to three edges a vertex, some of them anchored.
    pub fn random_small(random: &mut Random, most: usize) -> Pool {
        let n = random.below(most + 1);
        let mut edges = vec![];
        if n > 1 {
            for _ in 0..random.below(3 * n + 1) {
                let (u, v) = (random.below(n), random.below(n));
                if u != v {
                    edges.push((u, v));
                }
            }
        }
        let share = 2 + random.below(8);
        let anchored = (0..n).map(|_| random.one_in(share) as u8).collect();
        Pool::of_edges(n, edges, anchored)
    }

    /// Every graph of n vertices, none anchored.
    pub fn all_free(n: usize) -> impl Iterator<Item = Pool> {
        let pairs: Vec<(usize, usize)> = (0..n).flat_map(|u| (u + 1..n).map(move |v| (u, v))).collect();
        (0..1u32 << pairs.len()).map(move |graph| {
            let edges = (0..pairs.len()).filter(|i| graph >> i & 1 == 1).map(|i| pairs[i]);
            Pool::of_edges(n, edges, vec![0; n])
        })
    }

    /// Every graph of n vertices with every anchor set.
    pub fn all(n: usize) -> impl Iterator<Item = Pool> {
        Pool::all_free(n).flat_map(move |pool| {
            (0..1u32 << n).map(move |set| Pool { anchored: (0..n).map(|v| (set >> v & 1) as u8).collect(), ..pool.clone() })
        })
    }

    /// Vertex 0, and behind it rungs of two, two rungs or more: each vertex is joined to both of the next rung, and the two of the last to
    /// each other. All are of level 2, and the layer rises from rung to rung, so that from 0 as many upstair walks end at a vertex of rung i
    /// as there are ways to it, 2^(i - 1): in all 2^(rungs + 1) - 2.
    pub fn ladder(rungs: usize) -> Pool {
        let next = |v: usize| [v + 1, v + 2].map(|u| u + v % 2);
        let below_last = (0..2 * rungs - 1).flat_map(|v| next(v).map(move |u| (v, u)));
        let n = 2 * rungs + 1;
        Pool::of_edges(n, below_last.chain([(n - 2, n - 1)]), vec![0; n])
    }

    /// A ladder all of whose vertices are joined to one that is anchored, which gives them level 3; and last a vertex of lower level, joined
    /// to one or two of them. From 0 on there are as many walks as before: those from the last vertex are, for each neighbor, 1 and those
    /// from there.
    pub fn beside_ladder(rungs: usize, neighbors: &[usize]) -> Pool {
        let ladder = Pool::ladder(rungs);
        let (anchor, x) = (ladder.size(), ladder.size() + 1);
        let spokes = (0..anchor).map(|v| (v, anchor)).chain(neighbors.iter().map(|&v| (v, x)));
        Pool::of_edges(x + 1, ladder.edges().into_iter().chain(spokes), [vec![0; anchor], vec![1, 0]].concat())
    }

    /// The number of vertices, 0 where there is no start.
    pub fn size(&self) -> usize {
        self.starts.len().saturating_sub(1)
    }

    /// The neighbors of v.
    pub fn list(&self, v: usize) -> &[u16] {
        &self.links[self.starts[v] as usize..self.starts[v + 1] as usize]
    }

    /// The edges, each once, the lower vertex first.
    pub fn edges(&self) -> Vec<(usize, usize)> {
        let above = |v: usize| self.list(v).iter().map(move |&u| (v, u as usize)).filter(|(v, u)| v < u);
        (0..self.size()).flat_map(above).collect()
    }

    /// The same table with as many link places as a session is lent, those past its links holding `rest`.
    pub fn lent(&self, rest: u16) -> Pool {
        let (used, mut links) = (self.links.len().min(PLACES), vec![rest; PLACES]);
        links[..used].copy_from_slice(&self.links[..used]);
        Pool { starts: self.starts.clone(), links, anchored: self.anchored.clone() }
    }

    /// Every event on the vertices and one number that is none: anchoring, with second numbers that do not matter; each ordered pair added
    /// and dropped, those of a number with itself too; and a kind that is none. They are (n + 1) * (2n + 3) + 1.
    pub fn all_events(&self) -> Vec<Event> {
        let n = self.size() as u16;
        let anchors = (0..=n).map(|v| Event { kind: 0, first: v, second: [v, 0, n, 65535][v as usize % 4] });
        let pairs = (0..=n).flat_map(|u| (0..=n).map(move |v| (u, v)));
        let edges = pairs.flat_map(|(u, v)| [Event::add_edge(u, v), Event::drop_edge(u, v)]);
        anchors.chain(edges).chain([Event { kind: 3, first: 0, second: 1 }]).collect()
    }

    /// So many events of all kinds, in shares drawn for the list. Most edges that are dropped are there when their turn comes; some events
    /// are refused in each way that small tables know.
    pub fn random_events(&self, random: &mut Random, length: usize) -> Vec<Event> {
        let (n, share, mut edges) = (self.size(), 2 + random.below(8), self.edges());
        let mut events = vec![];
        for _ in 0..length {
            let (mut u, mut v) = (random.vertex(n), random.vertex(n));
            let kind = match random.one_in(share) {
                true if random.one_in(8) => 3 + random.below(65533),
                true => 0,
                false => 1 + random.below(2),
            };
            if kind == 2 && !edges.is_empty() && !random.one_in(8) {
                (u, v) = edges.swap_remove(random.below(edges.len()));
                if random.one_in(2) {
                    (u, v) = (v, u);
                }
            }
            if kind == 1 && u != v && u.max(v) < n {
                edges.push((u, v));
            }
            events.push(Event { kind: kind as u16, first: u as u16, second: v as u16 });
        }
        events
    }

    /// So many terms that begin within so many days and end within twice as many; none where there are no vertices. Every third repeats an
    /// earlier one, or meets it: begins on its end day, or ends on its first day.
    pub fn random_terms(&self, random: &mut Random, length: usize, days: usize) -> Vec<Term> {
        let mut terms: Vec<Term> = vec![];
        for i in 0..if self.size() == 0 { 0 } else { length } {
            let (vertex, first, lasting) = (random.below(self.size()), random.below(days), 1 + random.below(days));
            let mut term = Term { vertex: vertex as u16, first: first as u16, end: (first + lasting) as u16 };
            if i > 0 && random.one_in(3) {
                let earlier = terms[random.below(i)];
                match random.below(3) {
                    0 => term = Term { first: earlier.end, end: earlier.end + lasting as u16, ..term },
                    1 if earlier.first > 0 => term = Term { first: random.below(earlier.first as usize) as u16, end: earlier.first, ..term },
                    _ => term = earlier,
                }
            }
            terms.push(term);
        }
        terms
    }

    /// The house of each vertex, of up to 16 houses, and their quotas, up to so many rounds in all. Shares are uneven: some houses have no
    /// vertex, and few of these a round; others have no round.
    pub fn random_houses(&self, random: &mut Random, rounds: usize) -> (Vec<u16>, Vec<u16>) {
        let number = 1 + random.below(16);
        let mut order: Vec<u16> = (0..number as u16).collect();
        random.shuffle(&mut order);
        let peopled = 1 + random.below(number);
        let houses: Vec<u16> = (0..self.size()).map(|_| order[random.below(peopled).min(random.below(peopled))]).collect();
        let mut quotas = vec![0; number];
        for _ in 0..random.below(rounds + 1) {
            let house = if houses.is_empty() || random.one_in(6) { order[random.below(number)] } else { houses[random.below(houses.len())] };
            quotas[house as usize] += 1;
        }
        (houses, quotas)
    }

    /// One or two changes that mostly break a rule.
    pub fn damaged(&self, random: &mut Random) -> Pool {
        let mut p = self.clone();
        for _ in 0..1 + random.below(2) {
            match random.below(9) {
                0 => p.starts.clear(),
                1 if !p.starts.is_empty() => {
                    let i = random.below(p.starts.len());
                    p.starts[i] = random.below(12) as u16;
                }
                2 if !p.links.is_empty() => {
                    let i = random.below(p.links.len());
                    p.links[i] = random.below(p.starts.len() + 2) as u16;
                }
                3 if p.links.len() > 1 => {
                    let i = random.below(p.links.len() - 1);
                    p.links.swap(i, i + 1);
                }
                4 => p.links.push(random.below(8) as u16),
                5 => {
                    p.links.pop();
                }
                6 => p.anchored.push(0),
                7 if !p.anchored.is_empty() => {
                    let i = random.below(p.anchored.len());
                    p.anchored[i] = random.below(4) as u8;
                }
                8 => p.starts.push(p.links.len() as u16),
                _ => {}
            }
        }
        p
    }

    /// The text of a sound pool, to be played for some rounds.
    pub fn text(&self, rounds: usize) -> Vec<u8> {
        let words = |list: &[u16]| list.iter().map(|v| format!(" {v}")).collect::<String>();
        let anchored: Vec<u16> = (0..self.size() as u16).filter(|&v| self.anchored[v as usize] == 1).collect();
        let mut text = format!("(riders {})\n", self.size());
        for v in 0..self.size() {
            text.push_str(&format!("(rider {v} (with{}))\n", words(self.list(v))));
        }
        text.push_str(&format!("(retained{})\n(rounds {rounds})\n", words(&anchored)));
        text.into_bytes()
    }
}

/// An example of the folder examples/: its name, its text, and what the program prints for it.
pub struct Example {
    pub name: String,
    pub text: Vec<u8>,
    pub printed: Vec<u8>,
}

pub fn examples_folder() -> PathBuf {
    Path::new(env!("CARGO_MANIFEST_DIR")).join("../../examples")
}

/// Every text in the folder examples/, by name.
pub fn examples() -> Vec<Example> {
    let mut names: Vec<PathBuf> = fs::read_dir(examples_folder()).unwrap().map(|entry| entry.unwrap().path()).collect();
    names.retain(|path| path.extension().is_some_and(|kind| kind == "txt"));
    names.sort();
    let read = |path: &Path| fs::read(path).unwrap();
    names
        .into_iter()
        .map(|path| Example {
            name: path.file_stem().unwrap().to_string_lossy().into_owned(),
            text: read(&path),
            printed: read(&path.with_extension("sheet")),
        })
        .collect()
}

/// What the program prints: the sheet, or the refusal as a line.
pub fn printed(answer: Result<Vec<u8>, (u64, u64)>) -> Vec<u8> {
    answer.unwrap_or_else(|(number, place)| format!("(refused {number} {place})\n").into_bytes())
}
