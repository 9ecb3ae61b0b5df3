//! The anchored core worked out naively from the sentences of documents 01 and 02: cores by repeated deletion, lifts and falls by a second
//! working, ceilings by recursion, sessions with everything fresh, terms day by day, houses line by line. Nothing here follows the planner's
//! own code.

mod ceiling;
mod houses;
pub mod quick;
mod sessions;
mod terms;

pub use ceiling::{ceiling, check_search, upstair_walks};
pub use houses::{admit_houses, share_rounds, Houses};
pub use sessions::{admit_session, session, Call, Event, Plain, Record, Session, PLACES};
pub use terms::{admit_terms, anchored_on, first_day, levels_on, Term, TermLists};

use sessions::State;
use std::cmp::Reverse;
use std::collections::{BTreeMap, BTreeSet};

/// A refusal: number and place.
pub type Refusal = (u32, u64);

pub const ANCHORED: u16 = 65535;

/// Vertices with their neighbors, from a table that passed the check.
#[derive(Clone, PartialEq, Eq, Hash)]
pub struct Graph {
    pub neighbors: Vec<BTreeSet<usize>>,
}

impl Graph {
    pub fn size(&self) -> usize {
        self.neighbors.len()
    }
}

/// Tests 1 to 8, the lowest number first, each over the whole table.
pub fn check_table(starts: &[u16], links: &[u16]) -> Result<Graph, Refusal> {
    if starts.is_empty() {
        return Err((1, 0));
    }
    let n = starts.len() - 1;
    if n > 1024 {
        return Err((2, 0));
    }
    if links.len() > 16384 {
        return Err((3, 0));
    }
    for i in 0..=n {
        let wrong_first = i == 0 && starts[0] != 0;
        let falls = i > 0 && starts[i] < starts[i - 1];
        let wrong_last = i == n && starts[n] as usize != links.len();
        if wrong_first || falls || wrong_last {
            return Err((4, i as u64));
        }
    }
    let list = |v: usize| &links[starts[v] as usize..starts[v + 1] as usize];
    let lowest = |wrong: &dyn Fn(usize) -> bool| (0..n).find(|&v| wrong(v));
    if let Some(v) = lowest(&|v| list(v).iter().any(|&u| u as usize >= n)) {
        return Err((5, v as u64));
    }
    if let Some(v) = lowest(&|v| list(v).iter().any(|&u| u as usize == v)) {
        return Err((6, v as u64));
    }
    if let Some(v) = lowest(&|v| list(v).windows(2).any(|w| w[0] >= w[1])) {
        return Err((7, v as u64));
    }
    if let Some(v) = lowest(&|v| list(v).iter().any(|&u| !list(u as usize).contains(&(v as u16)))) {
        return Err((8, v as u64));
    }
    Ok(Graph { neighbors: (0..n).map(|v| list(v).iter().map(|&u| u as usize).collect()).collect() })
}

/// How many edges there are, and the most neighbors that a vertex has.
#[derive(Clone, Copy, PartialEq, Eq, Hash, PartialOrd, Ord, Debug)]
pub struct Size {
    pub edges: usize,
    pub max_degree: usize,
}

/// Every two vertices that are each other's neighbors are one edge; 0 is the most where there are no vertices.
pub fn size(graph: &Graph) -> Size {
    let n = graph.size();
    let lists = |u: usize, v: usize| graph.neighbors[u].contains(&v);
    let edges = (0..n).map(|v| (0..v).filter(|&u| lists(u, v) && lists(v, u)).count()).sum();
    Size { edges, max_degree: (0..n).map(|v| graph.neighbors[v].len()).max().unwrap_or(0) }
}

/// The largest set in which each vertex not anchored has at least k neighbors.
fn core(graph: &Graph, anchored: &[bool], k: usize) -> Vec<bool> {
    let mut present = vec![true; graph.size()];
    loop {
        let weak = (0..graph.size()).find(|&v| present[v] && !anchored[v] && inside(graph, &present, v) < k);
        match weak {
            Some(v) => present[v] = false,
            None => return present,
        }
    }
}

fn inside(graph: &Graph, present: &[bool], v: usize) -> usize {
    graph.neighbors[v].iter().filter(|&&u| present[u]).count()
}

/// Levels, layers, components, as document 01 defines them.
#[derive(Clone, PartialEq, Debug)]
pub struct Sheet {
    pub level: Vec<u16>,
    pub layer: Vec<u16>,
    pub component: Vec<u16>,
}

impl Sheet {
    /// The component list, each component as (level, size, number): by falling level, then by rising number.
    pub fn components(&self) -> Vec<(u16, u16, u16)> {
        let mut sizes = BTreeMap::new();
        for &number in self.component.iter().filter(|&&number| number != ANCHORED) {
            *sizes.entry(number).or_insert(0) += 1;
        }
        let mut list: Vec<_> = sizes.into_iter().map(|(number, size)| (self.level[number as usize], size, number)).collect();
        list.sort_by_key(|&(level, _, number)| (Reverse(level), number));
        list
    }
}

/// Tests 13, 14, 19, 20 and 21 of a sheet, the lowest number first, each over the whole sheet.
pub fn check_sheet(graph: &Graph, anchored: &[bool], level: &[u16], layer: &[u16]) -> Result<(), Refusal> {
    let n = graph.size();
    if level.len() != n || layer.len() != n {
        return Err((13, 0));
    }
    let pair = |v: usize| (level[v], layer[v]);
    // partners of v who are anchored or pass a test
    let partners = |v: usize, passes: &dyn Fn(usize) -> bool| graph.neighbors[v].iter().filter(|&&u| anchored[u] || passes(u)).count();
    let fails = |number: u32, v: usize| {
        let (k, l) = pair(v);
        match number {
            14 if anchored[v] => (k, l) != (ANCHORED, 0),
            14 => l == 0,
            _ if anchored[v] => false,
            19 => partners(v, &|u| level[u] >= k) < k as usize,
            20 => partners(v, &|u| pair(u) >= (k, l)) > k as usize,
            _ => l > 1 && partners(v, &|u| pair(u) >= (k, l - 1)) < k as usize + 1,
        }
    };
    for number in [14, 19, 20, 21] {
        if let Some(v) = (0..n).find(|&v| fails(number, v)) {
            return Err((number, v as u64));
        }
    }
    Ok(())
}

/// The largest k whose core holds the vertex; 65,535 for an anchored one.
fn levels(graph: &Graph, anchored: &[bool]) -> Vec<u16> {
    let mut level = vec![ANCHORED; graph.size()];
    for k in 0.. {
        let core = core(graph, anchored, k);
        let free: Vec<usize> = (0..graph.size()).filter(|&v| core[v] && !anchored[v]).collect();
        if free.is_empty() {
            break;
        }
        free.into_iter().for_each(|v| level[v] = k as u16);
    }
    level
}

/// The batch in which the vertex goes, in the shell of its level; 0 for an anchored one.
fn layers(graph: &Graph, anchored: &[bool], level: &[u16]) -> Vec<u16> {
    let n = graph.size();
    let mut layer = vec![0u16; n];
    let shells: BTreeSet<usize> = (0..n).filter(|&v| !anchored[v]).map(|v| level[v] as usize).collect();
    for k in shells {
        let mut present = core(graph, anchored, k);
        let mut batch = 0;
        loop {
            let goes: Vec<usize> =
                (0..n).filter(|&v| present[v] && !anchored[v] && inside(graph, &present, v) < k + 1).collect();
            if goes.is_empty() {
                break;
            }
            batch += 1;
            for &v in &goes {
                present[v] = false;
                if level[v] as usize == k {
                    layer[v] = batch;
                }
            }
        }
    }
    layer
}

pub fn sheet(graph: &Graph, anchored: &[bool]) -> Sheet {
    let n = graph.size();
    let level = levels(graph, anchored);
    let layer = layers(graph, anchored, &level);
    let mut component = vec![ANCHORED; n];
    for v in 0..n {
        if anchored[v] {
            continue;
        }
        let mut region = BTreeSet::from([v]);
        let mut grown = true;
        while grown {
            grown = false;
            for u in region.clone() {
                for &w in &graph.neighbors[u] {
                    if !anchored[w] && level[w] == level[v] && region.insert(w) {
                        grown = true;
                    }
                }
            }
        }
        component[v] = *region.iter().next().unwrap() as u16;
    }
    Sheet { level, layer, component }
}

/// Tests 9 and 10 after those of the table.
pub fn admit(starts: &[u16], links: &[u16], bytes: &[u8]) -> Result<(Graph, Vec<bool>), Refusal> {
    let graph = check_table(starts, links)?;
    if bytes.len() != graph.size() {
        return Err((9, 0));
    }
    if let Some(v) = bytes.iter().position(|&b| b > 1) {
        return Err((10, v as u64));
    }
    Ok((graph, bytes.iter().map(|&b| b == 1).collect()))
}

/// Anchors, and the sheet that is defined with them.
#[derive(Clone)]
pub struct Anchoring {
    pub anchored: Vec<bool>,
    pub sheet: Sheet,
}

impl Anchoring {
    pub fn new(graph: &Graph, anchored: &[bool]) -> Anchoring {
        Anchoring { anchored: anchored.to_vec(), sheet: sheet(graph, anchored) }
    }

    /// With x anchored too, everything worked out again.
    fn with(&self, graph: &Graph, x: usize) -> Anchoring {
        let mut more = self.anchored.clone();
        more[x] = true;
        Anchoring::new(graph, &more)
    }
}

/// Whose level is greater after a step than before, not counting who is anchored.
fn followers(before: &Anchoring, after: &Anchoring) -> Vec<bool> {
    (0..after.anchored.len()).map(|v| !after.anchored[v] && after.sheet.level[v] > before.sheet.level[v]).collect()
}

/// Whom upstair walks from x reach.
fn candidates(graph: &Graph, at: &Anchoring, x: usize) -> Vec<bool> {
    let Anchoring { anchored, sheet: s } = at;
    let pair = |v: usize| (s.level[v], s.layer[v]);
    let mut hit = vec![false; graph.size()];
    let mut open: Vec<usize> =
        graph.neighbors[x].iter().copied().filter(|&v| !anchored[v] && pair(v) > pair(x)).collect();
    while let Some(v) = open.pop() {
        if hit[v] {
            continue;
        }
        hit[v] = true;
        for &w in &graph.neighbors[v] {
            if !anchored[w] && s.level[w] == s.level[v] && s.layer[w] > s.layer[v] {
                open.push(w);
            }
        }
    }
    hit
}

/// What a search answers.
#[derive(Clone, PartialEq, Debug)]
pub struct Search {
    pub marks: Vec<u8>,
    pub followers: usize,
    pub candidates: usize,
}

fn count(set: &[bool]) -> usize {
    set.iter().filter(|&&b| b).count()
}

pub fn search(graph: &Graph, at: &Anchoring, x: usize) -> Search {
    let up = followers(at, &at.with(graph, x));
    let hit = candidates(graph, at, x);
    let marks = (0..graph.size()).map(|v| if up[v] { 2 } else { hit[v] as u8 }).collect();
    Search { marks, followers: count(&up), candidates: count(&hit) }
}

/// The graph with no edges at x.
fn without(graph: &Graph, x: usize) -> Graph {
    let list = |v: usize| graph.neighbors[v].iter().copied().filter(|&u| u != x && v != x).collect();
    Graph { neighbors: (0..graph.size()).map(list).collect() }
}

/// Marks 1 for the others whose level would fall were x and its edges gone, by two fresh workings; 0 for x and who is anchored.
pub fn collapse(graph: &Graph, anchored: &[bool], x: usize) -> Vec<u8> {
    let before = sheet(graph, anchored).level;
    let after = sheet(&without(graph, x), anchored).level;
    (0..graph.size()).map(|v| (v != x && !anchored[v] && after[v] < before[v]) as u8).collect()
}

/// The bare levels: those with nobody anchored.
fn bare_levels(graph: &Graph) -> Vec<u16> {
    sheet(graph, &vec![false; graph.size()]).level
}

/// The net yield of x: how many followers it has, less its climb above its bare level; -32,768 if it is anchored.
fn net_yield(graph: &Graph, at: &Anchoring, bare: &[u16], x: usize) -> i16 {
    if at.anchored[x] {
        return -32768;
    }
    let climb = at.sheet.level[x] as i16 - bare[x] as i16;
    count(&followers(at, &at.with(graph, x))) as i16 - climb
}

/// How many vertices upstair walks from x reach; 65,535 if it is anchored.
fn reached(graph: &Graph, at: &Anchoring, x: usize) -> u16 {
    if at.anchored[x] {
        return ANCHORED;
    }
    count(&candidates(graph, at, x)) as u16
}

/// The vertex a round anchors, if any of those it may choose is left: of greatest net yield, the lowest among equals.
fn choice(state: &State, may_choose: &dyn Fn(usize) -> bool) -> Option<usize> {
    let free = || (0..state.graph.size()).filter(|&v| !state.at.anchored[v] && may_choose(v));
    let best = free().map(|v| state.yields()[v]).max()?;
    free().find(|&v| state.yields()[v] == best)
}

/// One line of the answer sheet.
fn line(round: usize, chosen: Option<usize>, up: &[bool], rows: usize) -> String {
    let name = chosen.map_or("----".to_string(), |x| format!("{x:04}"));
    let marks: String = up.iter().map(|&b| if b { '+' } else { '.' }).collect();
    format!("(round {round:02} (retain {name}) (marks {marks}) (redone {rows:04}))\n")
}

/// The lines of the answer sheet.
pub fn rounds(graph: &Graph, start: &[bool], number: usize) -> Vec<u8> {
    let mut state = State::new(graph.clone(), start);
    let mut out = String::new();
    for r in 1..=number {
        match choice(&state, &|_| true) {
            Some(x) => {
                let event = Event::anchor(x as u16);
                let next = state.after(event);
                out.push_str(&line(r, Some(x), &followers(&state.at, &next.at), count(&state.recomputed(&next, event))));
                state = next;
            }
            None => out.push_str(&line(r, None, &vec![false; graph.size()], 0)),
        }
    }
    out.into_bytes()
}

/// What a well-formed text says.
pub struct Said {
    pub lists: Vec<Vec<u16>>,
    pub anchored: Vec<u16>,
    pub rounds: u16,
}

fn number(word: &str) -> Option<u16> {
    let plain = !word.is_empty() && word.bytes().all(|b| b.is_ascii_digit()) && (word == "0" || !word.starts_with('0'));
    if plain { word.parse().ok() } else { None }
}

fn numbers(list: &str) -> Option<Vec<u16>> {
    if list.is_empty() {
        return Some(vec![]);
    }
    list.strip_prefix(' ')?.split(' ').map(number).collect()
}

/// The text line by line; the number of the first line that departs, is missing or is extra.
pub fn read(text: &[u8]) -> Result<Said, u64> {
    let mut lines: Vec<Option<&str>> = vec![];
    let mut rest = text;
    while !rest.is_empty() {
        match rest.iter().position(|&b| b == 10) {
            Some(end) => {
                lines.push(std::str::from_utf8(&rest[..end]).ok());
                rest = &rest[end + 1..];
            }
            None => {
                lines.push(None);
                rest = &[];
            }
        }
    }
    let line = |i: usize| lines.get(i).copied().flatten();
    let form = |i: usize, head: &str, tail: &str| line(i).and_then(|t| t.strip_prefix(head)).and_then(|t| t.strip_suffix(tail));
    let n = form(0, "(riders ", ")").and_then(number).ok_or(1u64)? as usize;
    let mut lists = vec![];
    for v in 0..n {
        let list = form(1 + v, &format!("(rider {v} (with"), "))").and_then(numbers);
        lists.push(list.ok_or(v as u64 + 2)?);
    }
    let anchored = form(1 + n, "(retained", ")").and_then(numbers).ok_or(n as u64 + 2)?;
    if anchored.windows(2).any(|w| w[0] >= w[1]) {
        return Err(n as u64 + 2);
    }
    let rounds = form(2 + n, "(rounds ", ")").and_then(number).ok_or(n as u64 + 3)?;
    if lines.len() > n + 3 {
        return Err(n as u64 + 4);
    }
    Ok(Said { lists, anchored, rounds })
}

/// What the rounds of an accepted text start from.
pub struct Admitted {
    pub starts: Vec<u16>,
    pub links: Vec<u16>,
    pub graph: Graph,
    pub anchored: Vec<bool>,
    pub rounds: usize,
}

/// The refusals of a text: 17, 18, 2, 3, 5, 6, 7, 8, 11, 12, 15.
pub fn admit_text(text: &[u8], room: usize) -> Result<Admitted, Refusal> {
    if text.len() > 65536 {
        return Err((17, 0));
    }
    let said = read(text).map_err(|line| (18, line))?;
    let n = said.lists.len();
    if n > 1024 {
        return Err((2, 0));
    }
    let links: Vec<u16> = said.lists.concat();
    if links.len() > 16384 {
        return Err((3, 0));
    }
    let mut starts = vec![0u16];
    for list in &said.lists {
        starts.push(starts[starts.len() - 1] + list.len() as u16);
    }
    let graph = check_table(&starts, &links)?;
    if said.rounds > 60 {
        return Err((11, 0));
    }
    if room < said.rounds as usize * (48 + n) {
        return Err((12, 0));
    }
    if let Some(&request) = said.anchored.iter().find(|&&v| v as usize >= n) {
        return Err((15, request as u64));
    }
    let mut anchored = vec![false; n];
    for &v in &said.anchored {
        anchored[v as usize] = true;
    }
    Ok(Admitted { starts, links, graph, anchored, rounds: said.rounds as usize })
}

/// The text-to-sheet call.
pub fn text_to_sheet(text: &[u8], room: usize) -> Result<Vec<u8>, Refusal> {
    admit_text(text, room).map(|a| rounds(&a.graph, &a.anchored, a.rounds))
}
