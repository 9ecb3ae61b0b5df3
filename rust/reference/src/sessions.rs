//! Sessions of events: "A session" of document 01, as cards 4, 6, 7 and 10 of document 02 have it. After each event everything is worked
//! out afresh for the table as it then stands.

use crate::{bare_levels, check_table, count, followers, net_yield, reached, size, Anchoring, Graph, Refusal, Sheet, Size};
use std::cell::OnceCell;
use std::collections::{BTreeSet, HashMap};

/// The link places of a table that is lent to a session.
pub const PLACES: usize = 16384;

/// An event: kind 0 anchors the first vertex and ignores the second number, 1 adds an edge, 2 drops one.
#[derive(Clone, Copy, PartialEq, Eq, PartialOrd, Ord, Hash, Debug)]
pub struct Event {
    pub kind: u16,
    pub first: u16,
    pub second: u16,
}

impl Event {
    pub const fn anchor(v: u16) -> Event {
        Event { kind: 0, first: v, second: 0 }
    }

    pub const fn add_edge(u: u16, v: u16) -> Event {
        Event { kind: 1, first: u, second: v }
    }

    pub const fn drop_edge(u: u16, v: u16) -> Event {
        Event { kind: 2, first: u, second: v }
    }

    /// The two ends of the edge that is added or dropped.
    fn edge(self) -> Option<[usize; 2]> {
        (self.kind == 1 || self.kind == 2).then_some([self.first as usize, self.second as usize])
    }
}

/// The slices of a session's call; of those that it fills, the lengths.
pub struct Call<'a> {
    pub starts: &'a [u16],
    pub links: &'a [u16],
    pub given: &'a [u8],
    pub kinds: &'a [u16],
    pub firsts: &'a [u16],
    pub seconds: &'a [u16],
    pub for_vertices: [usize; 7],
    pub for_events: [usize; 3],
}

/// The tests of a session's call in their order: 1, 2, 12 of the link places, 3 to 8, 9, 10, 11, 12 of the slices that are filled.
pub fn admit_session(call: &Call) -> Result<(Graph, Vec<bool>, Vec<Event>), Refusal> {
    let &Call { starts, links, given, kinds, firsts, seconds, for_vertices, for_events } = call;
    let Some(&last) = starts.last() else { return Err((1, 0)) };
    let n = starts.len() - 1;
    if n > 1024 {
        return Err((2, 0));
    }
    if links.len() != PLACES {
        return Err((12, 0));
    }
    if last as usize > PLACES {
        return Err((3, 0));
    }
    let graph = check_table(starts, &links[..last as usize])?;
    if given.len() != n || kinds.len() != firsts.len() || kinds.len() != seconds.len() {
        return Err((9, 0));
    }
    if let Some(v) = given.iter().position(|&byte| byte > 1) {
        return Err((10, v as u64));
    }
    if kinds.len() > 4096 {
        return Err((11, 0));
    }
    if for_vertices != [n; 7] || for_events != [kinds.len(); 3] {
        return Err((12, 0));
    }
    let event = |i: usize| Event { kind: kinds[i], first: firsts[i], second: seconds[i] };
    Ok((graph, given.iter().map(|&byte| byte == 1).collect(), (0..kinds.len()).map(event).collect()))
}

fn component_of(s: &Sheet, v: usize) -> BTreeSet<usize> {
    (0..s.component.len()).filter(|&w| s.component[w] == s.component[v]).collect()
}

/// The table as it stands, the anchors with their sheet, the bare levels, how many the search from each vertex reaches, and the net yields,
/// worked out when they are asked for.
pub struct State {
    pub graph: Graph,
    pub at: Anchoring,
    pub bare: Vec<u16>,
    reached: Vec<u16>,
    yields: OnceCell<Vec<i16>>,
}

impl State {
    pub fn new(graph: Graph, anchored: &[bool]) -> State {
        let (at, bare) = (Anchoring::new(&graph, anchored), bare_levels(&graph));
        let reached = (0..graph.size()).map(|x| reached(&graph, &at, x)).collect();
        State { graph, at, bare, reached, yields: OnceCell::new() }
    }

    pub fn yields(&self) -> &[i16] {
        let net = |x: usize| net_yield(&self.graph, &self.at, &self.bare, x);
        self.yields.get_or_init(|| (0..self.graph.size()).map(net).collect())
    }

    /// The first of an event's tests that fails, or 0.
    fn status(&self, event: Event) -> u16 {
        let n = self.graph.size();
        let Event { kind, first, .. } = event;
        if kind > 2 {
            return 10;
        }
        let Some([u, v]) = event.edge() else {
            return match self.at.anchored.get(first as usize) {
                None => 15,
                Some(true) => 16,
                Some(false) => 0,
            };
        };
        if u == v {
            return 6;
        }
        if u >= n || v >= n {
            return 15;
        }
        let is_there = self.graph.neighbors[u].contains(&v);
        if is_there == (kind == 1) {
            return 22;
        }
        let links: usize = self.graph.neighbors.iter().map(BTreeSet::len).sum();
        if kind == 1 && links + 2 > PLACES {
            return 23;
        }
        0
    }

    /// The table and the anchors after an event of status 0.
    fn changed(&self, event: Event) -> (Graph, Vec<bool>) {
        let (mut graph, mut anchored) = (self.graph.clone(), self.at.anchored.clone());
        match event.edge() {
            None => anchored[event.first as usize] = true,
            Some([u, v]) if event.kind == 1 => {
                graph.neighbors[u].insert(v);
                graph.neighbors[v].insert(u);
            }
            Some([u, v]) => {
                graph.neighbors[u].remove(&v);
                graph.neighbors[v].remove(&u);
            }
        }
        (graph, anchored)
    }

    /// After an event of status 0.
    pub fn after(&self, event: Event) -> State {
        let (graph, anchored) = self.changed(event);
        State::new(graph, &anchored)
    }

    /// Partners who are anchored or of higher level.
    fn above(&self, v: usize) -> usize {
        let Anchoring { anchored, sheet } = &self.at;
        self.graph.neighbors[v].iter().filter(|&&u| anchored[u] || sheet.level[u] > sheet.level[v]).count()
    }

    /// Whether v has a component before and after the step to `next` that the step leaves undisturbed.
    fn is_undisturbed(&self, next: &State, v: usize) -> bool {
        if self.at.anchored[v] || next.at.anchored[v] {
            return false;
        }
        let [a, b] = [self, next].map(|state| &state.at.sheet);
        let vertices = component_of(a, v);
        let edges = |state: &State, w: usize| -> BTreeSet<usize> { state.graph.neighbors[w].intersection(&vertices).copied().collect() };
        a.level[v] == b.level[v]
            && vertices == component_of(b, v)
            && vertices.iter().all(|&w| self.above(w) == next.above(w) && edges(self, w) == edges(next, w))
    }

    /// Who has a neighbor of greater pair in a component that is not undisturbed.
    fn looks(&self, u: usize, undisturbed: &[bool]) -> bool {
        let Anchoring { anchored, sheet } = &self.at;
        let pair = |v: usize| (sheet.level[v], sheet.layer[v]);
        self.graph.neighbors[u].iter().any(|&v| !anchored[v] && pair(v) > pair(u) && !undisturbed[v])
    }

    /// The rows that the step to `next` redoes.
    pub fn recomputed(&self, next: &State, event: Event) -> Vec<bool> {
        let n = self.graph.size();
        let undisturbed: Vec<bool> = (0..n).map(|v| self.is_undisturbed(next, v)).collect();
        let is_redone = |u: usize| {
            self.looks(u, &undisturbed)
                || next.looks(u, &undisturbed)
                || self.at.sheet.level[u] != next.at.sheet.level[u]
                || self.bare[u] != next.bare[u]
                || event.edge().is_some_and(|ends| ends.contains(&u))
        };
        (0..n).map(|u| !next.at.anchored[u] && is_redone(u)).collect()
    }
}

/// What a session answers, the size of the table before any event; and what it leaves: its record, three numbers for each event, and the
/// table, whose places past its links hold 0.
#[derive(Clone, PartialEq, Debug)]
pub struct Record {
    pub size: Size,
    pub anchored: Vec<u8>,
    pub sheet: Sheet,
    pub yields: Vec<i16>,
    pub reached: Vec<u16>,
    pub stamps: Vec<u16>,
    pub status: Vec<u16>,
    pub followers: Vec<u16>,
    pub recomputed: Vec<u16>,
    pub starts: Vec<u16>,
    pub links: Vec<u16>,
}

/// What an event does: its status, whom it lifts and whose rows it redoes, how many; and whom it stamps. Where it leads to.
struct Step {
    row: [u16; 3],
    stamped: Vec<bool>,
    next: usize,
}

/// A plain session on its way through a list of events. Of each event it has status, lifted and redone.
#[derive(Clone)]
pub struct Session {
    size: Size,
    state: usize,
    stamps: Vec<u16>,
    pub(crate) rows: Vec<[u16; 3]>,
}

/// Plain sessions. Each table with its anchors, and each event on it, is worked out once, however many sessions come by.
#[derive(Default)]
pub struct Plain {
    states: Vec<State>,
    known: HashMap<(Graph, Vec<bool>), usize>,
    steps: HashMap<(usize, Event), Step>,
}

impl Plain {
    fn state(&mut self, graph: Graph, anchored: Vec<bool>) -> usize {
        let states = &mut self.states;
        *self.known.entry((graph, anchored)).or_insert_with_key(|(graph, anchored)| {
            states.push(State::new(graph.clone(), anchored));
            states.len() - 1
        })
    }

    fn step(&mut self, from: usize, event: Event) -> &Step {
        let event = if event.kind == 0 { Event::anchor(event.first) } else { event };
        if !self.steps.contains_key(&(from, event)) {
            let step = self.worked(from, event);
            self.steps.insert((from, event), step);
        }
        &self.steps[&(from, event)]
    }

    fn worked(&mut self, from: usize, event: Event) -> Step {
        let state = &self.states[from];
        let status = state.status(event);
        if status != 0 {
            return Step { row: [status, 0, 0], stamped: vec![false; state.graph.size()], next: from };
        }
        let (graph, anchored) = state.changed(event);
        let next = self.state(graph, anchored);
        let [before, after] = [from, next].map(|i| &self.states[i]);
        let mut stamped = before.recomputed(after, event);
        let redone = count(&stamped);
        let mut lifted = 0;
        if event.edge().is_none() {
            lifted = count(&followers(&before.at, &after.at));
            stamped[event.first as usize] = true;
        }
        Step { row: [0, lifted as u16, redone as u16], stamped, next }
    }

    pub fn start(&mut self, graph: &Graph, anchored: &[bool]) -> Session {
        let state = self.state(graph.clone(), anchored.to_vec());
        Session { size: size(graph), state, stamps: vec![0; graph.size()], rows: vec![] }
    }

    /// The session after one more event.
    pub fn take(&mut self, session: &Session, event: Event) -> Session {
        let (mut session, step) = (session.clone(), self.step(session.state, event));
        session.state = step.next;
        session.rows.push(step.row);
        for (stamp, &stamped) in session.stamps.iter_mut().zip(&step.stamped) {
            *stamp = if stamped { session.rows.len() as u16 } else { *stamp };
        }
        session
    }

    /// What is defined where the session stands.
    pub(crate) fn at(&self, session: &Session) -> &State {
        &self.states[session.state]
    }

    /// What the events so far leave.
    pub fn record(&self, session: &Session) -> Record {
        let state = self.at(session);
        let (mut starts, mut links) = (vec![0], vec![]);
        for list in &state.graph.neighbors {
            links.extend(list.iter().map(|&u| u as u16));
            starts.push(links.len() as u16);
        }
        let column = |i: usize| session.rows.iter().map(|row| row[i]).collect();
        Record {
            size: session.size,
            anchored: state.at.anchored.iter().map(|&b| b as u8).collect(),
            sheet: state.at.sheet.clone(),
            yields: state.yields().to_vec(),
            reached: state.reached.clone(),
            stamps: session.stamps.clone(),
            status: column(0),
            followers: column(1),
            recomputed: column(2),
            starts,
            links,
        }
    }
}

/// The plain session of a whole list.
pub fn session(graph: &Graph, start: &[bool], events: &[Event]) -> Record {
    let mut plain = Plain::default();
    let mut session = plain.start(graph, start);
    for &event in events {
        session = plain.take(&session, event);
    }
    plain.record(&session)
}
