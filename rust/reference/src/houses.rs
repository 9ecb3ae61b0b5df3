//! Houses that share the rounds: card 9 of document 02. A line is a name in a plain session, so that everything is worked out afresh; whose
//! turn it is is told from the houses that the lines before it served.

use crate::sessions::State;
use crate::{admit, check_table, choice, followers, line, Event, Graph, Plain, Refusal};

/// The house of each vertex, and of each house how many rounds it may have.
#[derive(Clone, Copy)]
pub struct Houses<'a> {
    pub of: &'a [u16],
    pub quotas: &'a [u16],
}

impl Houses<'_> {
    /// There are as many lines as the quotas sum to.
    pub fn lines(&self) -> usize {
        self.quotas.iter().map(|&quota| quota as usize).sum()
    }
}

/// The tests of a call in their order: 1 to 8, 9 of the bytes and of the houses, 10, 11, 26, 27, 12.
pub fn admit_houses(starts: &[u16], links: &[u16], bytes: &[u8], houses: Houses, room: usize) -> Result<(Graph, Vec<bool>), Refusal> {
    let n = check_table(starts, links)?.size();
    if houses.of.len() != n {
        return Err((9, 0));
    }
    let (graph, anchored) = admit(starts, links, bytes)?;
    if houses.lines() > 60 {
        return Err((11, 0));
    }
    let number = houses.quotas.len();
    if !(1..=16).contains(&number) {
        return Err((26, 0));
    }
    if let Some(v) = houses.of.iter().position(|&house| house as usize >= number) {
        return Err((27, v as u64));
    }
    if room < houses.lines() * (48 + n) {
        return Err((12, 0));
    }
    Ok((graph, anchored))
}

/// The house that a line serves, and whom it anchors. Turns go on behind the house served last; one that has had as many lines as its quota
/// is passed, and one without a vertex to choose.
fn turn(state: &State, houses: Houses, served: &[usize]) -> Option<(usize, usize)> {
    let (number, first) = (houses.quotas.len(), served.last().map_or(0, |last| last + 1));
    let is_spent = |house: usize| served.iter().filter(|&&other| other == house).count() == houses.quotas[house] as usize;
    let mut turns = (first..first + number).map(|turn| turn % number).filter(|&house| !is_spent(house));
    turns.find_map(|house| Some((house, choice(state, &|v| houses.of[v] as usize == house)?)))
}

/// The lines of the sheet, among plain sessions of which some may have been worked out.
pub fn share_rounds(plain: &mut Plain, graph: &Graph, start: &[bool], houses: Houses) -> Vec<u8> {
    let (mut session, mut served, mut out) = (plain.start(graph, start), vec![], String::new());
    for number in 1..=houses.lines() {
        match turn(plain.at(&session), houses, &served) {
            Some((house, x)) => {
                let next = plain.take(&session, Event::anchor(x as u16));
                let (up, [_, _, redone]) = (followers(&plain.at(&session).at, &plain.at(&next).at), next.rows[next.rows.len() - 1]);
                out.push_str(&line(number, Some(x), &up, redone as usize));
                served.push(house);
                session = next;
            }
            None => out.push_str(&line(number, None, &vec![false; graph.size()], 0)),
        }
    }
    out.into_bytes()
}
