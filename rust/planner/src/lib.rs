//! Safe calls of the proved planner, one for each function that crates/planner_c exports.
//!
//! What makes a call safe is said at each: the slices that it is handed are borrowed while it runs, and it is proved to stay in them.
//! That the declarations are those of the proved functions is tested (tests/declarations.rs).

mod exports;
mod refusal;

use exports::Answer;
pub use refusal::Refusal;
use std::ops::Range;

impl Answer {
    /// The two values that the call states, and the size of its table.
    fn result(self) -> Result<(usize, usize, Size), Refusal> {
        let Answer { number, first, second, edges, max_degree } = self;
        match number {
            0 => Ok((first as usize, second as usize, Size { edges: edges as usize, max_degree: max_degree as usize })),
            number => Err(Refusal { number, place: first }),
        }
    }

    /// The size, of a call that states nothing else.
    fn size(self) -> Result<Size, Refusal> {
        self.result().map(|(_, _, size)| size)
    }
}

/// The size of a table, as it was handed in: every call but [`text_to_sheet`] answers it where it accepts.
#[derive(Clone, Copy, PartialEq, Eq, Debug)]
pub struct Size {
    /// How many edges there are.
    pub edges: usize,
    /// The most neighbors that a vertex has; 0 if there are no vertices.
    pub max_degree: usize,
}

/// A table and the anchored bytes.
#[derive(Clone, Copy)]
pub struct Input<'a> {
    pub starts: &'a [u16],
    pub links: &'a [u16],
    pub anchored: &'a [u8],
}

/// What a component list counts, and the size of its table.
#[derive(Clone, Copy, PartialEq, Eq, Debug)]
pub struct Listed {
    /// The components, which are the entries written.
    pub count: usize,
    pub size: Size,
}

/// What a search counts, and the size of its table.
#[derive(Clone, Copy, PartialEq, Eq, Debug)]
pub struct Found {
    /// The vertices that one more anchor lifts.
    pub lifted: usize,
    /// The vertices that upstair walks reach, those lifted included.
    pub reached: usize,
    pub size: Size,
}

/// The ceiling of a search, and the size of its table.
#[derive(Clone, Copy, PartialEq, Eq, Debug)]
pub struct Bounded {
    /// The upstair walks from the vertex, which are no fewer than the vertices that they reach; 65,535 if there are more.
    pub ceiling: u16,
    pub size: Size,
}

/// A term: its vertex is anchored on the days from `first` up to, not including, `end`.
#[derive(Clone, Copy, PartialEq, Eq, Debug)]
pub struct Term {
    pub vertex: u16,
    pub first: u16,
    pub end: u16,
}

/// The first day under a level, and the size of its table.
#[derive(Clone, Copy, PartialEq, Eq, Debug)]
pub struct FirstDay {
    /// None where no day of the span is under it.
    pub day: Option<u16>,
    pub size: Size,
}

/// A sheet that houses share: how many of the lent bytes it has, and the size of its table.
#[derive(Clone, Copy, PartialEq, Eq, Debug)]
pub struct Shared {
    pub length: usize,
    pub size: Size,
}

/// The link places of a table that is lent to a session.
pub const LINK_PLACES: usize = 16384;

/// A table lent for writing: `links` has exactly [`LINK_PLACES`] places, of which the last start says how many are links.
pub struct Table<'a> {
    pub starts: &'a mut [u16],
    pub links: &'a mut [u16],
}

/// The kind of an event that anchors its first vertex. Its second number is ignored.
pub const ANCHOR: u16 = 0;

/// The kind of an event that adds the edge between its two vertices.
pub const ADD_EDGE: u16 = 1;

/// The kind of an event that drops the edge between its two vertices.
pub const DROP_EDGE: u16 = 2;

/// A session's events, at most 4,096: event i is of kind `kinds[i]`, [`ANCHOR`], [`ADD_EDGE`] or [`DROP_EDGE`], and has the numbers
/// `firsts[i]` and `seconds[i]`. Three lists of one length, or the call is refused with 9.
#[derive(Clone, Copy)]
pub struct Events<'a> {
    pub kinds: &'a [u16],
    pub firsts: &'a [u16],
    pub seconds: &'a [u16],
}

/// What a session fills: seven slices of a number for each vertex, three of a number for each event. A net yield is how many followers the
/// vertex has, less what it has climbed above its level with nobody anchored; it is -32,768 for an anchored vertex. Beside it stands how
/// many vertices the search from the vertex reaches; 65,535 for an anchored one. Both are worked out anew together: a stamp is the position,
/// from 1, of the event after which they last were, or which anchored the vertex.
///
/// An event's status is 0 if it was done. Else it changed nothing, and is the first of these that holds: 10 its kind is above 2; 6 it adds
/// or drops an edge between a number and itself; 15 one of its vertices is none; 16 it anchors a vertex that is anchored already; 22 it
/// adds an edge that is there, or drops one that is not; 23 it adds an edge and there is no place for two more links.
#[derive(Clone, PartialEq, Eq, Debug, Default)]
pub struct Record {
    pub anchored: Vec<u8>,
    pub levels: Vec<u16>,
    pub layers: Vec<u16>,
    pub components: Vec<u16>,
    pub yields: Vec<i16>,
    pub reached: Vec<u16>,
    pub stamps: Vec<u16>,
    pub status: Vec<u16>,
    pub lifted: Vec<u16>,
    pub redone: Vec<u16>,
}

impl Record {
    /// Room for n vertices and m events.
    pub fn room(n: usize, m: usize) -> Record {
        let (vertices, events) = (vec![0; n], vec![0; m]);
        Record {
            anchored: vec![0; n],
            levels: vertices.clone(),
            layers: vertices.clone(),
            components: vertices.clone(),
            yields: vec![0; n],
            reached: vertices.clone(),
            stamps: vertices,
            status: events.clone(),
            lifted: events.clone(),
            redone: events,
        }
    }
}

/// The check of a table.
pub fn check(starts: &[u16], links: &[u16]) -> Result<Size, Refusal> {
    // SAFETY: pointers and lengths of live slices, which the call only reads; it is proved to stay in them and keeps none.
    unsafe { exports::planner_check(starts.as_ptr(), starts.len(), links.as_ptr(), links.len()) }.size()
}

/// Levels, layers and components.
pub fn work(input: Input, levels: &mut [u16], layers: &mut [u16], components: &mut [u16]) -> Result<Size, Refusal> {
    let Input { starts, links, anchored } = input;
    // SAFETY: pointers and lengths of live slices, no other borrow of those for writing; the call is proved to stay in them and keeps none.
    unsafe {
        exports::planner_work(
            starts.as_ptr(), starts.len(), links.as_ptr(), links.len(), anchored.as_ptr(), anchored.len(),
            levels.as_mut_ptr(), levels.len(), layers.as_mut_ptr(), layers.len(), components.as_mut_ptr(), components.len(),
        )
    }
    .size()
}

/// The component list, by falling level, then by rising number.
pub fn list_components(input: Input, levels: &mut [u16], sizes: &mut [u16], numbers: &mut [u16]) -> Result<Listed, Refusal> {
    let Input { starts, links, anchored } = input;
    // SAFETY: pointers and lengths of live slices, no other borrow of those for writing; the call is proved to stay in them and keeps none.
    unsafe {
        exports::planner_list_components(
            starts.as_ptr(), starts.len(), links.as_ptr(), links.len(), anchored.as_ptr(), anchored.len(),
            levels.as_mut_ptr(), levels.len(), sizes.as_mut_ptr(), sizes.len(), numbers.as_mut_ptr(), numbers.len(),
        )
    }
    .result()
    .map(|(count, _, size)| Listed { count, size })
}

/// The check of a level sheet: accepted exactly when it is the defined one. A sheet that is accepted, or refused with 20 or 21,
/// overstates nobody's level.
pub fn check_sheet(input: Input, levels: &[u16], layers: &[u16]) -> Result<Size, Refusal> {
    let Input { starts, links, anchored } = input;
    // SAFETY: pointers and lengths of live slices, which the call only reads; it is proved to stay in them and keeps none.
    unsafe {
        exports::planner_check_sheet(
            starts.as_ptr(), starts.len(), links.as_ptr(), links.len(), anchored.as_ptr(), anchored.len(),
            levels.as_ptr(), levels.len(), layers.as_ptr(), layers.len(),
        )
    }
    .size()
}

/// The follower search: marks 2 for each vertex that x lifts, 1 for each other one that is reached, and 0 for all others.
pub fn followers(input: Input, levels: &[u16], layers: &[u16], x: usize, marks: &mut [u8]) -> Result<Found, Refusal> {
    let Input { starts, links, anchored } = input;
    // SAFETY: pointers and lengths of live slices, no other borrow of those for writing; the call is proved to stay in them and keeps none.
    unsafe {
        exports::planner_followers(
            starts.as_ptr(), starts.len(), links.as_ptr(), links.len(), anchored.as_ptr(), anchored.len(),
            levels.as_ptr(), levels.len(), layers.as_ptr(), layers.len(), x, marks.as_mut_ptr(), marks.len(),
        )
    }
    .result()
    .map(|(lifted, reached, size)| Found { lifted, reached, size })
}

/// The ceiling of the search from x, told without searching: the search reaches no more vertices, and so x lifts no more. What
/// [`followers`] refuses is refused, but that no marks are lent.
pub fn ceiling(input: Input, levels: &[u16], layers: &[u16], x: usize) -> Result<Bounded, Refusal> {
    let Input { starts, links, anchored } = input;
    // SAFETY: pointers and lengths of live slices, which the call only reads; it is proved to stay in them and keeps none.
    unsafe {
        exports::planner_ceiling(
            starts.as_ptr(), starts.len(), links.as_ptr(), links.len(), anchored.as_ptr(), anchored.len(),
            levels.as_ptr(), levels.len(), layers.as_ptr(), layers.len(), x,
        )
    }
    .result()
    .map(|(ceiling, _, size)| Bounded { ceiling: ceiling as u16, size })
}

/// Who falls with x gone: marks 1 for each other vertex, not anchored, whose level would be lower were x and its edges not there, and 0
/// for all others. x may be anchored.
pub fn collapse(input: Input, levels: &[u16], layers: &[u16], x: usize, marks: &mut [u8]) -> Result<Size, Refusal> {
    let Input { starts, links, anchored } = input;
    // SAFETY: pointers and lengths of live slices, no other borrow of those for writing; the call is proved to stay in them and keeps none.
    unsafe {
        exports::planner_collapse(
            starts.as_ptr(), starts.len(), links.as_ptr(), links.len(), anchored.as_ptr(), anchored.len(),
            levels.as_ptr(), levels.len(), layers.as_ptr(), layers.len(), x, marks.as_mut_ptr(), marks.len(),
        )
    }
    .size()
}

/// The first of the days on which the level of x is under k, where the terms, at most 256, say who is anchored on a day, and nobody else
/// is. An anchored vertex is under no k.
pub fn first_day(starts: &[u16], links: &[u16], terms: &[Term], days: Range<u16>, x: usize, k: u16) -> Result<FirstDay, Refusal> {
    let column = |pick: fn(&Term) -> u16| terms.iter().map(pick).collect::<Vec<u16>>();
    let [vertices, firsts, ends] = [column(|term| term.vertex), column(|term| term.first), column(|term| term.end)];
    // SAFETY: pointers and lengths of live slices, which the call only reads; it is proved to stay in them and keeps none.
    unsafe {
        exports::planner_first_day(
            starts.as_ptr(), starts.len(), links.as_ptr(), links.len(), vertices.as_ptr(), vertices.len(),
            firsts.as_ptr(), firsts.len(), ends.as_ptr(), ends.len(), days.start, days.end, x, k,
        )
    }
    .result()
    .map(|(day, is_found, size)| FirstDay { day: (is_found == 1).then_some(day as u16), size })
}

/// The sheet of rounds that houses share, 1 to 16 of them: vertex v is in house `houses[v]`, and house c may have `quotas[c]` rounds, all
/// together at most 60. House by house in turn, from 0, a line anchors the vertex of the greatest net yield in its house, the lowest among
/// equals; a house is passed if its quota is spent or all its vertices are anchored. The sheet has as many lines as the quotas sum to, each
/// of 48 + n bytes. Bytes past it, and at a refusal all, stay.
pub fn share_rounds(input: Input, houses: &[u16], quotas: &[u16], sheet: &mut [u8]) -> Result<Shared, Refusal> {
    let Input { starts, links, anchored } = input;
    // SAFETY: pointers and lengths of live slices, no other borrow of those for writing; the call is proved to stay in them and keeps none.
    unsafe {
        exports::planner_houses(
            starts.as_ptr(), starts.len(), links.as_ptr(), links.len(), anchored.as_ptr(), anchored.len(),
            houses.as_ptr(), houses.len(), quotas.as_ptr(), quotas.len(), sheet.as_mut_ptr(), sheet.len(),
        )
    }
    .result()
    .map(|(length, _, size)| Shared { length, size })
}

/// A session: the table and `given`, who is anchored, are as they are at the start. The call leaves the table as the events left it, with 0
/// in every place past its last start, and fills the record; the size is that of the table before the events. A refusal leaves all of it
/// alone.
pub fn run(table: Table, given: &[u8], events: Events, record: &mut Record) -> Result<Size, Refusal> {
    let (Table { starts, links }, Events { kinds, firsts, seconds }) = (table, events);
    let Record { anchored, levels, layers, components, yields, reached, stamps, status, lifted, redone } = record;
    // SAFETY: pointers and lengths of live slices, no other borrow of those for writing; the call is proved to stay in them and keeps none.
    unsafe {
        exports::planner_run(
            starts.as_mut_ptr(), starts.len(), links.as_mut_ptr(), links.len(), given.as_ptr(), given.len(),
            kinds.as_ptr(), kinds.len(), firsts.as_ptr(), firsts.len(), seconds.as_ptr(), seconds.len(),
            anchored.as_mut_ptr(), anchored.len(), levels.as_mut_ptr(), levels.len(), layers.as_mut_ptr(), layers.len(),
            components.as_mut_ptr(), components.len(), yields.as_mut_ptr(), yields.len(), reached.as_mut_ptr(), reached.len(),
            stamps.as_mut_ptr(), stamps.len(), status.as_mut_ptr(), status.len(), lifted.as_mut_ptr(), lifted.len(),
            redone.as_mut_ptr(), redone.len(),
        )
    }
    .size()
}

/// From a text to the answer sheet: the sheet's length. Bytes past it, and at a refusal all, stay.
pub fn text_to_sheet(text: &[u8], sheet: &mut [u8]) -> Result<usize, Refusal> {
    // SAFETY: pointers and lengths of live slices, no other borrow of those for writing; the call is proved to stay in them and keeps none.
    let answer = unsafe { exports::planner_text_to_sheet(text.as_ptr(), text.len(), sheet.as_mut_ptr(), sheet.len()) };
    match answer.number {
        0 => Ok(answer.value as usize),
        number => Err(Refusal { number, place: answer.value }),
    }
}
