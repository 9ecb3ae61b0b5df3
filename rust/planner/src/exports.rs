//! What the archive exports. A slice passes as its pointer and its length. tests/declarations.rs holds these declarations to the Rattle
//! source, crates/planner_c/src, and to include/planner.h, which says what each parameter is.

/// Number 0 for an accepted call, with its values and the size of its table; else the refusal's number and place.
#[repr(C)]
pub struct Answer {
    pub number: u64,
    pub first: u64,
    pub second: u64,
    pub edges: u64,
    pub max_degree: u64,
}

/// Number 0 and the sheet's length; else the refusal's number and place.
#[repr(C)]
pub struct Sheeted {
    pub number: u64,
    pub value: u64,
}

extern "C" {
    pub fn planner_check(starts: *const u16, starts_len: usize, links: *const u16, links_len: usize) -> Answer;
    pub fn planner_work(
        starts: *const u16, starts_len: usize, links: *const u16, links_len: usize, anchored: *const u8, anchored_len: usize,
        levels: *mut u16, levels_len: usize, layers: *mut u16, layers_len: usize, components: *mut u16, components_len: usize,
    ) -> Answer;
    pub fn planner_list_components(
        starts: *const u16, starts_len: usize, links: *const u16, links_len: usize, anchored: *const u8, anchored_len: usize,
        levels: *mut u16, levels_len: usize, sizes: *mut u16, sizes_len: usize, numbers: *mut u16, numbers_len: usize,
    ) -> Answer;
    pub fn planner_check_sheet(
        starts: *const u16, starts_len: usize, links: *const u16, links_len: usize, anchored: *const u8, anchored_len: usize,
        levels: *const u16, levels_len: usize, layers: *const u16, layers_len: usize,
    ) -> Answer;
    pub fn planner_followers(
        starts: *const u16, starts_len: usize, links: *const u16, links_len: usize, anchored: *const u8, anchored_len: usize,
        levels: *const u16, levels_len: usize, layers: *const u16, layers_len: usize, x: usize, marks: *mut u8, marks_len: usize,
    ) -> Answer;
    pub fn planner_ceiling(
        starts: *const u16, starts_len: usize, links: *const u16, links_len: usize, anchored: *const u8, anchored_len: usize,
        levels: *const u16, levels_len: usize, layers: *const u16, layers_len: usize, x: usize,
    ) -> Answer;
    pub fn planner_collapse(
        starts: *const u16, starts_len: usize, links: *const u16, links_len: usize, anchored: *const u8, anchored_len: usize,
        levels: *const u16, levels_len: usize, layers: *const u16, layers_len: usize, x: usize, marks: *mut u8, marks_len: usize,
    ) -> Answer;
    pub fn planner_first_day(
        starts: *const u16, starts_len: usize, links: *const u16, links_len: usize, vertices: *const u16, vertices_len: usize,
        firsts: *const u16, firsts_len: usize, ends: *const u16, ends_len: usize, from: u16, until: u16, x: usize, k: u16,
    ) -> Answer;
    pub fn planner_houses(
        starts: *const u16, starts_len: usize, links: *const u16, links_len: usize, anchored: *const u8, anchored_len: usize,
        houses: *const u16, houses_len: usize, quotas: *const u16, quotas_len: usize, sheet: *mut u8, sheet_len: usize,
    ) -> Answer;
    pub fn planner_run(
        starts: *mut u16, starts_len: usize, links: *mut u16, links_len: usize, given: *const u8, given_len: usize,
        kinds: *const u16, kinds_len: usize, firsts: *const u16, firsts_len: usize, seconds: *const u16, seconds_len: usize,
        anchored: *mut u8, anchored_len: usize, levels: *mut u16, levels_len: usize, layers: *mut u16, layers_len: usize,
        components: *mut u16, components_len: usize, yields: *mut i16, yields_len: usize, reached: *mut u16, reached_len: usize,
        stamps: *mut u16, stamps_len: usize, status: *mut u16, status_len: usize, lifted: *mut u16, lifted_len: usize,
        redone: *mut u16, redone_len: usize,
    ) -> Answer;
    pub fn planner_text_to_sheet(text: *const u8, text_len: usize, sheet: *mut u8, sheet_len: usize) -> Sheeted;
}
