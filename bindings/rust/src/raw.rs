//! The bare calls of the library, for those who keep their own memory; `bindings/c/nearby.h` says what each does.
//!
//! A slice is a pointer and a length; a null pointer goes with length 0. Every call checks all else that it is given and refuses by
//! number. A caller answers for the pointers alone: each is valid for its length for the time of the call, for writing where it is
//! `*mut`, and what may be written overlaps nothing else that is lent.
//!
//! ```
//! use nearby::raw;
//!
//! let (references, coordinates, nodes) = ([0u32; 4], [0i32; 8], [0u64; 24]);
//! let made = unsafe {
//!     raw::nearby_make_table(7, 1, 2, 4, references.as_ptr(), 4, coordinates.as_ptr(), 8, nodes.as_ptr(), 24)
//! };
//! assert_eq!((made.refusal, made.table.capacity), (0, 4));
//! ```

/// The header of a table.
#[repr(C)]
#[derive(Clone, Copy, Debug, Default, PartialEq, Eq)]
pub struct Table {
    /// The table's number.
    pub number: u32,
    /// Its measure, 1 to 3.
    pub measure: u8,
    /// How many coordinates a claim has, 1 to 8.
    pub d: usize,
    /// How many claims have room, 1 to 4,096.
    pub capacity: usize,
    /// How many claims were entered.
    pub count: usize,
    /// How many nodes are in use.
    pub used: usize,
}

/// A table after making or entering; all 0 beside a refusal.
#[repr(C)]
#[derive(Clone, Copy, Debug, Default, PartialEq, Eq)]
pub struct Tabled {
    /// The refusal's number, or 0.
    pub refusal: u8,
    /// The header.
    pub table: Table,
}

/// What nearest and farthest found.
#[repr(C)]
#[derive(Clone, Copy, Debug, Default, PartialEq, Eq)]
pub struct Found {
    /// The refusal's number, or 0.
    pub refusal: u8,
    /// 1 beside a claim, 0 beside zeros.
    pub found: u8,
    /// The claim's number.
    pub number: u64,
    /// Its reference.
    pub reference: u64,
    /// Its distance from the probe.
    pub distance: u64,
}

/// Where a page starts: at the start where `from` is 0, and otherwise after the mark.
#[repr(C)]
#[derive(Clone, Copy, Debug, Default, PartialEq, Eq)]
pub struct Start {
    /// 0 is the start.
    pub from: u8,
    /// How many claims count.
    pub snapshot: u64,
    /// The mark's distance.
    pub distance: u64,
    /// The mark's number.
    pub number: u64,
}

/// How many items stand at the front of a room.
#[repr(C)]
#[derive(Clone, Copy, Debug, Default, PartialEq, Eq)]
pub struct Filled {
    /// The refusal's number, or 0.
    pub refusal: u8,
    /// 1 where no claim follows.
    pub last: u8,
    /// How many items.
    pub count: usize,
}

/// The length of the line at the front of an output room.
#[repr(C)]
#[derive(Clone, Copy, Debug, Default, PartialEq, Eq)]
pub struct Written {
    /// The refusal's number, or 0.
    pub refusal: u8,
    /// The line's length, its 0A counted.
    pub length: usize,
}

/// What answering many lines did.
#[repr(C)]
#[derive(Clone, Copy, Debug, Default, PartialEq, Eq)]
pub struct Answered {
    /// The refusal's number, or 0.
    pub refusal: u8,
    /// Lines answered or refused.
    pub lines: usize,
    /// Characters of the asks used.
    pub used: usize,
    /// Characters of the output written.
    pub written: usize,
}

/// A tablet's list; its items stand in a room of the caller's.
#[repr(C)]
#[derive(Clone, Copy, Debug, Default, PartialEq, Eq)]
pub struct List {
    /// The table's number.
    pub table: u32,
    /// The order, 0 near and 1 far. Any other number goes in as 1 and comes back as 1.
    pub order: u8,
    /// The measure, 1 to 3.
    pub measure: u8,
    /// Whether a first answer was taken: 0 or 1, in the same way.
    pub started: u8,
    /// Whether the last page was taken, in the same way.
    pub complete: u8,
    /// How many coordinates the probe has.
    pub d: usize,
    /// The probe; unused slots are 0.
    pub probe: [i32; 8],
    /// The reach.
    pub reach: u64,
    /// The snapshot that the first answer fixed.
    pub snapshot: u64,
    /// How many items the list has.
    pub count: usize,
}

/// A list after opening or taking.
#[repr(C)]
#[derive(Clone, Copy, Debug, Default, PartialEq, Eq)]
pub struct Listed {
    /// The refusal's number, or 0.
    pub refusal: u8,
    /// The list: zeros beside a refused opening, and as it was beside a refused taking.
    pub list: List,
}

/// What an ask and an answer have behind the probe.
#[repr(C)]
#[derive(Clone, Copy, Debug, Default, PartialEq, Eq)]
pub struct Scope {
    /// The reach.
    pub reach: u64,
    /// 0 at the start, 1 after the mark.
    pub from: u8,
    /// How many claims count.
    pub snapshot: u16,
    /// The mark's distance.
    pub distance: u64,
    /// The mark's number.
    pub number: u16,
}

/// The fields of an ask line.
#[repr(C)]
#[derive(Clone, Copy, Debug, Default, PartialEq, Eq)]
pub struct Ask {
    /// The table's number.
    pub table: u32,
    /// The order, 0 near and 1 far.
    pub order: u8,
    /// The measure.
    pub measure: u8,
    /// How many coordinates the probe has.
    pub d: u8,
    /// The probe; unused slots are 0.
    pub probe: [i32; 8],
    /// What is asked for.
    pub scope: Scope,
    /// The page size.
    pub size: u8,
}

/// The fields of an answer line.
#[repr(C)]
#[derive(Clone, Copy, Debug, PartialEq, Eq)]
pub struct AnswerFields {
    /// The table's number.
    pub table: u32,
    /// The order, 0 near and 1 far.
    pub order: u8,
    /// The measure.
    pub measure: u8,
    /// How many coordinates the probe has.
    pub d: u8,
    /// The probe; unused slots are 0.
    pub probe: [i32; 8],
    /// What was asked for.
    pub scope: Scope,
    /// 1 where no claim follows.
    pub last: u8,
    /// How many items.
    pub count: u8,
    /// The items, three numbers each; unused slots are 0.
    pub items: [u64; 48],
}

/// The fields of a claim line.
#[repr(C)]
#[derive(Clone, Copy, Debug, Default, PartialEq, Eq)]
pub struct Claim {
    /// The table's number.
    pub table: u32,
    /// The measure.
    pub measure: u8,
    /// How many coordinates the claim has.
    pub d: u8,
    /// Its reference.
    pub reference: u32,
    /// Its coordinates; unused slots are 0.
    pub coordinates: [i32; 8],
}

/// What reading an ask line gives.
#[repr(C)]
#[derive(Clone, Copy, Debug, Default, PartialEq, Eq)]
pub struct AskRead {
    /// The refusal's number, or 0.
    pub refusal: u8,
    /// The fields; zeros beside a refusal.
    pub ask: Ask,
}

/// What reading an answer line gives.
#[repr(C)]
#[derive(Clone, Copy, Debug, PartialEq, Eq)]
pub struct AnswerRead {
    /// The refusal's number, or 0.
    pub refusal: u8,
    /// The fields; zeros beside a refusal.
    pub answer: AnswerFields,
}

/// What reading a claim line gives.
#[repr(C)]
#[derive(Clone, Copy, Debug, Default, PartialEq, Eq)]
pub struct ClaimRead {
    /// The refusal's number, or 0.
    pub refusal: u8,
    /// The fields; zeros beside a refusal.
    pub claim: Claim,
}

/// Declares the calls on a table, each with the header and the three slices of its memory in front.
macro_rules! on_table {
    ($($(#[$doc:meta])* fn $name:ident($($argument:ident: $kind:ty),*) -> $result:ty;)*) => {
        extern "C" {
            $($(#[$doc])* pub fn $name(
                table: Table,
                references: *const u32, references_length: usize,
                coordinates: *const i32, coordinates_length: usize,
                nodes: *const u64, nodes_length: usize,
                $($argument: $kind),*
            ) -> $result;)*
        }
    };
}

on_table! {
    /// Tests a table as every call on a table does: 0, 1 or 2.
    fn nearby_test_table() -> u8;
    /// The nearest claim within reach. Refusals 1, 2, 5.
    fn nearby_nearest(probe: *const i32, probe_length: usize, reach: u64) -> Found;
    /// The farthest claim. Refusals 1, 2, 5.
    fn nearby_farthest(probe: *const i32, probe_length: usize) -> Found;
    /// A page of claims in an order. Refusals 1, 2, 5, 6, 7, 8, 12.
    fn nearby_page(
        order: u8, probe: *const i32, probe_length: usize, reach: u64, start: Start, size: usize, room: *mut u64,
        room_length: usize
    ) -> Filled;
    /// One ask line in, its answer line out. Refusals 12, 1, 2, 9, 10, 11, 7, 8.
    fn nearby_answer(line: *const u8, line_length: usize, out: *mut u8, out_length: usize) -> Written;
    /// Nearest for each reach, four numbers a row. Refusals 1, 2, 5, 12.
    fn nearby_many_nearest(
        probes: *const i32, probes_length: usize, reaches: *const u64, reaches_length: usize, out: *mut u64, out_length: usize
    ) -> u8;
    /// Farthest for each of n probes, four numbers a row. Refusals 1, 2, 5, 12.
    fn nearby_many_farthest(probes: *const i32, probes_length: usize, n: usize, out: *mut u64, out_length: usize) -> u8;
    /// A page for each reach, five numbers a place, the order in front. Refusals 1, 2, 5, 6, 12.
    fn nearby_many_pages(
        probes: *const i32, probes_length: usize, reaches: *const u64, reaches_length: usize, places: *const u64,
        places_length: usize, size: usize, outcomes: *mut u64, outcomes_length: usize, items: *mut u64, items_length: usize
    ) -> u8;
    /// Ask lines one after another in, their answer lines out. Refusals 12, 1, 2.
    fn nearby_many_answers(
        asks: *const u8, asks_length: usize, outcomes: *mut u64, outcomes_length: usize, out: *mut u8, out_length: usize
    ) -> Answered;
}

extern "C" {
    /// Makes an empty table over lent memory. Refusal 1.
    pub fn nearby_make_table(
        number: u32,
        measure: u8,
        d: usize,
        capacity: usize,
        references: *const u32,
        references_length: usize,
        coordinates: *const i32,
        coordinates_length: usize,
        nodes: *const u64,
        nodes_length: usize,
    ) -> Tabled;

    /// Enters a run of claims with new references, whole or not at all. Refusals 1, 2, 5, 17, 3.
    pub fn nearby_enter(
        table: Table,
        references: *mut u32,
        references_length: usize,
        coordinates: *mut i32,
        coordinates_length: usize,
        nodes: *mut u64,
        nodes_length: usize,
        given: *const u32,
        given_length: usize,
        points: *const i32,
        points_length: usize,
    ) -> Tabled;

    /// Opens a list in an order. Refusals 1, 5.
    pub fn nearby_open_list(
        order: u8,
        table: u32,
        measure: u8,
        d: usize,
        probe: *const i32,
        probe_length: usize,
        reach: u64,
    ) -> Listed;

    /// Writes the list's present ask. Refusals 2, 16, 6, 12.
    pub fn nearby_write_ask(
        list: List,
        room: *const u64,
        room_length: usize,
        size: usize,
        out: *mut u8,
        out_length: usize,
    ) -> Written;

    /// Takes an answer line. Refusals 2, 9, 10, 16, 13, 14, 15.
    pub fn nearby_take(list: List, room: *mut u64, room_length: usize, line: *const u8, line_length: usize) -> Listed;

    /// Writes an ask line of an order's kind. Refusals 10, 12.
    pub fn nearby_write_ask_line(
        order: u8,
        table: u32,
        measure: u8,
        d: u8,
        probe: *const i32,
        probe_length: usize,
        scope: Scope,
        size: u8,
        out: *mut u8,
        out_length: usize,
    ) -> Written;

    /// Writes an answer line of an order's kind. Refusals 10, 12.
    pub fn nearby_write_answer_line(
        order: u8,
        table: u32,
        measure: u8,
        d: u8,
        probe: *const i32,
        probe_length: usize,
        scope: Scope,
        last: u8,
        count: u8,
        items: *const u64,
        items_length: usize,
        out: *mut u8,
        out_length: usize,
    ) -> Written;

    /// Writes a claim line. Refusals 10, 12.
    pub fn nearby_write_claim_line(
        table: u32,
        measure: u8,
        d: u8,
        reference: u32,
        coordinates: *const i32,
        coordinates_length: usize,
        out: *mut u8,
        out_length: usize,
    ) -> Written;

    /// Reads an ask line of either order. Refusals 9, 10.
    pub fn nearby_read_ask_line(line: *const u8, line_length: usize) -> AskRead;

    /// Reads an answer line of either order. Refusals 9, 10.
    pub fn nearby_read_answer_line(line: *const u8, line_length: usize) -> AnswerRead;

    /// Reads a claim line. Refusals 9, 10.
    pub fn nearby_read_claim_line(line: *const u8, line_length: usize) -> ClaimRead;
}
