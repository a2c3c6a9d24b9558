//! Perillabeam for Rust: cheapest paths through a graph, searched a few tickets at a time in words that the board lends.
//!
//! Copy this file as a module and link libboard.a (x86-64), which needs nothing but memcpy and memset. It uses `core` alone. A graph's
//! text is opened as a cache in lent words (`open`); searches grow its trees (`initialize`, `step`, `retrace`; `solve` and `plan` do
//! many steps at once). Any number of searches may share a cache, their calls in any order; each has a record of its own. Nothing is
//! allocated; the stack, measured, is 43 KB at the most, for `retrace` and `plan` 105 KB where a path has 1,023 moves.
//!
//! No call asks for anything: words, texts, lists and records may hold whatever they hold. That every call ends, without fault, with
//! the answer described here, is proved of the archive. A refused call leaves words, record and path as they were.

// A program need not use every call.
#![allow(dead_code)]

use core::fmt;

/// Limits. A list is one of starts or of goals.
pub const MAX_VERTICES: usize = 1024;
pub const MAX_EDGES: usize = 2048;
pub const MAX_COST: usize = 999_999;
pub const MAX_SLOTS: usize = 64;
pub const MAX_LIST: usize = 64;

/// The words of a search record.
pub const RECORD_WORDS: usize = 390;

/// The words of the longest path, of 1,023 moves.
pub const MAX_PATH_WORDS: usize = path_words(MAX_VERTICES - 1);

/// The words of a path: first vertex, then edge and vertex for each move.
pub const fn path_words(moves: usize) -> usize {
    1 + 2 * moves
}

/// The words of a cache, as the length of an array. `words_needed` says the same of counts that are known later.
pub const fn cache_words(vertices: usize, edges: usize, slots: usize) -> usize {
    6 + 2 * vertices + 4 * edges + slots * (8 + 5 * edges + vertices)
}

/// A search of so many trees, in a graph of so many edges, answers incomplete at most so often.
pub const fn max_waits(trees: usize, edges: usize) -> usize {
    1 + trees * (1 + edges)
}

/// The direction of a cache. Backward, trees grow from the goals; initial costs are not looked at.
#[derive(Clone, Copy, Debug, PartialEq, Eq)]
pub enum Direction {
    Forward = 0,
    Backward = 1,
}

/// Why a call was refused, with its number.
#[derive(Clone, Copy, Debug, PartialEq, Eq)]
pub enum Refusal {
    Malformed = 1,
    OutOfOrder = 2,
    NoSuchVertex = 3,
    OverLimit = 4,
    ShortCache = 5,
    TreesFull = 6,
    Unsound = 7,
    InvalidSearch = 8,
    NotSolved = 9,
    ShortPath = 10,
}

/// A refused call: why, and the line of the graph's text that is at fault, from 1; 0 where none is.
#[derive(Clone, Copy, Debug, PartialEq, Eq)]
pub struct Refused {
    pub refusal: Refusal,
    pub line: usize,
}

/// How a search stands.
#[derive(Clone, Copy, Debug, PartialEq, Eq)]
pub enum Status {
    /// It waits for its next step.
    Incomplete,
    Solved {
        total_cost: usize,
        moves: usize,
    },
    /// There is no path.
    Impossible,
}

/// What a search answers.
#[derive(Clone, Copy, Debug, PartialEq, Eq)]
pub struct Answer {
    pub status: Status,
    /// How many steps of this call answered incomplete.
    pub waits: usize,
    /// How many tickets this call took.
    pub tickets: usize,
    /// Whether `plan` wrote the path.
    pub has_path: bool,
}

/// A search's record. `initialize` and `plan` make one; the words may be kept elsewhere and come back. A record of other words is
/// refused where it is none of the cache.
#[derive(Clone, Debug, PartialEq, Eq)]
pub struct Record {
    pub words: [u32; RECORD_WORDS],
}

// SAFETY, of every call of the archive below: its pointers and lengths are those of borrows, so that they are valid and aligned, and
// what is written overlaps nothing else. The archive asks for no more.

/// How many words a cache needs. Refused by `OverLimit`.
pub fn words_needed(vertices: usize, edges: usize, slots: usize) -> Result<usize, Refused> {
    let mut needed = 0;
    let number = unsafe { perillabeam_words_needed(vertices, edges, slots, &mut needed) };
    done(number).map(|()| needed)
}

/// Opens a cache in the words, of a graph's text: a line `M,number,initial cost` for each vertex (`-`: none), then a line
/// `L,from,to,cost` for each edge, each ended by LF. Words past those needed stay. Refused by `OverLimit` for the slots; then line
/// by line, each by `Malformed`, `OutOfOrder`, `OverLimit`, `NoSuchVertex`; then by `ShortCache`.
pub fn open(
    words: &mut [u32],
    text: &[u8],
    direction: Direction,
    slots: usize,
) -> Result<(), Refused> {
    let mut line = 0;
    let number = unsafe {
        perillabeam_open(
            words.as_mut_ptr(),
            words.len(),
            text.as_ptr(),
            text.len(),
            direction as u32,
            slots,
            &mut line,
        )
    };
    refusal_of(number).map_or(Ok(()), |refusal| Err(Refused { refusal, line }))
}

/// Whether the words are those of a sound cache: such as an opening and later calls leave. Every call below asks it first.
pub fn is_sound(words: &[u32]) -> bool {
    unsafe { perillabeam_is_sound(words.as_ptr(), words.len()) }
}

/// Opens a search from the starts to the goals. Forward, a start without an initial cost is passed over. Refused by `Unsound`,
/// `OverLimit`, `NoSuchVertex`, `TreesFull`.
pub fn initialize(words: &mut [u32], starts: &[u32], goals: &[u32]) -> Result<Record, Refused> {
    let mut record = Record {
        words: [0; RECORD_WORDS],
    };
    let number = unsafe {
        perillabeam_initialize(
            words.as_mut_ptr(),
            words.len(),
            starts.as_ptr(),
            starts.len(),
            goals.as_ptr(),
            goals.len(),
            record.words.as_mut_ptr(),
            RECORD_WORDS,
        )
    };
    done(number).map(|()| record)
}

/// One step of a search: at most ten tickets for each of its entries. A search that has answered solved or impossible repeats its
/// answer, and takes no ticket. Refused by `Unsound`, `InvalidSearch`; never by the latter if the record is what its opening and its
/// own steps left.
pub fn step(words: &mut [u32], record: &mut Record) -> Result<Answer, Refused> {
    let mut answer = [0; 6];
    let number = unsafe {
        perillabeam_step(
            words.as_mut_ptr(),
            words.len(),
            record.words.as_mut_ptr(),
            RECORD_WORDS,
            &mut answer,
        )
    };
    done(number).map(|()| answer_of(answer))
}

/// Many steps with one check of the words: until one answers solved or impossible, or so many have answered incomplete. With 0
/// steps nothing is done, and the answer says how the search stands. Refused by `Unsound`, `InvalidSearch`.
pub fn solve(words: &mut [u32], record: &mut Record, steps: u32) -> Result<Answer, Refused> {
    let mut answer = [0; 6];
    let number = unsafe {
        perillabeam_solve(
            words.as_mut_ptr(),
            words.len(),
            record.words.as_mut_ptr(),
            RECORD_WORDS,
            steps,
            &mut answer,
        )
    };
    done(number).map(|()| answer_of(answer))
}

/// A whole search by one call: `initialize`, steps to the end, and the path where there is room for it. Never answers incomplete.
/// Too short a path is not refused: `has_path` is false, the path is as it was, and `retrace` shows it by the record. Refused as
/// `initialize` is.
pub fn plan(
    words: &mut [u32],
    starts: &[u32],
    goals: &[u32],
    path: &mut [u32],
) -> Result<(Answer, Record), Refused> {
    let mut record = Record {
        words: [0; RECORD_WORDS],
    };
    let mut answer = [0; 6];
    let number = unsafe {
        perillabeam_plan(
            words.as_mut_ptr(),
            words.len(),
            starts.as_ptr(),
            starts.len(),
            goals.as_ptr(),
            goals.len(),
            path.as_mut_ptr(),
            path.len(),
            record.words.as_mut_ptr(),
            RECORD_WORDS,
            &mut answer,
        )
    };
    done(number).map(|()| (answer_of(answer), record))
}

/// Writes the path of a solved search, in the graph's own direction, and answers its moves: `path_words(moves)` words; the others
/// stay. Refused by `Unsound`, `InvalidSearch`, `NotSolved`, `ShortPath`.
pub fn retrace(words: &[u32], record: &Record, path: &mut [u32]) -> Result<usize, Refused> {
    let mut moves = 0;
    let number = unsafe {
        perillabeam_retrace(
            words.as_ptr(),
            words.len(),
            record.words.as_ptr(),
            RECORD_WORDS,
            path.as_mut_ptr(),
            path.len(),
            &mut moves,
        )
    };
    done(number).map(|()| moves)
}

// The result of a call in which no line is at fault.
fn done(number: u32) -> Result<(), Refused> {
    refusal_of(number).map_or(Ok(()), |refusal| Err(Refused { refusal, line: 0 }))
}

// The refusal with a number, or none for 0. The archive answers no others.
fn refusal_of(number: u32) -> Option<Refusal> {
    match number {
        0 => None,
        1 => Some(Refusal::Malformed),
        2 => Some(Refusal::OutOfOrder),
        3 => Some(Refusal::NoSuchVertex),
        4 => Some(Refusal::OverLimit),
        5 => Some(Refusal::ShortCache),
        6 => Some(Refusal::TreesFull),
        7 => Some(Refusal::Unsound),
        8 => Some(Refusal::InvalidSearch),
        9 => Some(Refusal::NotSolved),
        10 => Some(Refusal::ShortPath),
        _ => unreachable!(),
    }
}

// The answer of a call that was not refused, whose status is thus 1, 2 or 3.
fn answer_of([status, total_cost, moves, waits, tickets, has_path]: [usize; 6]) -> Answer {
    let status = match status {
        1 => Status::Incomplete,
        2 => Status::Solved { total_cost, moves },
        3 => Status::Impossible,
        _ => unreachable!(),
    };
    Answer {
        status,
        waits,
        tickets,
        has_path: has_path == 1,
    }
}

impl fmt::Display for Refusal {
    fn fmt(&self, f: &mut fmt::Formatter<'_>) -> fmt::Result {
        f.write_str(match self {
            Refusal::Malformed => "a line has another form, or no line feed",
            Refusal::OutOfOrder => "a vertex is not the next one, or stands below an edge",
            Refusal::NoSuchVertex => "no such vertex",
            Refusal::OverLimit => "over a limit",
            Refusal::ShortCache => "too few words for the cache",
            Refusal::TreesFull => "more new trees than unused slots",
            Refusal::Unsound => "the words are no sound cache",
            Refusal::InvalidSearch => "the record is none of this cache",
            Refusal::NotSolved => "the search has not finished as solved",
            Refusal::ShortPath => "too few words for the path",
        })
    }
}

impl fmt::Display for Refused {
    fn fmt(&self, f: &mut fmt::Formatter<'_>) -> fmt::Result {
        if self.line != 0 {
            write!(f, "line {}: ", self.line)?;
        }
        write!(f, "refused {}: {}", self.refusal as u32, self.refusal)
    }
}

impl core::error::Error for Refused {}

// A slice goes as a pointer and a length.
unsafe extern "C" {
    fn perillabeam_words_needed(
        vertices: usize,
        edges: usize,
        slots: usize,
        needed: *mut usize,
    ) -> u32;
    fn perillabeam_open(
        words: *mut u32,
        words_len: usize,
        text: *const u8,
        text_len: usize,
        direction: u32,
        slots: usize,
        line: *mut usize,
    ) -> u32;
    fn perillabeam_is_sound(words: *const u32, words_len: usize) -> bool;
    fn perillabeam_initialize(
        words: *mut u32,
        words_len: usize,
        starts: *const u32,
        starts_len: usize,
        goals: *const u32,
        goals_len: usize,
        record: *mut u32,
        record_len: usize,
    ) -> u32;
    fn perillabeam_step(
        words: *mut u32,
        words_len: usize,
        record: *mut u32,
        record_len: usize,
        answer: *mut [usize; 6],
    ) -> u32;
    fn perillabeam_solve(
        words: *mut u32,
        words_len: usize,
        record: *mut u32,
        record_len: usize,
        steps: u32,
        answer: *mut [usize; 6],
    ) -> u32;
    fn perillabeam_plan(
        words: *mut u32,
        words_len: usize,
        starts: *const u32,
        starts_len: usize,
        goals: *const u32,
        goals_len: usize,
        path: *mut u32,
        path_len: usize,
        record: *mut u32,
        record_len: usize,
        answer: *mut [usize; 6],
    ) -> u32;
    fn perillabeam_retrace(
        words: *const u32,
        words_len: usize,
        record: *const u32,
        record_len: usize,
        path: *mut u32,
        path_len: usize,
        moves: *mut usize,
    ) -> u32;
}
