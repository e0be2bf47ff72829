//! The calls of include/launchramp.h, taking slices and the lists of a register. All `unsafe` of the
//! crate is in this file.
//!
//! The library is proved to take every input: any numbers, and lists of any length and content. It
//! reads and writes only within the lengths that it is told, and keeps no pointer. What the header
//! asks of its caller, slices give by themselves: a pointer that isn't null even for an empty list,
//! the list's own length and, for a list lent by `&mut`, that no other lent list overlaps it.

use crate::Lists;

/// The kinds of answers.
pub const REFUSED: u32 = 0;
pub const DONE: u32 = 1;
pub const VERTEX: u32 = 2;
pub const EDGE: u32 = 3;
pub const OFF: u32 = 4;
pub const BORDER: u32 = 5;
pub const ONE: u32 = 6;
pub const NONE: u32 = 7;
pub const SEVERAL: u32 = 8;

/// How many counts a tally has.
pub const COUNTS: usize = 67;

/// How many values an answer has.
const VALUES: usize = 8;

/// How many numbers tell an answer to one of many reports: its kind, then its values.
const ANSWER_LENGTH: usize = 1 + VALUES;

/// The values that tell where on a district's ring a report is: VERTEX or EDGE, then the lowest and
/// the highest index.
pub const ON: usize = 2;
pub const LOWEST: usize = 3;
pub const HIGHEST: usize = 4;

/// An answer: its kind and its values; the header tells what they mean for each kind.
pub struct Answer {
    pub kind: u32,
    pub values: [u64; VALUES],
}

mod c {
    extern "C" {
        pub fn launchramp_locate(
            ring: *const i32,
            ring_length: usize,
            x: i32,
            y: i32,
            values: *mut u64,
        ) -> u32;

        pub fn launchramp_well_formed(
            ox: *const i32,
            ox_length: usize,
            oy: *const i32,
            oy_length: usize,
            sx: *const i32,
            sx_length: usize,
            sy: *const i32,
            sy_length: usize,
            runs: *const u32,
            runs_length: usize,
        ) -> bool;

        pub fn launchramp_found(
            ox: *mut i32,
            ox_length: usize,
            oy: *mut i32,
            oy_length: usize,
            sx: *mut i32,
            sx_length: usize,
            sy: *mut i32,
            sy_length: usize,
            runs: *mut u32,
            runs_length: usize,
            ring: *const i32,
            ring_length: usize,
            values: *mut u64,
        ) -> u32;

        pub fn launchramp_split(
            ox: *const i32,
            ox_length: usize,
            oy: *const i32,
            oy_length: usize,
            sx: *mut i32,
            sx_length: usize,
            sy: *mut i32,
            sy_length: usize,
            runs: *mut u32,
            runs_length: usize,
            d: usize,
            i: usize,
            j: usize,
            path: *const i32,
            path_length: usize,
            values: *mut u64,
        ) -> u32;

        pub fn launchramp_merge(
            ox: *const i32,
            ox_length: usize,
            oy: *const i32,
            oy_length: usize,
            sx: *mut i32,
            sx_length: usize,
            sy: *mut i32,
            sy_length: usize,
            runs: *mut u32,
            runs_length: usize,
            kept: usize,
            a: usize,
            gone: usize,
            b: usize,
            k: usize,
            values: *mut u64,
        ) -> u32;

        pub fn launchramp_assign(
            ox: *const i32,
            ox_length: usize,
            oy: *const i32,
            oy_length: usize,
            sx: *const i32,
            sx_length: usize,
            sy: *const i32,
            sy_length: usize,
            runs: *const u32,
            runs_length: usize,
            x: i32,
            y: i32,
            values: *mut u64,
        ) -> u32;

        pub fn launchramp_assign_counted(
            ox: *const i32,
            ox_length: usize,
            oy: *const i32,
            oy_length: usize,
            sx: *const i32,
            sx_length: usize,
            sy: *const i32,
            sy_length: usize,
            runs: *const u32,
            runs_length: usize,
            x: i32,
            y: i32,
            counts: *mut u32,
            values: *mut u64,
        ) -> u32;

        pub fn launchramp_assign_all(
            ox: *const i32,
            ox_length: usize,
            oy: *const i32,
            oy_length: usize,
            sx: *const i32,
            sx_length: usize,
            sy: *const i32,
            sy_length: usize,
            runs: *const u32,
            runs_length: usize,
            points: *const i32,
            points_length: usize,
            answers: *mut u64,
            answers_length: usize,
            values: *mut u64,
        ) -> u32;

        pub fn launchramp_assign_all_counted(
            ox: *const i32,
            ox_length: usize,
            oy: *const i32,
            oy_length: usize,
            sx: *const i32,
            sx_length: usize,
            sy: *const i32,
            sy_length: usize,
            runs: *const u32,
            runs_length: usize,
            points: *const i32,
            points_length: usize,
            answers: *mut u64,
            answers_length: usize,
            counts: *mut u32,
            values: *mut u64,
        ) -> u32;

        pub fn launchramp_millimetres(
            easting: f64,
            northing: f64,
            point: *mut i32,
            values: *mut u64,
        ) -> u32;

        pub fn launchramp_assign_fix(
            ox: *const i32,
            ox_length: usize,
            oy: *const i32,
            oy_length: usize,
            sx: *const i32,
            sx_length: usize,
            sy: *const i32,
            sy_length: usize,
            runs: *const u32,
            runs_length: usize,
            easting: f64,
            northing: f64,
            values: *mut u64,
        ) -> u32;

        pub fn launchramp_assign_fix_counted(
            ox: *const i32,
            ox_length: usize,
            oy: *const i32,
            oy_length: usize,
            sx: *const i32,
            sx_length: usize,
            sy: *const i32,
            sy_length: usize,
            runs: *const u32,
            runs_length: usize,
            easting: f64,
            northing: f64,
            counts: *mut u32,
            values: *mut u64,
        ) -> u32;

        pub fn launchramp_assign_missing(
            ox: *const i32,
            ox_length: usize,
            oy: *const i32,
            oy_length: usize,
            sx: *const i32,
            sx_length: usize,
            sy: *const i32,
            sy_length: usize,
            runs: *const u32,
            runs_length: usize,
            values: *mut u64,
        ) -> u32;
    }
}

/// The call, lent each list by its pointer and its own length, and then the other arguments.
macro_rules! lend {
    ($lists:ident.$pointer:ident, $call:ident $(, $argument:expr)*) => {
        c::$call(
            $lists.outline_x.$pointer(),
            $lists.outline_x.len(),
            $lists.outline_y.$pointer(),
            $lists.outline_y.len(),
            $lists.store_x.$pointer(),
            $lists.store_x.len(),
            $lists.store_y.$pointer(),
            $lists.store_y.len(),
            $lists.runs.$pointer(),
            $lists.runs.len()
            $(, $argument)*
        )
    };
}

pub fn locate(ring: &[i32], x: i32, y: i32) -> Answer {
    let mut values = [0; VALUES];
    // SAFETY: `ring` goes with its own length and is only read; `values` has room for VALUES numbers
    // and is this function's own.
    let kind =
        unsafe { c::launchramp_locate(ring.as_ptr(), ring.len(), x, y, values.as_mut_ptr()) };
    Answer { kind, values }
}

pub fn well_formed(lists: &Lists) -> bool {
    // SAFETY: each list goes with its own length; nothing is written. C's `bool` is Rust's.
    unsafe { lend!(lists.as_ptr, launchramp_well_formed) }
}

pub fn found(lists: &mut Lists, ring: &[i32]) -> Answer {
    let mut values = [0; VALUES];
    // SAFETY: each list goes with its own length. The five that are written are lent by `&mut`, so
    // neither `ring` nor one another overlaps them; `values` is as in `locate`.
    let kind = unsafe {
        lend!(
            lists.as_mut_ptr,
            launchramp_found,
            ring.as_ptr(),
            ring.len(),
            values.as_mut_ptr()
        )
    };
    Answer { kind, values }
}

pub fn split(lists: &mut Lists, d: usize, i: usize, j: usize, path: &[i32]) -> Answer {
    let mut values = [0; VALUES];
    // SAFETY: as in `found`, with a path; the outline's columns are only read.
    let kind = unsafe {
        lend!(
            lists.as_mut_ptr,
            launchramp_split,
            d,
            i,
            j,
            path.as_ptr(),
            path.len(),
            values.as_mut_ptr()
        )
    };
    Answer { kind, values }
}

pub fn merge(
    lists: &mut Lists,
    (kept, a): (usize, usize),
    (gone, b): (usize, usize),
    k: usize,
) -> Answer {
    let mut values = [0; VALUES];
    // SAFETY: as in `split`, without a path.
    let kind = unsafe {
        lend!(
            lists.as_mut_ptr,
            launchramp_merge,
            kept,
            a,
            gone,
            b,
            k,
            values.as_mut_ptr()
        )
    };
    Answer { kind, values }
}

pub fn assign(lists: &Lists, x: i32, y: i32) -> Answer {
    let mut values = [0; VALUES];
    // SAFETY: each list goes with its own length and is only read; `values` is as in `locate`.
    let kind = unsafe { lend!(lists.as_ptr, launchramp_assign, x, y, values.as_mut_ptr()) };
    Answer { kind, values }
}

pub fn assign_counted(lists: &Lists, x: i32, y: i32, counts: &mut [u32; COUNTS]) -> Answer {
    let mut values = [0; VALUES];
    // SAFETY: as in `assign`; `counts` has the COUNTS numbers that the library takes it to have, and
    // is lent by `&mut`, so no other list overlaps it.
    let kind = unsafe {
        lend!(
            lists.as_ptr,
            launchramp_assign_counted,
            x,
            y,
            counts.as_mut_ptr(),
            values.as_mut_ptr()
        )
    };
    Answer { kind, values }
}

/// The answer to the whole call, and those to the points, which mean nothing where it is refused.
pub fn assign_all(lists: &Lists, points: &[(i32, i32)]) -> (Answer, Vec<Answer>) {
    let (points, mut answers) = batch(points);
    let mut values = [0; VALUES];
    // SAFETY: as in `assign`; `points` and `answers` go with their own lengths, and `answers` is this
    // function's own, so no other list overlaps it.
    let kind = unsafe {
        lend!(
            lists.as_ptr,
            launchramp_assign_all,
            points.as_ptr(),
            points.len(),
            answers.as_mut_ptr(),
            answers.len(),
            values.as_mut_ptr()
        )
    };
    (Answer { kind, values }, each(&answers))
}

/// The same with a tally, which stays as it was where the whole call is refused.
pub fn assign_all_counted(
    lists: &Lists,
    points: &[(i32, i32)],
    counts: &mut [u32; COUNTS],
) -> (Answer, Vec<Answer>) {
    let (points, mut answers) = batch(points);
    let mut values = [0; VALUES];
    // SAFETY: as in `assign_all`; `counts` is as in `assign_counted`.
    let kind = unsafe {
        lend!(
            lists.as_ptr,
            launchramp_assign_all_counted,
            points.as_ptr(),
            points.len(),
            answers.as_mut_ptr(),
            answers.len(),
            counts.as_mut_ptr(),
            values.as_mut_ptr()
        )
    };
    (Answer { kind, values }, each(&answers))
}

/// The points as a list x, y, x, y, .., and one with room for their answers.
fn batch(points: &[(i32, i32)]) -> (Vec<i32>, Vec<u64>) {
    let list = points.iter().flat_map(|&(x, y)| [x, y]).collect();
    (list, vec![0; points.len() * ANSWER_LENGTH])
}

/// The answers from all numbers that tell them.
fn each(answers: &[u64]) -> Vec<Answer> {
    answers.chunks_exact(ANSWER_LENGTH).map(told).collect()
}

/// An answer from the numbers that tell it.
fn told(numbers: &[u64]) -> Answer {
    let mut values = [0; VALUES];
    values.copy_from_slice(&numbers[1..]);
    Answer {
        kind: numbers[0] as u32,
        values,
    }
}

/// The answer, and the point, which means nothing where the fix is refused.
pub fn millimetres(easting: f64, northing: f64) -> (Answer, [i32; 2]) {
    let mut values = [0; VALUES];
    let mut point = [0; 2];
    // SAFETY: `point` has the two places that the library takes it to have, and is this function's
    // own; `values` is as in `locate`.
    let kind = unsafe {
        c::launchramp_millimetres(easting, northing, point.as_mut_ptr(), values.as_mut_ptr())
    };
    (Answer { kind, values }, point)
}

pub fn assign_fix(lists: &Lists, easting: f64, northing: f64) -> Answer {
    let mut values = [0; VALUES];
    // SAFETY: as in `assign`.
    let kind = unsafe {
        lend!(
            lists.as_ptr,
            launchramp_assign_fix,
            easting,
            northing,
            values.as_mut_ptr()
        )
    };
    Answer { kind, values }
}

pub fn assign_fix_counted(
    lists: &Lists,
    easting: f64,
    northing: f64,
    counts: &mut [u32; COUNTS],
) -> Answer {
    let mut values = [0; VALUES];
    // SAFETY: as in `assign_counted`.
    let kind = unsafe {
        lend!(
            lists.as_ptr,
            launchramp_assign_fix_counted,
            easting,
            northing,
            counts.as_mut_ptr(),
            values.as_mut_ptr()
        )
    };
    Answer { kind, values }
}

pub fn assign_missing(lists: &Lists) -> Answer {
    let mut values = [0; VALUES];
    // SAFETY: as in `assign`.
    let kind = unsafe { lend!(lists.as_ptr, launchramp_assign_missing, values.as_mut_ptr()) };
    Answer { kind, values }
}
