//! Sorting fault reports into districts, exactly: a safe wrapper of the proved library
//! liblaunchramp.a, whose rules docs/RULES.md tells.
//!
//! Coordinates are whole millimetres, -1,000,000,000 to 1,000,000,000. Rings and paths are handed
//! over as lists x, y, x, y, ..; a register lends its own as two columns, all x and all y. A report's
//! position may also be a receiver's fix, in metres. Every call takes every input; what the rules
//! don't allow is answered by a [`Refusal`], and a refused call changes nothing.
//!
//! ```
//! use launchramp::{Class, Position, Refusal, Register, Tally, Touch};
//!
//! let mut register = Register::new();
//! register.found(&[0, 0, 4, 0, 4, 4, 0, 4])?;
//! let new = register.split(0, 0, 2, &[])?; // district 0, from its vertex 0 to its vertex 2, straight
//! let mut tally = Tally::new();
//! assert_eq!(register.assign_counted(3, 1, &mut tally)?, Class::One(0));
//! assert_eq!(register.assign_counted(1, 3, &mut tally)?, Class::One(new));
//! let fix = Position::Fix { easting: 0.001, northing: 0.0031 };
//! assert_eq!(register.assign_at_counted(fix, &mut tally)?, Class::One(new));
//! assert_eq!(tally.one(new), 2);
//! // On the straight from vertex 2 of district 0 back to its vertex 0, which is its edge 2.
//! let touch = Touch::Edge { lowest: 2, highest: 2 };
//! assert_eq!(register.assign(2, 2)?, Class::Border { district: 0, touch });
//! # Ok::<(), Refusal>(())
//! ```
#![deny(unsafe_code)]

#[allow(unsafe_code)]
mod calls;
mod refusal;

use calls::Answer;
pub use refusal::Refusal;
use std::collections::BTreeMap;
use std::fmt;

/// District numbers go from 0 to 63.
pub const NUMBERS: usize = 64;

/// How long the lists of a register are: each of the four columns, and the runs.
pub const COLUMN_LENGTH: usize = 2048;
pub const RUNS_LENGTH: usize = 129;

/// How many counts a tally has: one for each district number, then Border, None and Several.
pub const COUNTS: usize = calls::COUNTS;
const BORDER: usize = 64;
const NONE: usize = 65;
const SEVERAL: usize = 66;

/// Where a point is on a ring. Vertices are numbered from 0; edge i goes from vertex i to the next,
/// the last one to vertex 0. Lowest and highest are the same unless the ring comes by the point more
/// than once.
#[derive(Clone, Copy, Debug, PartialEq, Eq, Hash)]
pub enum Touch {
    /// The lowest and the highest of the vertices that are the point.
    Vertex { lowest: usize, highest: usize },
    /// The lowest and the highest of the edges that hold the point, which is no vertex.
    Edge { lowest: usize, highest: usize },
}

/// Where a point lies against a ring.
#[derive(Clone, Copy, Debug, PartialEq, Eq, Hash)]
pub enum Place {
    /// On the ring.
    On(Touch),
    /// Not on the ring: how often the ring winds round the point. With x to the right and y up,
    /// counterclockwise turns are positive.
    Off(i32),
}

/// Where a report belongs, by the numbers of districts.
#[derive(Clone, Copy, Debug, PartialEq, Eq, Hash)]
pub enum Class {
    /// On the ring of this district, the lowest such, and where on that ring.
    Border { district: usize, touch: Touch },
    /// Inside this district alone.
    One(usize),
    /// In no district.
    None,
    /// Inside more than one.
    Several { lowest: usize, count: usize },
}

/// A report's position.
#[derive(Clone, Copy, Debug, PartialEq)]
pub enum Position {
    /// Whole millimetres.
    Grid { x: i32, y: i32 },
    /// Metres, from a receiver. Each value is taken as the nearest millimetre of its exact value,
    /// halves to even.
    Fix { easting: f64, northing: f64 },
    /// None was sent; refused, by Missing.
    Missing,
}

/// The millimetres x, y of a receiver's fix. Refusals: NotFinite, BeyondGrid.
pub fn millimetres(easting: f64, northing: f64) -> Result<(i32, i32), Refusal> {
    let (answer, [x, y]) = calls::millimetres(easting, northing);
    changed(answer).map(|_| (x, y))
}

/// Where the point (x, y) lies against one closed ring. Refusals: NoRing, BeyondGrid.
pub fn locate(ring: &[i32], x: i32, y: i32) -> Result<Place, Refusal> {
    place(calls::locate(ring, x, y))
}

/// A ring as a register holds it: all x of its vertices, and all y.
#[derive(Clone, Copy, Debug, PartialEq, Eq, Hash)]
pub struct Ring<'a> {
    pub x: &'a [i32],
    pub y: &'a [i32],
}

impl Ring<'_> {
    /// The list x, y, x, y, .. that [`locate`] and [`Register::found`] take.
    pub fn list(&self) -> Vec<i32> {
        let points = self.x.iter().zip(self.y);
        points.flat_map(|(&x, &y)| [x, y]).collect()
    }
}

/// The lists that hold a register: the vertices of the outline and of the store in two columns each,
/// all x and all y, and the runs. The store has the rings of all districts.
#[derive(Clone, Debug, PartialEq, Eq)]
pub struct Lists {
    pub outline_x: Vec<i32>,
    pub outline_y: Vec<i32>,
    pub store_x: Vec<i32>,
    pub store_y: Vec<i32>,
    pub runs: Vec<u32>,
}

/// An outline, and up to 64 districts inside it. Districts together have at most 2,048 vertices.
#[derive(Clone)]
pub struct Register {
    lists: Lists,
}

impl Register {
    /// A register without an outline.
    pub fn new() -> Register {
        let column = vec![0; COLUMN_LENGTH];
        Register::from_lists(Lists {
            outline_x: column.clone(),
            outline_y: column.clone(),
            store_x: column.clone(),
            store_y: column,
            runs: vec![0; RUNS_LENGTH],
        })
    }

    /// A register from lists as [`Register::lists`] gave them. Any lists are taken; if they are
    /// damaged, every call is refused by NotWellFormed.
    pub fn from_lists(lists: Lists) -> Register {
        Register { lists }
    }

    /// The lists that hold the register, for storing it.
    pub fn lists(&self) -> &Lists {
        &self.lists
    }

    pub fn is_well_formed(&self) -> bool {
        calls::well_formed(&self.lists)
    }

    /// Stores the outline, and makes district 0 with the same ring.
    /// Refusals: NotWellFormed, OutlineThere, NoRing, BeyondGrid.
    pub fn found(&mut self, ring: &[i32]) -> Result<(), Refusal> {
        changed(calls::found(&mut self.lists, ring)).map(|_| ())
    }

    /// Splits district d from its vertex i to its vertex j along a path, which may be empty, and
    /// answers the new district's number. District d keeps the piece from vertex i forward to j.
    /// Refusals: NotWellFormed, NoOutline, BadNumber, BadIndex, NoRing (a path of odd length),
    /// BeyondGrid, TooFew, NumbersInUse, NoRoom.
    pub fn split(&mut self, d: usize, i: usize, j: usize, path: &[i32]) -> Result<usize, Refusal> {
        changed(calls::split(&mut self.lists, d, i, j, path))
    }

    /// Merges district `gone` into district `kept`, and answers `kept`. They share k edges: from its
    /// vertex a forward, `kept` has the points that `gone` has from its vertex b backward.
    /// Refusals: NotWellFormed, NoOutline, BadNumber, SameDistrict, BadIndex, NoMatch, TooFew.
    pub fn merge(
        &mut self,
        (kept, a): (usize, usize),
        (gone, b): (usize, usize),
        k: usize,
    ) -> Result<usize, Refusal> {
        changed(calls::merge(&mut self.lists, (kept, a), (gone, b), k))
    }

    /// Where a report at (x, y) belongs. Refusals: NotWellFormed, NoOutline, BeyondGrid.
    pub fn assign(&self, x: i32, y: i32) -> Result<Class, Refusal> {
        self.assign_at(Position::Grid { x, y })
    }

    /// The same, and raises the class's count. Refusals: CountFull too.
    pub fn assign_counted(&self, x: i32, y: i32, tally: &mut Tally) -> Result<Class, Refusal> {
        self.assign_at_counted(Position::Grid { x, y }, tally)
    }

    /// Where the reports at all these points (x, y) belong, each exactly as [`Register::assign`] tells
    /// it, in much less time where there are many: the register is tested only once, and an index of
    /// it made. A point beyond the grid is refused in its own place, by BeyondGrid.
    /// Refusals of the whole call: NotWellFormed, NoOutline.
    ///
    /// ```
    /// use launchramp::{Class, Refusal, Register};
    ///
    /// let mut register = Register::new();
    /// register.found(&[0, 0, 4, 0, 4, 4, 0, 4])?;
    /// let answers = register.assign_all(&[(3, 1), (9, 9), (3, i32::MAX)])?;
    /// assert_eq!(answers, [Ok(Class::One(0)), Ok(Class::None), Err(Refusal::BeyondGrid)]);
    /// # Ok::<(), Refusal>(())
    /// ```
    pub fn assign_all(
        &self,
        points: &[(i32, i32)],
    ) -> Result<Vec<Result<Class, Refusal>>, Refusal> {
        classes(calls::assign_all(&self.lists, points))
    }

    /// The same, and raises the count of each class: every answer is the one that
    /// [`Register::assign_counted`] gives, called point after point. A report whose count is full by
    /// then is refused in its own place, by CountFull, and the others are answered and counted. Where
    /// the whole call is refused, no count changes.
    ///
    /// ```
    /// use launchramp::{Class, Refusal, Register, Tally};
    ///
    /// let mut register = Register::new();
    /// register.found(&[0, 0, 4, 0, 4, 4, 0, 4])?;
    /// let mut tally = Tally::new();
    /// let answers = register.assign_all_counted(&[(3, 1), (9, 9), (1, 3)], &mut tally)?;
    /// assert_eq!(answers, [Ok(Class::One(0)), Ok(Class::None), Ok(Class::One(0))]);
    /// assert_eq!((tally.one(0), tally.none()), (2, 1));
    /// # Ok::<(), Refusal>(())
    /// ```
    pub fn assign_all_counted(
        &self,
        points: &[(i32, i32)],
        tally: &mut Tally,
    ) -> Result<Vec<Result<Class, Refusal>>, Refusal> {
        classes(calls::assign_all_counted(
            &self.lists,
            points,
            &mut tally.counts,
        ))
    }

    /// Where a report with this position belongs.
    /// Refusals: NotWellFormed, NoOutline, Missing, NotFinite, BeyondGrid.
    pub fn assign_at(&self, position: Position) -> Result<Class, Refusal> {
        let lists = &self.lists;
        class(match position {
            Position::Grid { x, y } => calls::assign(lists, x, y),
            Position::Fix { easting, northing } => calls::assign_fix(lists, easting, northing),
            Position::Missing => calls::assign_missing(lists),
        })
    }

    /// The same, and raises the class's count. Refusals: CountFull too.
    pub fn assign_at_counted(
        &self,
        position: Position,
        tally: &mut Tally,
    ) -> Result<Class, Refusal> {
        let lists = &self.lists;
        let counts = &mut tally.counts;
        class(match position {
            Position::Grid { x, y } => calls::assign_counted(lists, x, y, counts),
            Position::Fix { easting, northing } => {
                calls::assign_fix_counted(lists, easting, northing, counts)
            }
            Position::Missing => calls::assign_missing(lists),
        })
    }

    /// The outline's ring, if there is one.
    pub fn outline(&self) -> Option<Ring<'_>> {
        let lists = &self.lists;
        ring(&lists.outline_x, &lists.outline_y, 0, *lists.runs.first()?)
    }

    /// The ring of district d, if the number is in use.
    pub fn district(&self, d: usize) -> Option<Ring<'_>> {
        let lists = &self.lists;
        // Runs are the outline's number of vertices, the first places of all 64 numbers in the store,
        // then their numbers of vertices (crates/districts/specs/Lists.antt).
        let (places, sizes) = lists.runs.get(1..RUNS_LENGTH)?.split_at(NUMBERS);
        let (place, n) = (*places.get(d)?, *sizes.get(d)?);
        ring(&lists.store_x, &lists.store_y, place, n)
    }
}

impl Default for Register {
    fn default() -> Register {
        Register::new()
    }
}

/// Registers are equal if they have the same outline and the same districts, wherever the lists hold
/// them; damaged ones if their lists are.
impl PartialEq for Register {
    fn eq(&self, other: &Register) -> bool {
        if !self.is_well_formed() || !other.is_well_formed() {
            return self.lists() == other.lists();
        }
        self.outline() == other.outline()
            && (0..NUMBERS).all(|d| self.district(d) == other.district(d))
    }
}

impl Eq for Register {}

/// The outline and the districts in use, or the lists of a damaged register.
impl fmt::Debug for Register {
    fn fmt(&self, f: &mut fmt::Formatter<'_>) -> fmt::Result {
        if !self.is_well_formed() {
            return f
                .debug_tuple("DamagedRegister")
                .field(&self.lists())
                .finish();
        }
        let used = (0..NUMBERS).filter_map(|d| Some((d, self.district(d)?)));
        f.debug_struct("Register")
            .field("outline", &self.outline())
            .field("districts", &used.collect::<BTreeMap<_, _>>())
            .finish()
    }
}

/// Counts of assigned reports. Later splits and merges move none.
#[derive(Clone, Debug, PartialEq, Eq)]
pub struct Tally {
    counts: [u32; COUNTS],
}

impl Tally {
    /// A tally of nothing yet.
    pub fn new() -> Tally {
        Tally {
            counts: [0; COUNTS],
        }
    }

    /// A tally from counts as [`Tally::counts`] gave them.
    pub fn from_counts(counts: [u32; COUNTS]) -> Tally {
        Tally { counts }
    }

    /// All counts, for storing the tally.
    pub fn counts(&self) -> &[u32; COUNTS] {
        &self.counts
    }

    /// How many reports were in district d alone; 0 for a number above 63.
    pub fn one(&self, d: usize) -> u32 {
        self.counts[..NUMBERS].get(d).copied().unwrap_or(0)
    }

    pub fn border(&self) -> u32 {
        self.counts[BORDER]
    }

    pub fn none(&self) -> u32 {
        self.counts[NONE]
    }

    pub fn several(&self) -> u32 {
        self.counts[SEVERAL]
    }
}

impl Default for Tally {
    fn default() -> Tally {
        Tally::new()
    }
}

/// The ring of n vertices from a place of both columns on. No vertices are no ring, and so is a run
/// that leaves a column, which only a damaged register has.
fn ring<'a>(xs: &'a [i32], ys: &'a [i32], place: u32, n: u32) -> Option<Ring<'a>> {
    let run = place as usize..place as usize + n as usize;
    if run.is_empty() {
        return None;
    }
    Some(Ring {
        x: xs.get(run.clone())?,
        y: ys.get(run)?,
    })
}

fn place(Answer { kind, values }: Answer) -> Result<Place, Refusal> {
    let [first, second, ..] = values;
    match kind {
        calls::VERTEX | calls::EDGE => Ok(Place::On(touch(kind.into(), first, second))),
        calls::OFF if second == 1 => Ok(Place::Off(-(first as i32))),
        calls::OFF => Ok(Place::Off(first as i32)),
        _ => Err(refused(kind, first)),
    }
}

fn changed(Answer { kind, values }: Answer) -> Result<usize, Refusal> {
    match kind {
        calls::DONE => Ok(values[0] as usize),
        _ => Err(refused(kind, values[0])),
    }
}

fn class(Answer { kind, values }: Answer) -> Result<Class, Refusal> {
    let [first, second, ..] = values;
    let d = first as usize;
    match kind {
        calls::BORDER => Ok(Class::Border {
            district: d,
            touch: touch(
                values[calls::ON],
                values[calls::LOWEST],
                values[calls::HIGHEST],
            ),
        }),
        calls::ONE => Ok(Class::One(d)),
        calls::NONE => Ok(Class::None),
        calls::SEVERAL => Ok(Class::Several {
            lowest: d,
            count: second as usize,
        }),
        _ => Err(refused(kind, first)),
    }
}

/// Of a batch: the answer to the whole call, then those to its points.
fn classes((whole, each): (Answer, Vec<Answer>)) -> Result<Vec<Result<Class, Refusal>>, Refusal> {
    changed(whole)?;
    Ok(each.into_iter().map(class).collect())
}

/// At vertices or on edges, as VERTEX or EDGE tells.
fn touch(on: u64, lowest: u64, highest: u64) -> Touch {
    let (lowest, highest) = (lowest as usize, highest as usize);
    match u32::try_from(on) {
        Ok(calls::VERTEX) => Touch::Vertex { lowest, highest },
        Ok(calls::EDGE) => Touch::Edge { lowest, highest },
        _ => unknown(calls::BORDER, on),
    }
}

fn refused(kind: u32, number: u64) -> Refusal {
    let refusal = Refusal::ALL
        .into_iter()
        .find(|r| u64::from(r.number()) == number);
    match (kind, refusal) {
        (calls::REFUSED, Some(refusal)) => refusal,
        _ => unknown(kind, number),
    }
}

/// Panics: the header doesn't have this answer for the call, so the archive is another library's.
fn unknown(kind: u32, value: u64) -> ! {
    panic!("liblaunchramp.a answered {kind} with {value}, which launchramp.h doesn't have")
}
