//! The rules again in plain Rust, to compare the library with; only the answers' types are shared.
//! Winding numbers are counted by the crossing rule, determinants have 128 bits, and every district
//! is a row of its own; a fix is rounded by its decimals. Refusal 1 is not given here: rows have no
//! way to be damaged.
use launchramp::{Class, Place, Position, Refusal, Touch, NUMBERS};
use std::cmp::Ordering;

const LIMIT: i32 = 1_000_000_000;
const FEWEST_VERTICES: usize = 3;
const MOST_VERTICES: usize = 2048;

pub type Point = (i32, i32);
pub type Ring = Vec<Point>;

pub struct Rows {
    pub outline: Option<Ring>,
    pub districts: Vec<Option<Ring>>,
}

pub fn locate(list: &[i32], x: i32, y: i32) -> Result<Place, Refusal> {
    let ring = ring(list)?;
    on_grid(&[(x, y)])?;
    Ok(place(&ring, (x, y)))
}

impl Rows {
    pub fn new() -> Rows {
        Rows {
            outline: None,
            districts: vec![None; NUMBERS],
        }
    }

    pub fn found(&mut self, list: &[i32]) -> Result<(), Refusal> {
        if self.outline.is_some() {
            return Err(Refusal::OutlineThere);
        }
        let ring = ring(list)?;
        self.outline = Some(ring.clone());
        self.districts[0] = Some(ring);
        Ok(())
    }

    pub fn split(&mut self, d: usize, i: usize, j: usize, path: &[i32]) -> Result<usize, Refusal> {
        let ring = self.district(d)?;
        let n = ring.len();
        refuse_if(i >= n || j >= n || i == j, Refusal::BadIndex)?;
        let path = points(path)?;
        on_grid(&path)?;
        let mut one = walk(ring, i, (n + j - i) % n + 1);
        let mut two = walk(ring, j, (n + i - j) % n + 1);
        one.extend(path.iter().rev());
        two.extend(&path);
        refuse_if(one.len().min(two.len()) < FEWEST_VERTICES, Refusal::TooFew)?;
        let new = self
            .districts
            .iter()
            .position(Option::is_none)
            .ok_or(Refusal::NumbersInUse)?;
        let total = self.vertices() - n + one.len() + two.len();
        refuse_if(total > MOST_VERTICES, Refusal::NoRoom)?;
        self.districts[d] = Some(one);
        self.districts[new] = Some(two);
        Ok(new)
    }

    pub fn merge(
        &mut self,
        (kept, a): (usize, usize),
        (gone, b): (usize, usize),
        k: usize,
    ) -> Result<usize, Refusal> {
        let (ring_a, ring_b) = (self.district(kept)?, self.district(gone)?);
        let (na, nb) = (ring_a.len(), ring_b.len());
        refuse_if(kept == gone, Refusal::SameDistrict)?;
        refuse_if(a >= na || b >= nb, Refusal::BadIndex)?;
        let allowed = 1 <= k && k < na && k < nb;
        refuse_if(
            !allowed || shared_edges(ring_a, a, ring_b, b) < k,
            Refusal::NoMatch,
        )?;
        let mut merged = walk(ring_a, a + k, na - k + 1);
        merged.extend(walk(ring_b, b + 1, nb - k - 1));
        refuse_if(merged.len() < FEWEST_VERTICES, Refusal::TooFew)?;
        self.districts[kept] = Some(merged);
        self.districts[gone] = None;
        Ok(kept)
    }

    pub fn assign(&self, x: i32, y: i32) -> Result<Class, Refusal> {
        refuse_if(self.outline.is_none(), Refusal::NoOutline)?;
        on_grid(&[(x, y)])?;
        let mut holding = Vec::new();
        for (district, ring) in self.districts.iter().enumerate() {
            match ring.as_ref().map(|ring| place(ring, (x, y))) {
                None | Some(Place::Off(0)) => {}
                Some(Place::Off(_)) => holding.push(district),
                Some(Place::On(touch)) => return Ok(Class::Border { district, touch }),
            }
        }
        Ok(match holding[..] {
            [] => Class::None,
            [d] => Class::One(d),
            [lowest, ..] => Class::Several {
                lowest,
                count: holding.len(),
            },
        })
    }

    pub fn assign_all(&self, points: &[Point]) -> Result<Vec<Result<Class, Refusal>>, Refusal> {
        refuse_if(self.outline.is_none(), Refusal::NoOutline)?;
        Ok(points.iter().map(|&(x, y)| self.assign(x, y)).collect())
    }

    pub fn assign_at(&self, position: Position) -> Result<Class, Refusal> {
        refuse_if(self.outline.is_none(), Refusal::NoOutline)?;
        let (x, y) = match position {
            Position::Grid { x, y } => (x, y),
            Position::Fix { easting, northing } => millimetres(easting, northing)?,
            Position::Missing => return Err(Refusal::Missing),
        };
        self.assign(x, y)
    }

    fn district(&self, d: usize) -> Result<&Ring, Refusal> {
        refuse_if(self.outline.is_none(), Refusal::NoOutline)?;
        let row = self.districts.get(d).and_then(Option::as_ref);
        row.ok_or(Refusal::BadNumber)
    }

    fn vertices(&self) -> usize {
        self.districts.iter().flatten().map(Vec::len).sum()
    }
}

pub fn millimetres(easting: f64, northing: f64) -> Result<Point, Refusal> {
    let finite = easting.is_finite() && northing.is_finite();
    refuse_if(!finite, Refusal::NotFinite)?;
    let x = nearest(easting).ok_or(Refusal::BeyondGrid)?;
    let y = nearest(northing).ok_or(Refusal::BeyondGrid)?;
    on_grid(&[(x, y)])?;
    Ok((x, y))
}

/// The nearest millimetre, halves to even, if it fits: all decimals are written out, of which a
/// double has at most 1,074, and those behind the third compared with 5000..
fn nearest(metres: f64) -> Option<i32> {
    let written = format!("{:.1074}", metres.abs());
    let (whole, decimals) = written.split_once('.')?;
    let (three, rest) = decimals.split_at(3);
    let below: i64 = format!("{whole}{three}").parse().ok()?;
    let half = format!("{:0<1071}", "5");
    let size = match rest.cmp(&half) {
        Ordering::Less => below,
        Ordering::Equal => below + below % 2,
        Ordering::Greater => below + 1,
    };
    i32::try_from(if metres < 0.0 { -size } else { size }).ok()
}

/// How many edges the two rings share, A's from vertex a forward and B's from vertex b backward; at
/// most as many as A has.
pub fn shared_edges(ring_a: &[Point], a: usize, ring_b: &[Point], b: usize) -> usize {
    let (na, nb) = (ring_a.len(), ring_b.len());
    let equal = |t: &usize| ring_a[(a + t) % na] == ring_b[(b + nb - t % nb) % nb];
    (0..=na).take_while(equal).count().saturating_sub(1)
}

fn refuse_if(condition: bool, refusal: Refusal) -> Result<(), Refusal> {
    if condition {
        Err(refusal)
    } else {
        Ok(())
    }
}

fn points(list: &[i32]) -> Result<Ring, Refusal> {
    refuse_if(list.len() % 2 != 0, Refusal::NoRing)?;
    Ok(list.chunks(2).map(|pair| (pair[0], pair[1])).collect())
}

fn ring(list: &[i32]) -> Result<Ring, Refusal> {
    let ring = points(list)?;
    refuse_if(
        !(FEWEST_VERTICES..=MOST_VERTICES).contains(&ring.len()),
        Refusal::NoRing,
    )?;
    on_grid(&ring)?;
    Ok(ring)
}

fn on_grid(points: &[Point]) -> Result<(), Refusal> {
    let allowed = |c: i32| (-LIMIT..=LIMIT).contains(&c);
    refuse_if(
        !points.iter().all(|&(x, y)| allowed(x) && allowed(y)),
        Refusal::BeyondGrid,
    )
}

/// So many vertices from index `from` forward round the ring.
fn walk(ring: &[Point], from: usize, count: usize) -> Ring {
    ring.iter()
        .copied()
        .cycle()
        .skip(from % ring.len())
        .take(count)
        .collect()
}

/// Every vertex is looked at, and then every edge.
fn place(ring: &[Point], r: Point) -> Place {
    let edges = || {
        ring.iter()
            .copied()
            .zip(ring.iter().copied().cycle().skip(1))
    };
    if let Some((lowest, highest)) = met(ring.iter().map(|&p| p == r)) {
        return Place::On(Touch::Vertex { lowest, highest });
    }
    if let Some((lowest, highest)) = met(edges().map(|(p, q)| holds(p, q, r))) {
        return Place::On(Touch::Edge { lowest, highest });
    }
    Place::Off(edges().map(|(p, q)| crossing(p, q, r)).sum())
}

/// The lowest and the highest index that has `true`, if any has.
fn met(each: impl Iterator<Item = bool>) -> Option<(usize, usize)> {
    let indices: Vec<usize> = each.enumerate().filter(|i| i.1).map(|i| i.0).collect();
    Some((*indices.first()?, *indices.last()?))
}

/// Positive where p, q, r turn to the left.
fn determinant(p: Point, q: Point, r: Point) -> i128 {
    let less = |a: i32, b: i32| i128::from(a) - i128::from(b);
    less(p.0, r.0) * less(q.1, r.1) - less(q.0, r.0) * less(p.1, r.1)
}

fn holds(p: Point, q: Point, r: Point) -> bool {
    let between = |a: i32, b: i32, c: i32| a.min(b) <= c && c <= a.max(b);
    determinant(p, q, r) == 0 && between(p.0, q.0, r.0) && between(p.1, q.1, r.1)
}

/// What an edge adds to the winding number: it counts where it crosses the ray from r to the right,
/// with its lower end on the ray but not its upper one.
fn crossing(p: Point, q: Point, r: Point) -> i32 {
    let side = determinant(p, q, r);
    if p.1 <= r.1 && r.1 < q.1 && side > 0 {
        1
    } else if q.1 <= r.1 && r.1 < p.1 && side < 0 {
        -1
    } else {
        0
    }
}
