//! Some 120,000 made calls, to the library and to plain Rust: every answer is compared, of a batch
//! each, and after every change every ring. At the end every answer must have come, and the lowest and the highest
//! place on a ring must have been apart often enough.
mod plain;

use launchramp::NUMBERS;
use launchramp::{locate, millimetres, Class, Place, Position, Refusal, Register, Ring, Touch};
use plain::{shared_edges, Point, Rows};
use std::collections::{BTreeMap, BTreeSet};
use std::fmt::Debug;

const SEED: u64 = 7;
const LIVES: usize = 500;
const CALLS_A_LIFE: usize = 240;
const MOST_IN_A_BATCH: usize = 40;
const LIMIT: i32 = 1_000_000_000;
const BEYOND: i32 = LIMIT + 1;

/// Fewer answers whose lowest and highest place are apart say nothing: at vertices and on edges each,
/// of each call that tells them.
const FEWEST_APART: usize = 50;

/// Numbers by chance, the same on every machine: the splitmix64 generator.
struct Chance(u64);

impl Chance {
    fn next(&mut self) -> u64 {
        self.0 = self.0.wrapping_add(0x9E37_79B9_7F4A_7C15);
        let z = (self.0 ^ (self.0 >> 30)).wrapping_mul(0xBF58_476D_1CE4_E5B9);
        let z = (z ^ (z >> 27)).wrapping_mul(0x94D0_49BB_1331_11EB);
        z ^ (z >> 31)
    }

    fn below(&mut self, n: usize) -> usize {
        (self.next() % n as u64) as usize
    }

    fn once_in(&mut self, n: usize) -> bool {
        self.below(n) == 0
    }

    fn between(&mut self, low: i32, high: i32) -> i32 {
        low + self.below((high - low + 1) as usize) as i32
    }
}

/// How a register lives: its coordinates are up to `steps` each way, `wide` apart; its paths have up
/// to `longest_path` points; and one change in `merges` is a merge.
struct Style {
    steps: i32,
    wide: i32,
    longest_path: usize,
    merges: usize,
}

/// Few points and degenerate rings, the whole grid, a store that fills up, numbers that run out.
const STYLES: [Style; 4] = [
    Style {
        steps: 1,
        wide: 1,
        longest_path: 3,
        merges: 2,
    },
    Style {
        steps: 2,
        wide: LIMIT / 2,
        longest_path: 5,
        merges: 3,
    },
    Style {
        steps: 1000,
        wide: 1_000_000,
        longest_path: 200,
        merges: 3,
    },
    Style {
        steps: 9,
        wide: 1,
        longest_path: 4,
        merges: 20,
    },
];

/// One register, held by the library and as rows.
struct Life<'a> {
    chance: &'a mut Chance,
    style: &'a Style,
    register: Register,
    rows: Rows,
    seen: &'a mut BTreeSet<String>,
    /// How many answers had their lowest and highest place apart, by the call and what was touched.
    apart: &'a mut BTreeMap<String, usize>,
}

impl Life<'_> {
    fn live(&mut self) {
        for _ in 0..CALLS_A_LIFE {
            match self.chance.below(13) {
                0 => self.found(),
                1 => self.locate(),
                2..=4 => self.assign(),
                5 => self.assign_at(),
                6 => self.millimetres(),
                7 => self.assign_all(),
                _ if self.chance.once_in(self.style.merges) => self.merge(),
                _ => self.split(),
            }
        }
    }

    fn found(&mut self) {
        let n = self.chance.below(12);
        let ring = self.list(n);
        let answers = (self.register.found(&ring), self.rows.found(&ring));
        self.compare("found", answers);
        self.compare_rings();
    }

    fn split(&mut self) {
        let d = self.number();
        let (i, j) = (self.index(d), self.index(d));
        let k = self.chance.below(self.style.longest_path + 1);
        let path = self.list(k);
        let answers = (
            self.register.split(d, i, j, &path),
            self.rows.split(d, i, j, &path),
        );
        self.compare("split", answers);
        self.compare_rings();
    }

    fn merge(&mut self) {
        let (kept, gone) = (self.number(), self.number());
        let (a, b, most) =
            self.shared(kept, gone)
                .unwrap_or((self.index(kept), self.index(gone), 1));
        let k = if self.chance.once_in(20) {
            most + 1
        } else {
            self.chance.below(most + 1)
        };
        let (kept, gone) = ((kept, a), (gone, b));
        let answers = (
            self.register.merge(kept, gone, k),
            self.rows.merge(kept, gone, k),
        );
        self.compare("merge", answers);
        self.compare_rings();
    }

    fn assign(&mut self) {
        let (x, y) = self.point();
        let answer = self.register.assign(x, y);
        self.compare("assign", (answer, self.rows.assign(x, y)));
        self.count_border("assign", answer);
    }

    fn assign_all(&mut self) {
        let n = self.chance.below(MOST_IN_A_BATCH + 1);
        let points: Vec<Point> = (0..n).map(|_| self.point()).collect();
        match (
            self.register.assign_all(&points),
            self.rows.assign_all(&points),
        ) {
            (Ok(library), Ok(rows)) => self.compare_each(library, rows),
            (library, rows) => {
                self.compare("assign_all", (library.map(|_| ()), rows.map(|_| ())));
            }
        }
    }

    fn compare_each(
        &mut self,
        library: Vec<Result<Class, Refusal>>,
        rows: Vec<Result<Class, Refusal>>,
    ) {
        assert_eq!(library.len(), rows.len());
        for answers in library.into_iter().zip(rows) {
            self.compare("assign_all", answers);
            self.count_border("assign_all", answers.0);
        }
    }

    fn assign_at(&mut self) {
        let position = self.position();
        let answer = self.register.assign_at(position);
        self.compare("assign_at", (answer, self.rows.assign_at(position)));
        self.count_border("assign_at", answer);
    }

    fn millimetres(&mut self) {
        let (x, y) = self.point();
        let (easting, northing) = (self.metres(x), self.metres(y));
        let answers = (
            millimetres(easting, northing),
            plain::millimetres(easting, northing),
        );
        self.compare("millimetres", answers);
    }

    fn locate(&mut self) {
        let n = self.chance.below(40);
        let ring = self.list(n);
        let (x, y) = self.point();
        let answer = locate(&ring, x, y);
        self.compare("locate", (answer, plain::locate(&ring, x, y)));
        if let Ok(Place::On(touch)) = answer {
            self.count("locate", touch);
        }
    }

    fn count_border(&mut self, call: &str, answer: Result<Class, Refusal>) {
        if let Ok(Class::Border { touch, .. }) = answer {
            self.count(call, touch);
        }
    }

    fn count(&mut self, call: &str, touch: Touch) {
        let (on, lowest, highest) = match touch {
            Touch::Vertex { lowest, highest } => ("Vertex", lowest, highest),
            Touch::Edge { lowest, highest } => ("Edge", lowest, highest),
        };
        if lowest != highest {
            *self.apart.entry(format!("{call} {on}")).or_default() += 1;
        }
    }

    fn coordinate(&mut self) -> i32 {
        self.chance.between(-self.style.steps, self.style.steps) * self.style.wide
    }

    /// A point, now and then beyond the grid.
    fn point(&mut self) -> Point {
        let (x, y) = (self.coordinate(), self.coordinate());
        match self.chance.below(100) {
            0 => (BEYOND, y),
            1 => (x, i32::MIN),
            _ => (x, y),
        }
    }

    fn position(&mut self) -> Position {
        let (x, y) = self.point();
        match self.chance.below(8) {
            0 => Position::Missing,
            1 => Position::Grid { x, y },
            _ => Position::Fix {
                easting: self.metres(x),
                northing: self.metres(y),
            },
        }
    }

    /// A receiver's value: the coordinate's, or half a millimetre or less from it; exact halves; any
    /// double; now and then what has no place on the grid.
    fn metres(&mut self, coordinate: i32) -> f64 {
        let metres = f64::from(coordinate) / 1000.0;
        match self.chance.below(20) {
            0 => [f64::NAN, f64::INFINITY, f64::NEG_INFINITY, f64::MAX][self.chance.below(4)],
            1 => f64::from_bits(self.chance.next()),
            2..=5 => metres + 0.0005,
            6..=9 => f64::from(self.chance.between(-16_000_000, 16_000_000)) / 16.0,
            10..=13 => metres + f64::from(self.chance.between(-500, 500)) * 1e-6,
            _ => metres,
        }
    }

    /// A list of n points, now and then with half a point more, or one more beyond the grid.
    fn list(&mut self, n: usize) -> Vec<i32> {
        let mut list: Vec<i32> = (0..2 * n).map(|_| self.coordinate()).collect();
        match self.chance.below(50) {
            0 => list.push(BEYOND),
            1 => list.extend([0, -BEYOND]),
            _ => {}
        }
        list
    }

    /// A number in use, now and then another.
    fn number(&mut self) -> usize {
        let used: Vec<usize> = (0..NUMBERS).filter(|&d| !self.ring(d).is_empty()).collect();
        if used.is_empty() || self.chance.once_in(30) {
            return self.chance.below(NUMBERS + 2);
        }
        used[self.chance.below(used.len())]
    }

    /// An index of the district's ring, now and then the one behind it.
    fn index(&mut self, d: usize) -> usize {
        let n = self.ring(d).len();
        if n == 0 || self.chance.once_in(30) {
            return n;
        }
        self.chance.below(n)
    }

    /// Some edges that both districts have: where they start in each ring, and how many they are.
    fn shared(&mut self, kept: usize, gone: usize) -> Option<(usize, usize, usize)> {
        let start = self.index(kept);
        let (ring_a, ring_b) = (self.ring(kept), self.ring(gone));
        for a in (start..ring_a.len()).chain(0..start.min(ring_a.len())) {
            for b in 0..ring_b.len() {
                let edges = shared_edges(ring_a, a, ring_b, b);
                if edges > 0 {
                    return Some((a, b, edges));
                }
            }
        }
        None
    }

    fn ring(&self, d: usize) -> &[Point] {
        self.rows
            .districts
            .get(d)
            .and_then(Option::as_deref)
            .unwrap_or(&[])
    }

    fn compare<T: Debug + PartialEq>(
        &mut self,
        call: &str,
        (library, rows): (Result<T, Refusal>, Result<T, Refusal>),
    ) {
        assert_eq!(library, rows, "{call}");
        let answer = match library {
            Ok(answer) => format!("{answer:?}"),
            Err(refusal) => format!("{refusal:?}"),
        };
        self.seen.insert(format!("{call} {}", names(&answer)));
    }

    fn compare_rings(&self) {
        let points = |ring: Ring| -> Vec<Point> {
            let (xs, ys) = (ring.x.iter(), ring.y.iter());
            xs.copied().zip(ys.copied()).collect()
        };
        assert!(self.register.is_well_formed());
        assert_eq!(self.register.outline().map(points), self.rows.outline);
        for d in 0..NUMBERS {
            let district = self.register.district(d).map(points);
            assert_eq!(district, self.rows.districts[d], "district {d}");
        }
    }
}

/// The names of an answer, without its fields: `Border Edge`.
fn names(answer: &str) -> String {
    let words = answer.split(|c: char| !c.is_alphabetic());
    let names: Vec<&str> = words
        .filter(|word| word.starts_with(char::is_uppercase))
        .collect();
    names.join(" ")
}

/// Every answer of each call but refusals 1 and 14; an accepted change has no name.
const ANSWERS: [(&str, &[&str]); 8] = [
    ("found", &["", "OutlineThere", "NoRing", "BeyondGrid"]),
    (
        "split",
        &[
            "",
            "NoOutline",
            "BadNumber",
            "BadIndex",
            "NoRing",
            "BeyondGrid",
            "TooFew",
            "NumbersInUse",
            "NoRoom",
        ],
    ),
    (
        "merge",
        &[
            "",
            "NoOutline",
            "BadNumber",
            "SameDistrict",
            "BadIndex",
            "NoMatch",
            "TooFew",
        ],
    ),
    (
        "assign",
        &[
            "Border Vertex",
            "Border Edge",
            "One",
            "None",
            "Several",
            "NoOutline",
            "BeyondGrid",
        ],
    ),
    (
        "assign_all",
        &[
            "Border Vertex",
            "Border Edge",
            "One",
            "None",
            "Several",
            "NoOutline",
            "BeyondGrid",
        ],
    ),
    (
        "assign_at",
        &[
            "Border Vertex",
            "Border Edge",
            "One",
            "None",
            "Several",
            "NoOutline",
            "Missing",
            "NotFinite",
            "BeyondGrid",
        ],
    ),
    ("millimetres", &["", "NotFinite", "BeyondGrid"]),
    (
        "locate",
        &["On Vertex", "On Edge", "Off", "NoRing", "BeyondGrid"],
    ),
];

#[test]
fn lives_of_registers() {
    let mut chance = Chance(SEED);
    let mut seen = BTreeSet::new();
    let mut apart = BTreeMap::new();
    for life in 0..LIVES {
        let style = &STYLES[life % STYLES.len()];
        let (register, rows) = (Register::new(), Rows::new());
        Life {
            chance: &mut chance,
            style,
            register,
            rows,
            seen: &mut seen,
            apart: &mut apart,
        }
        .live();
    }
    let all = ANSWERS
        .iter()
        .flat_map(|(call, names)| names.iter().map(move |name| format!("{call} {name}")));
    assert_eq!(seen, all.collect());
    for call in ["locate", "assign", "assign_all", "assign_at"] {
        for on in ["Vertex", "Edge"] {
            let many = *apart.get(&format!("{call} {on}")).unwrap_or(&0);
            println!("{call} {on}: {many} answers with places apart");
            assert!(
                many >= FEWEST_APART,
                "{call} {on}: too few with places apart"
            );
        }
    }
}
