//! The known points, the README's listing, every refusal, the tally at its limit, known fixes, and
//! many reports at once.
use launchramp::{locate, millimetres, Class, Lists, Place, Position, Refusal, Register, Ring};
use launchramp::{Tally, Touch, COLUMN_LENGTH, COUNTS, NUMBERS, RUNS_LENGTH};

const LIMIT: i32 = 1_000_000_000;
const BEYOND: i32 = LIMIT + 1;

const S: &[i32] = &[0, 0, 4, 0, 4, 4, 0, 4];
const S_BACKWARDS: &[i32] = &[0, 4, 4, 4, 4, 0, 0, 0];
const S_TWICE: &[i32] = &[0, 0, 4, 0, 4, 4, 0, 4, 0, 0, 4, 0, 4, 4, 0, 4];
const BOW_TIE: &[i32] = &[0, 0, 4, 4, 4, 0, 0, 4];
const ONE_POINT: &[i32] = &[1, 1, 1, 1, 1, 1];
const FLAT: &[i32] = &[0, 0, 4, 0, 2, 0];
const DOUBLED_CORNER: &[i32] = &[0, 0, 4, 0, 4, 0, 4, 4, 0, 4];
const SPIKE: &[i32] = &[0, 0, 4, 0, 7, 0, 4, 0, 4, 4, 0, 4];
const HALF_THE_GRID: &[i32] = &[-LIMIT, -LIMIT, LIMIT, -LIMIT, LIMIT, LIMIT];

fn founded() -> Register {
    let mut register = Register::new();
    register.found(S).unwrap();
    register
}

/// District d's ring as a list x, y, x, y, ..
fn district(register: &Register, d: usize) -> Vec<i32> {
    register.district(d).unwrap().list()
}

fn vertex(lowest: usize, highest: usize) -> Touch {
    Touch::Vertex { lowest, highest }
}

fn edge(lowest: usize, highest: usize) -> Touch {
    Touch::Edge { lowest, highest }
}

fn border(district: usize, touch: Touch) -> Class {
    Class::Border { district, touch }
}

fn fix(easting: f64, northing: f64) -> Position {
    Position::Fix { easting, northing }
}

/// Positions that are refused wherever the register is good, and by what.
fn refused_positions() -> [(Position, Refusal); 6] {
    [
        (Position::Missing, Refusal::Missing),
        (fix(f64::NAN, 0.0), Refusal::NotFinite),
        (fix(1e300, f64::NEG_INFINITY), Refusal::NotFinite),
        (fix(0.0, -1e300), Refusal::BeyondGrid),
        (fix(1_000_000.001, 0.0), Refusal::BeyondGrid),
        (Position::Grid { x: BEYOND, y: 0 }, Refusal::BeyondGrid),
    ]
}

/// All refused positions are refused so, and nothing is counted.
fn refuses_positions(register: &Register, refusal: impl Fn(Refusal) -> Refusal) {
    let mut tally = Tally::new();
    for (position, own) in refused_positions() {
        let answers = [
            register.assign_at(position),
            register.assign_at_counted(position, &mut tally),
        ];
        assert_eq!(answers, [Err(refusal(own)); 2], "{position:?}");
    }
    assert_eq!(tally, Tally::new());
}

#[test]
fn known_points() {
    for (ring, (x, y), place) in [
        (S, (2, 2), Place::Off(1)),
        (S, (5, 2), Place::Off(0)),
        (S, (4, 4), Place::On(vertex(2, 2))),
        (S, (4, 1), Place::On(edge(1, 1))),
        (S, (0, 2), Place::On(edge(3, 3))),
        (S_BACKWARDS, (2, 2), Place::Off(-1)),
        (S_TWICE, (2, 2), Place::Off(2)),
        (S_TWICE, (4, 4), Place::On(vertex(2, 6))),
        (S_TWICE, (0, 2), Place::On(edge(3, 7))),
        (BOW_TIE, (3, 2), Place::Off(-1)),
        (BOW_TIE, (1, 2), Place::Off(1)),
        (BOW_TIE, (2, 2), Place::On(edge(0, 2))),
        (ONE_POINT, (1, 1), Place::On(vertex(0, 2))),
        (ONE_POINT, (0, 0), Place::Off(0)),
        (FLAT, (3, 0), Place::On(edge(0, 1))),
        (DOUBLED_CORNER, (4, 0), Place::On(vertex(1, 2))),
        (SPIKE, (6, 0), Place::On(edge(1, 2))),
        (SPIKE, (4, 0), Place::On(vertex(1, 3))),
        (HALF_THE_GRID, (1, 0), Place::Off(1)),
        (HALF_THE_GRID, (0, 1), Place::Off(0)),
    ] {
        assert_eq!(locate(ring, x, y), Ok(place), "{ring:?} at ({x}, {y})");
    }
}

#[test]
fn locating_refuses() {
    assert_eq!(locate(&[], 0, 0), Err(Refusal::NoRing));
    assert_eq!(locate(&S[..7], 0, 0), Err(Refusal::NoRing));
    assert_eq!(locate(&[0; 2 * 2], 0, 0), Err(Refusal::NoRing));
    assert_eq!(locate(&[0; 2 * 2049], 0, 0), Err(Refusal::NoRing));
    assert_eq!(locate(&[0; 2 * 2048], 0, 0), Ok(Place::On(vertex(0, 2047))));
    assert_eq!(
        locate(&[0, 0, 4, 0, BEYOND, 4], 0, 0),
        Err(Refusal::BeyondGrid)
    );
    assert_eq!(locate(S, 0, -BEYOND), Err(Refusal::BeyondGrid));
    assert_eq!(locate(&[], BEYOND, 0), Err(Refusal::NoRing));
}

#[test]
fn known_split() {
    let mut register = founded();
    assert_eq!(register.split(0, 0, 1, &[2, 9]), Ok(1));
    let (kept, new) = (district(&register, 0), district(&register, 1));
    assert_eq!(kept, [0, 0, 4, 0, 2, 9]);
    assert_eq!(new, [4, 0, 4, 4, 0, 4, 0, 0, 2, 9]);
    assert_eq!(locate(&kept, 2, 6), Ok(Place::Off(1)));
    assert_eq!(locate(&new, 2, 6), Ok(Place::Off(-1)));
    assert_eq!(
        register.assign(2, 6),
        Ok(Class::Several {
            lowest: 0,
            count: 2
        })
    );
    assert_eq!(register.assign(2, 2), Ok(Class::One(0)));
    assert_eq!(register.outline().unwrap().list(), S);
}

#[test]
fn the_documents_listing() {
    let mut register = Register::new();
    let mut tally = Tally::new();
    assert_eq!(register.found(S), Ok(()));
    assert_eq!(register.split(0, 0, 2, &[]), Ok(1));
    assert_eq!(register.assign_counted(3, 1, &mut tally), Ok(Class::One(0)));
    assert_eq!(
        register.assign_counted(2, 2, &mut tally),
        Ok(border(0, edge(2, 2)))
    );
    assert_eq!(register.assign_counted(9, 9, &mut tally), Ok(Class::None));
    assert_eq!(register.split(1, 0, 1, &[]), Err(Refusal::TooFew));
    assert_eq!(register.merge((0, 2), (1, 0), 1), Ok(0));
    assert_eq!(register.assign_counted(2, 2, &mut tally), Ok(Class::One(0)));
    let ones: Vec<u32> = (0..NUMBERS).map(|d| tally.one(d)).collect();
    assert_eq!((ones[0], ones.iter().sum()), (2, 2));
    assert_eq!((tally.border(), tally.none(), tally.several()), (1, 1, 0));
}

#[test]
fn a_report_on_rings_that_repeat_places() {
    for (ring, (x, y), touch) in [
        (S_TWICE, (4, 4), vertex(2, 6)),
        (S_TWICE, (0, 2), edge(3, 7)),
        (DOUBLED_CORNER, (4, 0), vertex(1, 2)),
        (SPIKE, (6, 0), edge(1, 2)),
        (SPIKE, (4, 0), vertex(1, 3)),
    ] {
        let mut register = Register::new();
        register.found(ring).unwrap();
        assert_eq!(register.assign(x, y), Ok(border(0, touch)), "{ring:?}");
    }
}

#[test]
fn a_shared_border_as_the_lower_district_has_it() {
    let mut register = Register::new();
    register.found(DOUBLED_CORNER).unwrap();
    register.split(0, 2, 4, &[]).unwrap();
    assert_eq!(district(&register, 0), [4, 0, 4, 4, 0, 4]);
    assert_eq!(district(&register, 1), [0, 4, 0, 0, 4, 0, 4, 0]);
    // Edge 3 and vertices 2 and 3 of district 1.
    assert_eq!(register.assign(2, 2), Ok(border(0, edge(2, 2))));
    assert_eq!(register.assign(4, 0), Ok(border(0, vertex(0, 0))));
    // The number 0 goes, and comes back with the piece that has the doubled corner.
    register.merge((1, 3), (0, 0), 1).unwrap();
    register.split(1, 0, 2, &[]).unwrap();
    assert_eq!(district(&register, 0), [4, 0, 4, 0, 4, 4, 0, 4]);
    assert_eq!(district(&register, 1), [0, 4, 0, 0, 4, 0]);
    // Edge 2 and vertex 2 of district 1.
    assert_eq!(register.assign(2, 2), Ok(border(0, edge(3, 3))));
    assert_eq!(register.assign(4, 0), Ok(border(0, vertex(0, 1))));
}

#[test]
fn what_a_register_holds() {
    let mut register = Register::new();
    assert_eq!((register.outline(), register.district(0)), (None, None));
    register.found(S).unwrap();
    let square = Ring {
        x: &[0, 4, 4, 0],
        y: &[0, 0, 4, 4],
    };
    assert_eq!(
        (register.outline(), register.district(0)),
        (Some(square), Some(square))
    );
    register.split(0, 0, 2, &[]).unwrap();
    assert_eq!(district(&register, 0), [0, 0, 4, 0, 4, 4]);
    assert_eq!(district(&register, 1), [4, 4, 0, 4, 0, 0]);
    register.merge((1, 2), (0, 0), 1).unwrap();
    assert_eq!(register.district(0), None);
    assert_eq!(district(&register, 1), [4, 4, 0, 4, 0, 0, 4, 0]);
    assert_eq!((register.district(63), register.district(64)), (None, None));
    assert_eq!(register.district(usize::MAX), None);
}

#[test]
fn a_register_stored_and_read_again() {
    let mut register = founded();
    register.split(0, 0, 2, &[]).unwrap();
    let again = Register::from_lists(register.lists().clone());
    assert!(again.is_well_formed());
    assert_eq!(again.district(1), register.district(1));
    assert_eq!(again.assign(1, 3), Ok(Class::One(1)));
}

/// Lists of length 0, which are no register.
fn no_lists() -> Lists {
    Lists {
        outline_x: vec![],
        outline_y: vec![],
        store_x: vec![],
        store_y: vec![],
        runs: vec![],
    }
}

/// The call is refused so, and leaves the register's lists as they were.
fn refuses(
    register: &mut Register,
    refusal: Refusal,
    call: impl Fn(&mut Register) -> Option<Refusal>,
) {
    let before = register.clone();
    assert_eq!(call(register), Some(refusal));
    assert_eq!(register.lists(), before.lists());
}

#[test]
fn before_an_outline() {
    let mut register = Register::new();
    let mut tally = Tally::new();
    refuses(&mut register, Refusal::NoOutline, |r| {
        r.split(64, 9, 9, &[BEYOND]).err()
    });
    refuses(&mut register, Refusal::NoOutline, |r| {
        r.merge((64, 9), (64, 9), 0).err()
    });
    assert_eq!(register.assign(BEYOND, 0), Err(Refusal::NoOutline));
    assert_eq!(
        register.assign_counted(BEYOND, 0, &mut tally),
        Err(Refusal::NoOutline)
    );
    for points in [&[][..], &[(BEYOND, 0)]] {
        assert_eq!(register.assign_all(points), Err(Refusal::NoOutline));
        assert_eq!(
            register.assign_all_counted(points, &mut tally),
            Err(Refusal::NoOutline)
        );
    }
    assert_eq!(tally, Tally::new());
    refuses_positions(&register, |_| Refusal::NoOutline);
}

#[test]
fn founding_refuses() {
    let mut register = Register::new();
    refuses(&mut register, Refusal::NoRing, |r| r.found(&[]).err());
    refuses(&mut register, Refusal::NoRing, |r| r.found(&S[..7]).err());
    refuses(&mut register, Refusal::NoRing, |r| {
        r.found(&[BEYOND; 2 * 2]).err()
    });
    refuses(&mut register, Refusal::NoRing, |r| {
        r.found(&[0; 2 * 2049]).err()
    });
    refuses(&mut register, Refusal::BeyondGrid, |r| {
        r.found(&[0, 0, 4, 0, 4, -BEYOND]).err()
    });
    refuses(&mut founded(), Refusal::OutlineThere, |r| {
        r.found(&[]).err()
    });
}

#[test]
fn splitting_refuses() {
    let mut register = founded();
    for (refusal, (d, i, j), path) in [
        (Refusal::BadNumber, (1, 9, 9), &[BEYOND][..]),
        (Refusal::BadNumber, (64, 0, 2), &[]),
        (Refusal::BadNumber, (usize::MAX, 0, 2), &[]),
        (Refusal::BadIndex, (0, 4, 2), &[BEYOND]),
        (Refusal::BadIndex, (0, 0, usize::MAX), &[]),
        (Refusal::BadIndex, (0, 2, 2), &[]),
        (Refusal::NoRing, (0, 0, 1), &[BEYOND]),
        (Refusal::BeyondGrid, (0, 0, 2), &[0, BEYOND]),
        (Refusal::TooFew, (0, 0, 1), &[]),
        (Refusal::TooFew, (0, 0, 3), &[]),
    ] {
        refuses(&mut register, refusal, |r| r.split(d, i, j, path).err());
    }
}

#[test]
fn a_full_store() {
    let triangle = &S[..2 * 3];
    // With 1,022 points on the path, 2,050 vertices from the square and 2,049 from the triangle.
    let path = [1; 2 * 1022];
    for ring in [S, triangle] {
        let mut register = Register::new();
        register.found(ring).unwrap();
        refuses(&mut register, Refusal::NoRoom, |r| {
            r.split(0, 0, 2, &path).err()
        });
        assert_eq!(register.split(0, 0, 2, &path[2..]), Ok(1));
    }
}

#[test]
fn sixty_four_districts() {
    let mut register = founded();
    for number in 1..NUMBERS {
        assert_eq!(register.split(0, 0, 1, &[2, 2]), Ok(number));
    }
    refuses(&mut register, Refusal::NumbersInUse, |r| {
        r.split(0, 0, 1, &[2; 2 * 2048]).err()
    });
}

#[test]
fn merging_refuses() {
    let mut register = founded();
    register.split(0, 0, 2, &[]).unwrap();
    for (refusal, kept, gone, k) in [
        (Refusal::BadNumber, (2, 9), (2, 9), 0),
        (Refusal::BadNumber, (0, 9), (64, 9), 0),
        (Refusal::SameDistrict, (0, 9), (0, 9), 0),
        (Refusal::BadIndex, (0, 3), (1, 0), 0),
        (Refusal::BadIndex, (0, 2), (1, usize::MAX), 1),
        (Refusal::NoMatch, (0, 2), (1, 0), 0),
        (Refusal::NoMatch, (0, 2), (1, 0), 2),
        (Refusal::NoMatch, (0, 2), (1, 0), usize::MAX),
        (Refusal::NoMatch, (0, 1), (1, 0), 1),
    ] {
        refuses(&mut register, refusal, |r| r.merge(kept, gone, k).err());
    }
}

#[test]
fn a_merge_that_leaves_too_few() {
    let spike = [0, 0, 4, 0, 4, 4, 4, 0];
    let mut register = Register::new();
    register.found(&spike).unwrap();
    register.split(0, 0, 2, &[]).unwrap();
    refuses(&mut register, Refusal::TooFew, |r| {
        r.merge((0, 0), (1, 2), 2).err()
    });
}

#[test]
fn damaged_lists() {
    fn with(change: impl Fn(&mut Lists)) -> Register {
        let mut register = founded();
        register.split(0, 0, 2, &[]).unwrap();
        let mut lists = register.lists().clone();
        change(&mut lists);
        Register::from_lists(lists)
    }
    // Where the runs tell of the outline's size, and of district 1's first place and size.
    const OUTLINE: usize = 0;
    const PLACE: usize = 1 + 1;
    const SIZE: usize = 1 + NUMBERS + 1;
    // The last vertex of the outline and of the store.
    const LAST_OF_OUTLINE: usize = 3;
    const LAST_OF_STORE: usize = 5;
    for mut register in [
        Register::from_lists(no_lists()),
        with(|lists| lists.outline_x.truncate(COLUMN_LENGTH - 1)),
        with(|lists| lists.outline_x.push(0)),
        with(|lists| lists.outline_y.truncate(COLUMN_LENGTH - 1)),
        with(|lists| lists.outline_y.push(0)),
        with(|lists| lists.store_x.truncate(COLUMN_LENGTH - 1)),
        with(|lists| lists.store_x.push(0)),
        with(|lists| lists.store_y.truncate(COLUMN_LENGTH - 1)),
        with(|lists| lists.store_y.push(0)),
        with(|lists| lists.runs.truncate(RUNS_LENGTH - 1)),
        with(|lists| lists.runs.push(0)),
        with(|lists| lists.runs[OUTLINE] = 0),
        with(|lists| lists.runs[OUTLINE] = 2),
        with(|lists| lists.runs[OUTLINE] = u32::MAX),
        with(|lists| lists.runs[PLACE] -= 1),
        with(|lists| lists.runs[PLACE] += 1),
        with(|lists| lists.runs[PLACE] = u32::MAX),
        with(|lists| lists.runs[SIZE] = 2),
        with(|lists| lists.runs[SIZE] = u32::MAX),
        with(|lists| lists.outline_x[0] = BEYOND),
        with(|lists| lists.outline_x[LAST_OF_OUTLINE] = -BEYOND),
        with(|lists| lists.outline_y[0] = -BEYOND),
        with(|lists| lists.outline_y[LAST_OF_OUTLINE] = BEYOND),
        with(|lists| lists.store_x[0] = -BEYOND),
        with(|lists| lists.store_x[LAST_OF_STORE] = BEYOND),
        with(|lists| lists.store_y[0] = BEYOND),
        with(|lists| lists.store_y[LAST_OF_STORE] = -BEYOND),
    ] {
        let mut tally = Tally::new();
        assert!(!register.is_well_formed());
        refuses(&mut register, Refusal::NotWellFormed, |r| r.found(S).err());
        refuses(&mut register, Refusal::NotWellFormed, |r| {
            r.split(0, 0, 2, &[]).err()
        });
        refuses(&mut register, Refusal::NotWellFormed, |r| {
            r.merge((0, 2), (1, 0), 1).err()
        });
        assert_eq!(register.assign(3, 1), Err(Refusal::NotWellFormed));
        assert_eq!(
            register.assign_counted(3, 1, &mut tally),
            Err(Refusal::NotWellFormed)
        );
        for points in [&[][..], &[(3, 1), (BEYOND, 0)]] {
            assert_eq!(register.assign_all(points), Err(Refusal::NotWellFormed));
            assert_eq!(
                register.assign_all_counted(points, &mut tally),
                Err(Refusal::NotWellFormed)
            );
        }
        assert_eq!(tally, Tally::new());
        refuses_positions(&register, |_| Refusal::NotWellFormed);
        for d in 0..=NUMBERS {
            register.district(d);
        }
        register.outline();
    }
}

#[test]
fn free_room_has_no_meaning() {
    let litter = || vec![i32::MIN; COLUMN_LENGTH];
    let mut register = Register::from_lists(Lists {
        outline_x: litter(),
        outline_y: litter(),
        store_x: litter(),
        store_y: litter(),
        runs: vec![0; RUNS_LENGTH],
    });
    assert_eq!(register.found(S), Ok(()));
    assert_eq!(register.assign(2, 2), Ok(Class::One(0)));
}

#[test]
fn a_report_beyond_the_grid() {
    let mut tally = Tally::new();
    assert_eq!(founded().assign(0, i32::MIN), Err(Refusal::BeyondGrid));
    assert_eq!(
        founded().assign_counted(BEYOND, 0, &mut tally),
        Err(Refusal::BeyondGrid)
    );
    assert_eq!(tally, Tally::new());
}

#[test]
fn many_reports_at_once() {
    let mut register = founded();
    register.split(0, 0, 1, &[2, 9]).unwrap();
    let several = Class::Several {
        lowest: 0,
        count: 2,
    };
    let (points, answers): (Vec<_>, Vec<_>) = [
        ((2, 2), Ok(Class::One(0))),
        ((2, 6), Ok(several)),
        ((BEYOND, 2), Err(Refusal::BeyondGrid)),
        ((2, 9), Ok(border(0, vertex(2, 2)))),
        ((4, 2), Ok(border(1, edge(0, 0)))),
        ((0, i32::MIN), Err(Refusal::BeyondGrid)),
        ((9, 9), Ok(Class::None)),
    ]
    .into_iter()
    .unzip();
    for n in 0..=points.len() {
        let first = register.assign_all(&points[..n]);
        assert_eq!(first.as_deref(), Ok(&answers[..n]));
    }
    for (&(x, y), &answer) in points.iter().zip(&answers) {
        assert_eq!(register.assign(x, y), answer, "({x}, {y})");
    }
    let again = register.assign_all(&[(2, 2); 10_000]);
    assert_eq!(again, Ok(vec![Ok(Class::One(0)); 10_000]));
}

#[test]
fn many_reports_counted_at_once() {
    let register = founded();
    let mut counts = [0; COUNTS];
    counts[0] = u32::MAX - 2;
    let mut tally = Tally::from_counts(counts);
    let points = [(2, 2), (9, 9), (2, 3), (BEYOND, 2), (3, 3), (4, 2), (1, 1)];
    let answers = vec![
        Ok(Class::One(0)),
        Ok(Class::None),
        Ok(Class::One(0)),
        Err(Refusal::BeyondGrid),
        Err(Refusal::CountFull),
        Ok(border(0, edge(1, 1))),
        Err(Refusal::CountFull),
    ];
    let mut by_one = tally.clone();
    for (&(x, y), &answer) in points.iter().zip(&answers) {
        let alone = register.assign_counted(x, y, &mut by_one);
        assert_eq!(alone, answer, "({x}, {y})");
    }
    let all = register.assign_all_counted(&points, &mut tally);
    assert_eq!(all, Ok(answers));
    assert_eq!(tally, by_one);
    assert_eq!(
        (tally.one(0), tally.none(), tally.border(), tally.several()),
        (u32::MAX, 1, 1, 0)
    );
    assert_eq!(register.assign_all_counted(&[], &mut tally), Ok(Vec::new()));
    assert_eq!(tally, by_one);
}

#[test]
fn known_fixes() {
    for (metres, n) in [
        (0.0625, 62),
        (0.1875, 188),
        (-0.0625, -62),
        (-0.1875, -188),
        (0.0, 0),
        (-0.0, 0),
        (0.0005, 1),
        (2.0005, 2001),
        (-2.0005, -2001),
        (f64::MIN_POSITIVE, 0),
        (1_000_000.0, LIMIT),
        (1_000_000.000_5, LIMIT),
        (-1_000_000.000_4, -LIMIT),
    ] {
        assert_eq!(millimetres(metres, 0.003), Ok((n, 3)), "{metres}");
        assert_eq!(millimetres(0.003, metres), Ok((3, n)), "{metres}");
    }
}

#[test]
fn fixes_that_are_nowhere() {
    let signalling = f64::from_bits(0x7FF0_0000_0000_0001);
    for nothing in [
        f64::NAN,
        -f64::NAN,
        signalling,
        f64::INFINITY,
        f64::NEG_INFINITY,
    ] {
        for other in [0.0, 1e300, nothing] {
            assert_eq!(millimetres(nothing, other), Err(Refusal::NotFinite));
            assert_eq!(millimetres(other, nothing), Err(Refusal::NotFinite));
        }
    }
    for far in [
        1_000_000.000_500_000_1,
        -1_000_000.000_6,
        4_294_967.296,
        f64::MIN,
    ] {
        assert_eq!(millimetres(far, 0.0), Err(Refusal::BeyondGrid), "{far}");
        assert_eq!(millimetres(0.0, far), Err(Refusal::BeyondGrid), "{far}");
    }
}

#[test]
fn reports_by_position() {
    let mut register = founded();
    let mut tally = Tally::new();
    register.split(0, 0, 2, &[]).unwrap();
    for (position, class) in [
        (Position::Grid { x: 3, y: 1 }, Class::One(0)),
        (fix(0.003, 0.001), Class::One(0)),
        (fix(0.001, 0.003), Class::One(1)),
        (fix(0.00251, 0.00149), Class::One(0)),
        (fix(0.00249, 0.00151), border(0, edge(2, 2))),
        (fix(0.0046, 0.001), Class::None),
        // As a double a little less than four and a half millimetres.
        (fix(0.0045, 0.001), border(0, edge(1, 1))),
        (fix(-0.0005, -0.0), Class::None),
        (fix(-0.0004, -0.0), border(0, vertex(0, 0))),
    ] {
        assert_eq!(register.assign_at(position), Ok(class), "{position:?}");
        assert_eq!(register.assign_at_counted(position, &mut tally), Ok(class));
    }
    assert_eq!((tally.one(0), tally.one(1)), (3, 1));
    assert_eq!((tally.border(), tally.none()), (3, 2));
    refuses_positions(&register, |own| own);
}

#[test]
fn a_tally_at_its_limit() {
    let mut register = founded();
    register.split(0, 0, 1, &[2, 9]).unwrap();
    let almost = Tally::from_counts([u32::MAX - 1; COUNTS]);
    for ((x, y), class) in [
        ((2, 2), Class::One(0)),
        ((2, 9), border(0, vertex(2, 2))),
        ((9, 9), Class::None),
        (
            (2, 6),
            Class::Several {
                lowest: 0,
                count: 2,
            },
        ),
    ] {
        let mut tally = almost.clone();
        assert_eq!(register.assign_counted(x, y, &mut tally), Ok(class));
        let full = tally.clone();
        let raised = tally
            .counts()
            .iter()
            .filter(|&&count| count == u32::MAX)
            .count();
        assert_eq!(raised, 1);
        assert_eq!(
            register.assign_counted(x, y, &mut tally),
            Err(Refusal::CountFull)
        );
        let in_metres = fix(f64::from(x) / 1000.0, f64::from(y) / 1000.0);
        assert_eq!(
            register.assign_at_counted(in_metres, &mut tally),
            Err(Refusal::CountFull)
        );
        assert_eq!(tally, full);
        assert_eq!(
            register.assign_counted(BEYOND, y, &mut tally),
            Err(Refusal::BeyondGrid)
        );
    }
}

#[test]
fn refusals_have_the_documents_numbers() {
    let numbers = Refusal::ALL.map(Refusal::number);
    assert_eq!(numbers, [1, 2, 3, 4, 5, 6, 7, 8, 9, 10, 11, 12, 14, 18, 19]);
    assert_eq!(
        Refusal::NoOutline.to_string(),
        "the register has no outline yet"
    );
}

#[test]
fn registers_are_compared_and_shown_by_their_districts() {
    let square = [0, 0, 4, 0, 4, 4, 0, 4];
    let mut split = Register::new();
    split.found(&square).unwrap();
    split.split(0, 0, 2, &[]).unwrap();
    // The same districts again, with litter in the free room.
    let mut littered = split.lists().clone();
    for column in [
        &mut littered.outline_x,
        &mut littered.outline_y,
        &mut littered.store_x,
        &mut littered.store_y,
    ] {
        column[COLUMN_LENGTH - 1] = 7;
    }
    assert_eq!(split, Register::from_lists(littered));
    let mut whole = Register::new();
    whole.found(&square).unwrap();
    assert_ne!(split, whole);
    assert_eq!(
        format!("{:?}", whole),
        "Register { outline: Some(Ring { x: [0, 4, 4, 0], y: [0, 0, 4, 4] }), \
         districts: {0: Ring { x: [0, 4, 4, 0], y: [0, 0, 4, 4] }} }"
    );
    let damaged = Register::from_lists(no_lists());
    assert_eq!(damaged, damaged.clone());
    assert_ne!(damaged, whole);
    assert_eq!(
        format!("{:?}", damaged),
        "DamagedRegister(Lists { outline_x: [], outline_y: [], store_x: [], store_y: [], runs: [] })"
    );
}
