//! Every refusal, with sizes and lengths that are anything; and a refused call leaves the type as it was.
use wejdarox::{pad_order, rank, rank_all, stiffness, Lu, Pass, Refusal, Scaled, Season, WhyFactor, WhySolve};

/// All that can be seen of factors.
fn seen(lu: &Lu) -> ([usize; 4], Vec<u64>, Vec<(usize, usize)>) {
    let numbers = [lu.rows(), lu.columns(), lu.dead_columns(), lu.toss_ups()];
    (numbers, lu.factors().iter().map(|x| x.to_bits()).collect(), lu.swaps().collect())
}

/// A scaled number's bits, by which +0.0 is told from -0.0.
fn bits(x: Scaled) -> (u64, i32) {
    (x.significand.to_bits(), x.exponent)
}

fn refused<T>(answer: Result<T, Refusal>) -> usize {
    answer.err().map_or(0, Refusal::number)
}

#[test]
fn sizes_and_lengths() {
    let large = vec![1.0; 70 * 70];
    let sizes = [0, 1, 2, 63, 64, 65, 1 << 32, usize::MAX / 8 + 1, usize::MAX];
    for rows in sizes {
        for columns in sizes {
            for length in [0, 1, 2, 4, 63, 64, 128, 4096, 4900] {
                let wanted = if !(1..=64).contains(&rows) || columns > 64 {
                    1
                } else if rows * columns != length {
                    3
                } else {
                    0
                };
                assert_eq!(refused(Lu::factor(&large[..length], rows, columns)), wanted, "{rows} by {columns} of {length}");
            }
        }
    }
    let lu = Lu::factor(&[2.0, 0.0, 0.0, 4.0], 2, 2).expect("a diagonal");
    for k in sizes {
        for length in [0, 1, 2, 4, 128, 4900] {
            let wanted = if !(1..=64).contains(&k) {
                1
            } else if 2 * k != length {
                3
            } else {
                0
            };
            assert_eq!(refused(lu.solve(&large[..length], k)), wanted, "{k} right-hand columns of {length}");
        }
    }
    for ranks in [rank, rank_all] {
        assert_eq!(refused(ranks(&[])), 1);
        assert_eq!(refused(ranks(&large)), 1);
    }
}

#[test]
fn not_square() {
    for (rows, columns) in [(1, 0), (2, 1), (1, 2), (64, 63)] {
        let lu = Lu::factor(&vec![1.0; rows * columns], rows, columns).expect("any shape is factored");
        assert_eq!(lu.solve(&vec![1.0; rows], 1), Err(Refusal::NotSquare));
        assert_eq!(lu.inverse(), Err(Refusal::NotSquare));
        assert_eq!(lu.determinant(), Err(Refusal::NotSquare));
        assert_eq!(lu.scaled_determinant(), Err(Refusal::NotSquare));
        assert_eq!(lu.is_invertible(), Err(Refusal::NotSquare));
    }
}

#[test]
fn not_finite() {
    let lu = Lu::factor(&[1.0], 1, 1).expect("one");
    for x in [f64::INFINITY, f64::NEG_INFINITY, f64::NAN, -f64::NAN] {
        assert_eq!(refused(Lu::factor(&[1.0, x], 2, 1)), 5);
        assert_eq!(refused(lu.solve(&[x], 1)), 5);
        assert_eq!(refused(rank(&[0.0, x])), 5);
        assert_eq!(refused(rank_all(&[0.0, x])), 5);
        assert_eq!(refused(Lu::factor(&[1.0, 1.0], 2, 1).expect("finite").add_column(&[x, 1.0])), 5);
    }
}

#[test]
fn singular() {
    let lu = Lu::factor(&[1.0, 2.0, 2.0, 4.0], 2, 2).expect("a zero pivot is no refusal of factoring");
    assert_eq!(lu.dead_columns(), 1);
    assert_eq!(lu.is_invertible(), Ok(false));
    assert_eq!(lu.determinant().map(f64::abs), Ok(0.0));
    assert_eq!(lu.scaled_determinant().map(bits), Ok((0, 0)));
    assert_eq!(lu.solve(&[1.0, 1.0], 1), Err(Refusal::Singular));
    assert_eq!(lu.inverse(), Err(Refusal::Singular));
}

#[test]
fn dead_columns() {
    let mut lu = Lu::factor(&[], 2, 0).expect("no columns");
    assert_eq!(lu.dead_columns(), 0);
    for (column, dead) in [([0.0, -0.0], 1), ([-1.0, -0.0], 2), ([0.0, 0.0], 2)] {
        lu.add_column(&column).expect("finite");
        assert_eq!(lu.dead_columns(), dead, "{} columns", lu.columns());
    }
    assert_eq!(Lu::factor(&[0.0; 4096], 64, 64).expect("zeros").dead_columns(), 64);
    assert_eq!(Lu::factor(&[0.0; 64], 1, 64).expect("zeros").dead_columns(), 1);
    assert_eq!(Lu::factor(&[1.0, 0.0, 0.0, 1.0], 2, 2).expect("the identity").dead_columns(), 0);
}

#[test]
fn overflow() {
    let tiny = f64::from_bits(1);
    assert_eq!(refused(Lu::factor(&[tiny, tiny], 2, 1)), 7);
    let lu = Lu::factor(&[tiny], 1, 1).expect("the last pivot's reciprocal is not formed");
    assert_eq!(lu.solve(&[1.0], 1), Err(Refusal::Overflow));
    assert_eq!(lu.inverse(), Err(Refusal::Overflow));
    let large = Lu::factor(&[f64::MAX, 0.0, 0.0, f64::MAX], 2, 2).expect("finite factors");
    assert_eq!(large.determinant(), Err(Refusal::Overflow));
    assert_eq!(large.scaled_determinant(), Ok(Scaled { significand: 2.0 - 2f64.powi(-51), exponent: 2047 }));
    assert_eq!(large.is_invertible(), Ok(true));
}

#[test]
fn refused_adding_leaves_all() {
    let mut lu = Lu::factor(&[0.0, 2.0, 1.0], 3, 1).expect("a column");
    let before = seen(&lu);
    assert_eq!(before.2, [(0, 1)]);
    assert_eq!(lu.add_column(&[1.0, 2.0]), Err(Refusal::Length));
    assert_eq!(lu.add_column(&vec![1.0; 5000]), Err(Refusal::Length));
    assert_eq!(lu.add_column(&[1.0, f64::NAN, 0.0]), Err(Refusal::NotFinite));
    assert_eq!(lu.add_column(&[f64::from_bits(1), 0.0, f64::from_bits(1)]), Err(Refusal::Overflow));
    assert_eq!(seen(&lu), before);
    lu.add_column(&[1.0, 0.0, 0.0]).expect("it fits");
    assert_eq!((lu.columns(), lu.factors().len()), (2, 6));

    let mut dead = Lu::factor(&[0.0; 3], 3, 1).expect("zeros");
    let before = seen(&dead);
    assert_eq!(before.0, [3, 1, 1, 0]);
    assert_eq!(dead.add_column(&[0.0, f64::INFINITY, 0.0]), Err(Refusal::NotFinite));
    assert_eq!(dead.add_column(&[0.0, f64::from_bits(1), 0.0]), Err(Refusal::Overflow));
    assert_eq!(seen(&dead), before);

    let mut full = Lu::factor(&[1.0; 64], 1, 64).expect("64 columns");
    let before = seen(&full);
    assert_eq!(full.add_column(&[1.0]), Err(Refusal::Size));
    assert_eq!(seen(&full), before);
}

#[test]
fn panel_file() {
    let files: [(&[u8], usize); 7] = [
        (&[], 8),
        (b"LXQ\x01\x00\x01", 8),
        (b"LXP\x02\x00\x01", 8),
        (b"LXP\x01\x00\x00", 1),
        (b"LXP\x01\x00\x41", 1),
        (b"LXP\x01\x00\x01", 3),
        (&[0; 40000], 8),
    ];
    for (file, number) in files {
        assert_eq!(refused(pad_order(file)), number);
        assert_eq!(refused(stiffness(file)), number);
    }
}

#[test]
fn a_determinant_that_does_not_vanish() {
    let tiny = f64::from_bits(1);
    let soft = Lu::factor(&[2f64.powi(-600), 0.0, 0.0, 1.25 * 2f64.powi(-600)], 2, 2).expect("finite factors");
    assert_eq!(soft.determinant(), Ok(0.0));
    assert_eq!(soft.scaled_determinant().map(|d| d.to_string()), Ok("1.25 × 2^-1200".to_owned()));
    let swapped = Lu::factor(&[0.0, 2.0, 1.0, 0.0], 2, 2).expect("one swap");
    assert_eq!(swapped.scaled_determinant().map(|d| d.to_string()), Ok("-1 × 2^1".to_owned()));
    assert_eq!(Lu::factor(&[-0.0], 1, 1).expect("a zero").scaled_determinant().map(bits), Ok((0, 0)));
    assert_eq!(Lu::factor(&[0.0], 1, 1).expect("a zero").scaled_determinant().map(|d| d.to_string()), Ok("0".to_owned()));
    assert_eq!(Lu::factor(&[tiny], 1, 1).expect("subnormal").scaled_determinant(), Ok(Scaled { significand: 1.0, exponent: -1074 }));
    assert_eq!(Lu::factor(&[3.0 * tiny], 1, 1).expect("subnormal").scaled_determinant(), Ok(Scaled { significand: 1.5, exponent: -1073 }));
}

#[test]
fn season() {
    let number = |x: f64| x.to_le_bytes();
    let one_pad = |x: f64, reading: f64| [b"LXP\x01\x00\x01".to_vec(), number(x).to_vec(), number(reading).to_vec()].concat();
    let files = [one_pad(1.0, 1.0), one_pad(-2f64.powi(-600), 0.0), one_pad(0.0, 1.0), one_pad(2f64.powi(-1000), 2f64.powi(100)), vec![]];
    let of = |files: &[Vec<u8>]| files.iter().try_fold(Season::new(), |season, file| season.with_file(file));
    let wanted = Season { accepted: 2, refused: [0, 0, 0, 0, 0, 1, 1, 1, 0], pads: 1, bands: [0, 1, 0, 1, 0], files: 5 };
    assert_eq!(of(&files), Ok(wanted));
    let backwards: Vec<_> = files.into_iter().rev().collect();
    assert_eq!(of(&backwards), Ok(wanted));

    let full = Season { refused: [0, 0, 0, 0, 0, 0, 0, 4000, 0], files: 4000, ..Season::new() };
    assert_eq!(of(&vec![vec![]; 4000]), Ok(full));
    assert_eq!(full.with_file(&one_pad(1.0, 1.0)), Err(Refusal::SeasonFull));
    let wraps = Season { accepted: usize::MAX, ..Season::new() };
    assert_eq!(wraps.with_file(&one_pad(1.0, 1.0)).map(|season| season.accepted), Ok(0));
}

#[test]
fn words() {
    assert_eq!(Refusal::Singular.to_string(), "refused 6: the matrix is singular: a zero on the diagonal of its factors");
    assert_eq!(Refusal::DeadColumns.to_string(), "refused 9: the number of dead columns is not that of the factors");
    let boxed: Box<dyn std::error::Error> = Box::new(Refusal::NotAPanelFile);
    assert!(boxed.to_string().starts_with("refused 8: "));
}

/// An explanation has the number of the call that it explains, and there is none where that is accepted.
#[test]
fn reasons_of_factoring() {
    let matrices: [(&[f64], usize, usize); 6] = [
        (&[2.0, 0.0, 0.0, 4.0], 2, 2),
        (&[2.0, 0.0, 0.0], 2, 2),
        (&[f64::NAN], 1, 1),
        (&[], 0, 0),
        (&[5e-324, 0.0], 2, 1),
        (&[1.0, 2.0, 0.0, 1.5e308, -1.5e308, 0.0], 3, 2),
    ];
    for (a, rows, columns) in matrices {
        let told = Lu::why_factor(a, rows, columns).map_or(0, |why| why.refusal().number());
        assert_eq!(told, refused(Lu::factor(a, rows, columns)), "{a:?}");
    }
    assert_eq!(Lu::why_factor(&[f64::NAN], 1, 1), Some(WhyFactor::Refused(Refusal::NotFinite)));
    // 1 / 2^-1074 overflows: 0 times it is a NaN, below the first pivot
    assert_eq!(Lu::why_factor(&[5e-324, 0.0], 2, 1), Some(WhyFactor::Overflow { step: 0, column: 0, row: 1 }));
    // the second column, after rows 0 and 1 were exchanged: 1.5e308 - 0.5 * -1.5e308
    let overflow = Lu::why_factor(&[1.0, 2.0, 0.0, 1.5e308, -1.5e308, 0.0], 3, 2);
    assert_eq!(overflow, Some(WhyFactor::Overflow { step: 0, column: 1, row: 1 }));
    assert_eq!(overflow.map(|why| why.to_string()).as_deref(), Some("a number is too large after step 1, in column 2, row 2"));
}

#[test]
fn reasons_of_a_solve() {
    let lu = Lu::factor(&[1.0, 0.5, 0.0, 0.25], 2, 2).expect("finite");
    assert_eq!(lu.why_solve(&[1.0, 2.0], 1), None);
    assert_eq!(lu.why_solve(&[1.0], 1), Some(WhySolve::Refused(Refusal::Length)));
    assert_eq!(lu.why_solve(&[1.0, f64::INFINITY], 1), Some(WhySolve::Refused(Refusal::NotFinite)));
    // the upper pass divides 1.7e308 by 0.25 in the second right-hand column
    let overflow = lu.why_solve(&[1.0, 1.0, 0.0, 1.7e308], 2);
    assert_eq!(overflow, Some(WhySolve::Overflow { pass: Pass::Upper, column: 1, row: 1 }));
    assert_eq!(overflow.map(|why| why.to_string()).as_deref(), Some("a number is too large in the upper pass, in right-hand column 2, row 2"));
    // the lower pass takes half of -1.7e308 off 1.7e308
    let down = lu.why_solve(&[-1.7e308, 1.7e308], 1);
    assert_eq!(down, Some(WhySolve::Overflow { pass: Pass::Lower, column: 0, row: 1 }));
    let dead = Lu::factor(&[1.0, 2.0, 2.0, 4.0], 2, 2).expect("finite");
    assert_eq!(dead.why_solve(&[1.0, 2.0], 1), Some(WhySolve::Singular { column: 1 }));
    assert_eq!(dead.why_solve(&[1.0, 2.0], 1).map(|why| why.to_string()).as_deref(), Some("column 2 is dead"));
}
