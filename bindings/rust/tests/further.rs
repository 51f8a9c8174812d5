//! Removing, building up, L and U, the transposed solve, files, texts, triangles and swap lists: once as they are meant, and once refused.
use wejdarox::{moves, solve_triangular, text, why_text, Lu, Panel, Refusal, SwapList, Triangle};

#[test]
fn removing_undoes_adding() {
    let mut lu = Lu::factor(&[0.0, 2.0, 4.0, 1.0, 0.0, 3.0], 3, 2).expect("accepted");
    let (before, swaps): (Vec<f64>, Vec<_>) = (lu.factors().to_vec(), lu.swaps().collect());
    lu.add_column(&[5.0, 6.0, 7.0]).expect("accepted");
    let grown = Lu::build_up(&[0.0, 2.0, 4.0, 1.0, 0.0, 3.0, 5.0, 6.0, 7.0], 3, 3).expect("accepted");
    assert_eq!((lu.factors(), lu.swaps().len()), (grown.factors(), grown.swaps().len()));
    lu.remove_column().expect("accepted");
    assert_eq!((lu.factors(), lu.swaps().collect::<Vec<_>>(), lu.columns()), (&before[..], swaps, 2));
    assert_eq!((lu.l().len(), lu.u().len()), (6, 4));
    lu.remove_column().and_then(|()| lu.remove_column()).expect("accepted");
    assert_eq!((lu.remove_column(), lu.columns(), lu.l(), lu.u()), (Err(Refusal::Size), 0, vec![], vec![]));
    assert_eq!(Lu::build_up(&[1.0], 1, 2).unwrap_err(), Refusal::Length);
    assert_eq!(lu.tr_solve(&[1.0; 3], 1), Err(Refusal::NotSquare));
}

#[test]
fn panels() {
    let panel = |matrix: &[f64], readings: &[f64]| Panel { matrix: matrix.to_vec(), readings: readings.to_vec() };
    let file = panel(&[0.0, 2.0, 1.0, 0.0], &[5.0, 8.0]).write().expect("accepted");
    assert_eq!(text(&file), "pads 2\n2 4014000000000000\n1 4010000000000000\n");
    assert_eq!(why_text(&file), "no reason\n");
    assert_eq!((moves(&file, 0), moves(&file, 3)), (Err(Refusal::Size), Err(Refusal::Size)));
    assert_eq!(Panel::read(&file[..53]), Err(Refusal::Length));
    assert_eq!(panel(&[], &[]).write(), Err(Refusal::Size));
    assert_eq!(panel(&[1.0; 65 * 65], &[1.0; 65]).write(), Err(Refusal::Size));
    assert_eq!(panel(&[1.0; 3], &[1.0; 2]).write(), Err(Refusal::Length));
    assert_eq!(panel(&[f64::NAN], &[1.0]).write(), Err(Refusal::NotFinite));
}

#[test]
fn triangles_and_swap_lists() {
    let (t, b) = ([2.0, 4.0, 0.0, 0.0], [2.0, 12.0]);
    for (by, wanted) in [
        (Triangle::Lower, Err(Refusal::Singular)),
        (Triangle::Upper, Err(Refusal::Singular)),
        (Triangle::TransposedUpper, Err(Refusal::Singular)),
        (Triangle::LowerWithDiag(2.0), Ok(vec![2.0, 8.0])),
        (Triangle::LowerWithDiagCorrected(2.0), Ok(vec![1.0, 4.0])),
        (Triangle::LowerWithDiag(-0.0), Err(Refusal::Singular)),
    ] {
        assert_eq!(solve_triangular(by, &t, 2, &b, 1), wanted);
    }
    assert_eq!(solve_triangular(Triangle::TransposedLower, &[2.0, 4.0, 0.0, 8.0], 2, &b, 1), Ok(vec![-2.0, 1.5]));
    let mut list = SwapList::new(1);
    assert_eq!((list.append(0, 2), list.append(0, 1), list.append(1, 1)), (Ok(()), Err(Refusal::SwapList), Ok(())));
    assert_eq!((list.pairs().collect::<Vec<_>>(), list.sign()), (vec![(0, 2)], -1.0));
    let mut a = [1.0, 2.0, 3.0];
    assert_eq!((list.permute_rows(&mut a, 1, 3), a), (Err(Refusal::SwapList), [1.0, 2.0, 3.0]));
    assert_eq!((list.permute_columns(&mut a, 1, 3), a), (Ok(()), [3.0, 2.0, 1.0]));
    assert_eq!((list.inv_permute_columns(&mut a, 1, 3), a), (Ok(()), [1.0, 2.0, 3.0]));
    assert_eq!(SwapList::new(65).append(0, 1), Err(Refusal::Size));
}
