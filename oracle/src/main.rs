// DRIVER (ours): reads cases in the replay program's format, runs the crate's own calls on them, prints one line for each.
// It tests nothing: whoever asks sends only cases whose sizes, lengths and swap lists are good.
use rustoracle::base::{dimension::Dyn, OMatrix};
use rustoracle::linalg::{PermutationSequence, LU};
use std::io::{Read, Write};
use std::panic::{catch_unwind, AssertUnwindSafe};

type M = OMatrix<f64, Dyn, Dyn>;
type P = PermutationSequence<Dyn>;

// ---- reading cases

struct Reader<'a> {
    bytes: &'a [u8],
    at: usize,
}

impl<'a> Reader<'a> {
    fn take(&mut self, count: usize) -> &'a [u8] {
        self.at += count;
        &self.bytes[self.at - count..self.at]
    }
    fn word(&mut self) -> u64 { u64::from_le_bytes(self.take(8).try_into().unwrap()) }
    fn slice(&mut self) -> Vec<u64> {
        let count = u16::from_le_bytes(self.take(2).try_into().unwrap());
        (0..count).map(|_| self.word()).collect()
    }
}

struct Case {
    op: u8,
    m: usize,
    n: usize,
    k: usize,
    slices: Vec<Vec<u64>>,
}

fn slices_of(op: u8) -> usize {
    match op {
        1 | 5 | 6 | 9 | 10 | 12 | 13 | 14..=18 => 3,
        4 | 7 | 8 | 11 => 4,
        3 => 5,
        _ => panic!("the crate has no call for op {op}"),
    }
}

fn read(r: &mut Reader) -> Case {
    let op = r.take(1)[0];
    let (m, n, k) = (r.word() as usize, r.word() as usize, r.word() as usize);
    Case { op, m, n, k, slices: (0..slices_of(op)).map(|_| r.slice()).collect() }
}

impl Case {
    fn matrix(&self, slice: usize, rows: usize, columns: usize) -> M {
        M::from_vec(rows, columns, self.slices[slice].iter().map(|b| f64::from_bits(*b)).collect())
    }
    fn list(&self, swaps: usize, room: usize) -> P {
        let mut p = P::identity(room);
        let pairs = self.slices[swaps + 1][0] as usize; // beside factors the dead columns follow, of which the crate knows nothing
        for pair in self.slices[swaps][..2 * pairs].chunks(2) {
            p.append_permutation(pair[0] as usize, pair[1] as usize);
        }
        p
    }
    fn factors(&self) -> LU<f64, Dyn, Dyn> { LU::from_raw(self.matrix(0, self.m, self.n), self.list(1, 64)) }
}

// ---- printing

fn number(o: &mut Vec<u8>, x: f64) {
    if x.is_nan() {
        o.extend_from_slice(b"nan");
        return;
    }
    let bits = x.to_bits();
    for d in (0..16).rev() {
        o.push(b"0123456789abcdef"[(bits >> (4 * d) & 15) as usize]);
    }
}

fn numbers(o: &mut Vec<u8>, m: &M) {
    for (i, x) in m.data.data.iter().enumerate() {
        if i > 0 { o.push(b' ') }
        number(o, *x);
    }
}

fn list(o: &mut Vec<u8>, p: &P) {
    let words: Vec<String> = p.pairs().iter().map(|(i, j)| format!("{i} {j}")).collect();
    o.extend_from_slice(words.join(" ").as_bytes());
}

fn solution(o: &mut Vec<u8>, x: Option<M>) {
    match x {
        None => o.extend_from_slice(b"none"),
        Some(x) => numbers(o, &x),
    }
}

// ---- the calls

fn same(a: &M, b: &M) -> bool { a.data.data.iter().map(|x| x.to_bits()).eq(b.data.data.iter().map(|x| x.to_bits())) }

fn triangular(c: &Case) -> Option<M> {
    let t = c.matrix(0, c.n, c.n);
    let mut b = c.matrix(if c.op == 11 { 2 } else { 1 }, c.n, c.k);
    let solved = match c.op {
        9 => t.solve_lower_triangular_mut(&mut b),
        10 => t.solve_upper_triangular_mut(&mut b),
        11 => t.solve_lower_triangular_with_diag_mut(&mut b, f64::from_bits(c.slices[1][0])),
        12 => t.tr_solve_lower_triangular_mut(&mut b),
        _ => t.tr_solve_upper_triangular_mut(&mut b),
    };
    if solved { Some(b) } else { None }
}

fn permuted(c: &Case) -> M {
    let p = c.list(0, 64);
    let mut a = c.matrix(2, c.m, c.n);
    match c.op {
        14 => p.permute_rows(&mut a),
        15 => p.inv_permute_rows(&mut a),
        16 => p.permute_columns(&mut a),
        _ => p.inv_permute_columns(&mut a),
    }
    a
}

fn run(c: &Case, o: &mut Vec<u8>) {
    match c.op {
        1 => {
            let lu = LU::new(c.matrix(0, c.m, c.n));
            o.extend_from_slice(format!("{} | ", lu.p().len()).as_bytes());
            numbers(o, lu.lu_internal());
            o.extend_from_slice(b" | ");
            list(o, lu.p());
        }
        3 => solution(o, c.factors().solve(&c.matrix(3, c.m, c.k))),
        4 => solution(o, c.factors().try_inverse()),
        5 => number(o, c.factors().determinant()),
        6 => o.push(if c.factors().is_invertible() { b'1' } else { b'0' }),
        7 | 8 => {
            let (l, u) = (c.factors().l(), c.factors().u());
            let (_, l2, u2) = c.factors().unpack();
            assert!(same(&l, &l2) && same(&u, &u2) && same(&l, &c.factors().l_unpack()));
            numbers(o, if c.op == 7 { &l } else { &u });
        }
        9..=13 => solution(o, triangular(c)),
        14..=17 => numbers(o, &permuted(c)),
        18 => {
            let mut p = c.list(0, c.m);
            p.append_permutation(c.slices[2][0] as usize, c.slices[2][1] as usize);
            o.extend_from_slice(format!("{} | ", p.len()).as_bytes());
            list(o, &p);
        }
        _ => unreachable!(),
    }
}

fn main() {
    std::panic::set_hook(Box::new(|_| {}));
    let mut bytes = Vec::new();
    std::io::stdin().lock().read_to_end(&mut bytes).unwrap();
    let mut out = std::io::BufWriter::new(std::io::stdout().lock());
    let mut r = Reader { bytes: &bytes, at: 0 };
    while r.at < bytes.len() {
        let case = read(&mut r);
        let mut line = Vec::new();
        if catch_unwind(AssertUnwindSafe(|| run(&case, &mut line))).is_err() {
            line = b"panic".to_vec();
        }
        line.push(b'\n');
        out.write_all(&line).unwrap();
    }
}
