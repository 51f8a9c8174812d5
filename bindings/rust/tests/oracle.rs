//! Holds the library to the crate's own loops (`oracle/`), bit for bit, on random matrices, and to the answers of `crossings/`.
use std::fs;
use std::io::Write;
use std::path::{Path, PathBuf};
use std::process::{Command, Stdio};
use wejdarox::{four_pads, four_pads_of, pad_order, rank, rank_all, stiffness, Lu, Pad, PadOrder, Refusal, Scaled, Season, Stiffness};

// ---- random inputs, the same in every run

struct Random(u64);

impl Random {
    fn bits(&mut self) -> u64 {
        // splitmix64
        self.0 = self.0.wrapping_add(0x9e37_79b9_7f4a_7c15);
        let z = (self.0 ^ (self.0 >> 30)).wrapping_mul(0xbf58_476d_1ce4_e5b9);
        let z = (z ^ (z >> 27)).wrapping_mul(0x94d0_49bb_1331_11eb);
        z ^ (z >> 31)
    }

    fn below(&mut self, count: usize) -> usize {
        (self.bits() % count as u64) as usize
    }

    /// A finite number of one of six kinds: small whole (zeros and ties), evenly spread, a power of two, any bits, an edge of the format, or a mixture.
    fn number(&mut self, kind: usize) -> f64 {
        let sign = if self.bits() % 2 == 0 { 1.0 } else { -1.0 };
        match kind {
            0 => sign * self.below(4) as f64,
            1 => sign * (self.bits() >> 11) as f64 / (1u64 << 52) as f64,
            2 => sign * 2f64.powi(self.below(80) as i32 - 40),
            3 => loop {
                let x = f64::from_bits(self.bits());
                if x.is_finite() {
                    break x;
                }
            },
            4 if self.below(4) == 0 => f64::from_bits(self.bits() >> 12),
            4 => sign * f64::from_bits(self.bits() >> 12 | 0x7fe0_0000_0000_0000),
            _ => {
                let kind = self.below(5);
                self.number(kind)
            }
        }
    }

    fn numbers(&mut self, count: usize, kind: usize) -> Vec<f64> {
        (0..count).map(|_| self.number(kind)).collect()
    }

    /// A matrix: mostly of one kind; one in four singular, a column being zero or another one's copy.
    fn matrix(&mut self, rows: usize, columns: usize) -> Vec<f64> {
        let kind = self.below(10).min(5);
        let mut a = self.numbers(rows * columns, kind);
        if columns > 1 && self.below(4) == 0 {
            let (from, to) = (self.below(columns), self.below(columns));
            let copied = a[from * rows..(from + 1) * rows].to_vec();
            a[to * rows..(to + 1) * rows].copy_from_slice(&copied);
            if self.below(2) == 0 {
                a[to * rows..(to + 1) * rows].fill(-0.0);
            }
        }
        a
    }
}

// ---- the oracle: cases in, lines out

#[derive(Default)]
struct Cases(Vec<u8>);

impl Cases {
    fn add(&mut self, op: u8, sizes: [usize; 3], slices: &[&[u64]]) {
        self.0.push(op);
        for size in sizes {
            self.0.extend((size as u64).to_le_bytes());
        }
        for slice in slices {
            self.0.extend((slice.len() as u16).to_le_bytes());
            for word in *slice {
                self.0.extend(word.to_le_bytes());
            }
        }
    }

    /// The oracle's lines; none where it is not built, and then the test is left out with a word.
    fn answers(self) -> Option<Vec<String>> {
        let program = repository().join("oracle/target/release/rustoracle");
        if !program.exists() {
            let said = "left out, for the oracle is not built: `oracle/build FOLDER` at the top of the repository builds it (oracle/README.md)\n";
            std::io::stderr().write_all(said.as_bytes()).expect("standard error is there");
            return None;
        }
        let mut oracle = Command::new(program).stdin(Stdio::piped()).stdout(Stdio::piped()).spawn().expect("the oracle starts");
        let mut input = oracle.stdin.take().expect("its input");
        let writer = std::thread::spawn(move || input.write_all(&self.0).expect("it reads the cases"));
        let output = oracle.wait_with_output().expect("it ends");
        writer.join().expect("all cases are written");
        assert!(output.status.success());
        Some(String::from_utf8(output.stdout).expect("it prints text").lines().map(str::to_owned).collect())
    }
}

fn repository() -> PathBuf {
    Path::new(env!("CARGO_MANIFEST_DIR")).join("../..")
}

fn bits(numbers: &[f64]) -> Vec<u64> {
    numbers.iter().map(|x| x.to_bits()).collect()
}

fn hex(numbers: &[f64]) -> String {
    numbers.iter().map(|x| format!("{:016x}", x.to_bits())).collect::<Vec<_>>().join(" ")
}

/// Whether numbers in the oracle's words are all finite.
fn finite(line: &str) -> bool {
    line.split_whitespace().all(|word| word != "nan" && f64::from_bits(u64::from_str_radix(word, 16).expect("16 hex digits")).is_finite())
}

/// What a call is to answer where the oracle printed this line: `none` is refusal 6, a number that is not finite 7.
fn expected(line: &str) -> Result<String, Refusal> {
    match line {
        "none" => Err(Refusal::Singular),
        _ if finite(line) => Ok(line.to_owned()),
        _ => Err(Refusal::Overflow),
    }
}

/// What factoring is to give: the line, or refusal 7 where a factor is not finite.
fn expected_factors(line: &str) -> Result<String, Refusal> {
    let factors = line.split(" | ").nth(1).expect("three parts");
    expected(factors).map(|_| line.to_owned())
}

/// Factors in the oracle's words.
fn shown(lu: &Lu) -> String {
    let pairs: Vec<String> = lu.swaps().map(|(i, j)| format!("{i} {j}")).collect();
    format!("{} | {} | {}", pairs.len(), hex(lu.factors()), pairs.join(" "))
}

/// The store of 128 numbers, and the pairs and the dead columns, as a case has them.
fn swaps(lu: &Lu) -> (Vec<u64>, Vec<u64>) {
    let mut store: Vec<u64> = lu.swaps().flat_map(|(i, j)| [i as u64, j as u64]).collect();
    let told = vec![store.len() as u64 / 2, lu.dead_columns() as u64];
    store.resize(128, 0);
    (store, told)
}

/// The zeros on the diagonal of the factors, of either sign.
fn zeros(lu: &Lu) -> usize {
    (0..lu.rows().min(lu.columns())).filter(|i| lu.factors()[i * lu.rows() + i] == 0.0).count()
}

/// The scaled determinant by hand, each number of the diagonal doubled or halved, which is exact, until it is from 1 up to but not 2; and whether no running
/// product of the plain determinant leaves the normal numbers.
fn scaled_by_hand(lu: &Lu) -> (Scaled, bool) {
    let (mut d, mut plain, mut ample) = (Scaled { significand: 1.0, exponent: 0 }, 1.0, true);
    for i in 0..lu.rows() {
        let mut x = lu.factors()[i * lu.rows() + i];
        plain *= x;
        ample &= plain.is_finite() && plain.abs() > 2f64.powi(-1022);
        if x == 0.0 {
            return (Scaled { significand: 0.0, exponent: 0 }, false);
        }
        while x.abs() < 1.0 {
            x *= 2.0;
            d.exponent -= 1;
        }
        while x.abs() >= 2.0 {
            x *= 0.5;
            d.exponent += 1;
        }
        d.significand *= x;
        if d.significand.abs() >= 2.0 {
            d.significand *= 0.5;
            d.exponent += 1;
        }
    }
    if lu.swaps().count() % 2 == 1 {
        d.significand = -d.significand;
    }
    (d, ample)
}

/// The number that is meant, where it is a normal one: two exact products.
fn unscaled(d: Scaled) -> f64 {
    d.significand * 2f64.powi(d.exponent / 2) * 2f64.powi(d.exponent - d.exponent / 2)
}

/// All columns added one by one, from none on.
fn built_up(a: &[f64], rows: usize) -> Result<Lu, Refusal> {
    let mut lu = Lu::factor(&[], rows, 0)?;
    for column in a.chunks(rows) {
        lu.add_column(column)?;
    }
    Ok(lu)
}

#[test]
fn factoring_and_adding() {
    let mut random = Random(1);
    let mut cases = Cases::default();
    let mut matrices = Vec::new();
    for turn in 0..1200 {
        let most = if turn % 8 == 0 { 64 } else { 9 };
        let (rows, columns) = (1 + random.below(most), random.below(most + 1));
        let a = random.matrix(rows, columns);
        cases.add(1, [rows, columns, 0], &[&bits(&a), &[], &[]]);
        matrices.push((rows, columns, a));
    }
    let Some(answers) = cases.answers() else { return };
    assert_eq!(answers.len(), matrices.len());
    let (mut accepted, mut refused, mut dead) = (0, 0, 0);
    for ((rows, columns, a), line) in matrices.iter().zip(&answers) {
        let wanted = expected_factors(line);
        let fresh = Lu::factor(a, *rows, *columns);
        assert_eq!(fresh.as_ref().map(shown).map_err(|e| *e), wanted, "{rows} by {columns}");
        match built_up(a, *rows) {
            Ok(built) => {
                let fresh = fresh.expect("accepted");
                assert_eq!(Ok(shown(&built)), wanted);
                assert_eq!((built.toss_ups(), built.dead_columns()), (fresh.toss_ups(), fresh.dead_columns()));
                assert_eq!(fresh.dead_columns(), zeros(&fresh), "{rows} by {columns}");
                accepted += 1;
                dead += usize::from(fresh.dead_columns() > 0);
            }
            Err(refusal) => {
                assert_eq!(Err(refusal), wanted);
                refused += 1;
            }
        }
    }
    println!("{accepted} accepted, {dead} of them with dead columns, and {refused} refused with 7, each factored and built up column by column");
    assert!(accepted > 300 && refused > 30 && dead > 30);
}

#[test]
fn calls_on_factors() {
    let mut random = Random(2);
    let mut cases = Cases::default();
    let mut asked = Vec::new();
    for turn in 0..1200 {
        let n = 1 + random.below(if turn % 8 == 0 { 64 } else { 9 });
        let a = random.matrix(n, n);
        let Ok(lu) = Lu::factor(&a, n, n) else { continue };
        let k = 1 + random.below(4);
        let kind = random.below(6);
        let b = random.numbers(n * k, kind);
        let (store, told) = swaps(&lu);
        let factors = bits(lu.factors());
        cases.add(3, [n, n, k], &[&factors, &store, &told, &bits(&b), &[]]);
        cases.add(4, [n, n, 0], &[&factors, &store, &told, &[]]);
        cases.add(5, [n, n, 0], &[&factors, &store, &told]);
        cases.add(6, [n, n, 0], &[&factors, &store, &told]);
        asked.push((lu, b, k));
    }
    let Some(answers) = cases.answers() else { return };
    assert_eq!(answers.len(), 4 * asked.len());
    let (mut counts, mut exact, mut saved) = ([0; 8], 0, 0);
    for ((lu, b, k), line) in asked.iter().zip(answers.chunks(4)) {
        let solved = lu.solve(b, *k).map(|x| hex(&x));
        counts[solved.as_ref().err().map_or(0, |refusal| refusal.number())] += 1;
        assert_eq!(solved, expected(&line[0]));
        assert_eq!(lu.inverse().map(|x| hex(&x)), expected(&line[1]));
        let plain = lu.determinant();
        assert_eq!(plain.map(|d| hex(&[d])), expected(&line[2]));
        let (by_hand, ample) = scaled_by_hand(lu);
        let scaled = lu.scaled_determinant().expect("it never overflows");
        assert_eq!((hex(&[scaled.significand]), scaled.exponent), (hex(&[by_hand.significand]), by_hand.exponent));
        if ample {
            assert_eq!(Ok(unscaled(scaled)), plain);
            exact += 1;
        } else if scaled.significand != 0.0 {
            saved += 1;
        }
        assert_eq!(lu.is_invertible(), Ok(line[3] == "1"));
    }
    println!("{} solved, {} refused with 6 and {} with 7; as many inverses, determinants and tests", counts[0], counts[6], counts[7]);
    println!("{exact} scaled determinants are the plain one exactly, and of {saved} a plain product vanishes, overflows or is subnormal");
    assert!(counts[0] > 300 && counts[6] > 30 && counts[7] > 5 && exact > 200 && saved > 50);
}

#[test]
fn ranking() {
    let mut random = Random(3);
    for _ in 0..2000 {
        let n = 1 + random.below(64);
        let kind = random.below(6);
        let mut loads = random.numbers(n, kind);
        for load in loads.iter_mut() {
            // some pads are idle
            if random.below(4) == 0 {
                *load = [0.0, -0.0][random.below(2)];
            }
        }
        let mut pads: Vec<usize> = (1..=n).collect();
        // a stable sort: equal magnitudes stay by number
        pads.sort_by(|p, q| loads[q - 1].abs().total_cmp(&loads[p - 1].abs()));
        assert_eq!(rank_all(&loads), Ok(pads.clone()));
        pads.retain(|pad| loads[pad - 1] != 0.0);
        assert_eq!(rank(&loads), Ok(pads));
    }
}

/// A panel file.
fn file(n: usize, matrix: &[f64], readings: &[f64]) -> Vec<u8> {
    let numbers = matrix.iter().chain(readings).flat_map(|x| x.to_bits().to_le_bytes());
    [b'L', b'X', b'P', 1, 0, n as u8].into_iter().chain(numbers).collect()
}

#[test]
fn panel_files() {
    let mut random = Random(4);
    for turn in 0..300 {
        let n = 1 + random.below(if turn % 8 == 0 { 64 } else { 9 });
        let (a, b) = (random.matrix(n, n), random.numbers(n, 1));
        let parts = || -> Result<PadOrder, Refusal> {
            let lu = Lu::factor(&a, n, n)?;
            let loads = lu.solve(&b, 1)?;
            let pads = rank_all(&loads)?.into_iter().map(|number| Pad { number, load: loads[number - 1] }).collect();
            Ok(PadOrder { pads, toss_ups: lu.toss_ups() })
        };
        let whole = file(n, &a, &b);
        assert_eq!(pad_order(&whole), parts());
        assert_eq!(pad_order(&whole[..whole.len() - 1]), Err(Refusal::Length));
        let quick = || -> Result<Stiffness, Refusal> {
            let lu = Lu::factor(&a, n, n)?;
            Ok(Stiffness { determinant: lu.scaled_determinant()?, toss_ups: lu.toss_ups() })
        };
        assert_eq!(stiffness(&whole), quick());
        assert_eq!(stiffness(&whole[..whole.len() - 1]), Err(Refusal::Length));
    }
}

/// Factors, swaps and loads.
type Parts = (Vec<f64>, Vec<(usize, usize)>, Vec<f64>);

/// Four pads at once are factoring and solving; a file of another size is refused.
#[test]
fn four_pads_at_once() {
    let mut random = Random(7);
    for turn in 0..400 {
        let (a, b) = (random.matrix(4, 4), random.numbers(4, 1));
        let parts = || -> Result<Parts, Refusal> {
            let lu = Lu::factor(&a, 4, 4)?;
            Ok((lu.factors().to_vec(), lu.swaps().collect(), lu.solve(&b, 1)?))
        };
        let whole = file(4, &a, &b);
        let matrix = std::array::from_fn(|j| std::array::from_fn(|i| a[4 * j + i]));
        let readings = std::array::from_fn(|i| b[i]);
        for made in [four_pads(&matrix, &readings), four_pads_of(&whole)] {
            assert_eq!(made.map(|f| (f.factors.to_vec(), f.swaps().collect(), f.loads.to_vec())), parts());
        }
        let n = 1 + turn % 9;
        if n != 4 {
            assert_eq!(four_pads_of(&file(n, &random.matrix(n, n), &random.numbers(n, 1))), Err(Refusal::Size));
        }
        assert_eq!(four_pads_of(&whole[..whole.len() - 1]), Err(Refusal::Length));
    }
}

/// A season's counts are those of what becomes of each file.
#[test]
fn seasons() {
    let mut random = Random(5);
    for _ in 0..40 {
        let (mut season, mut wanted) = (Season::new(), Season::new());
        for _ in 0..random.below(20) {
            let n = 1 + random.below(9);
            let (a, b) = (random.matrix(n, n), random.numbers(n, 1));
            let told = || -> Result<(usize, u64), Refusal> {
                let lu = Lu::factor(&a, n, n)?;
                let least = (0..n).map(|i| lu.factors()[i * n + i].abs()).fold(f64::INFINITY, f64::min);
                Ok((rank(&lu.solve(&b, 1)?)?.len(), least.to_bits() >> 52))
            };
            match told() {
                Ok((pads, exponent)) => {
                    wanted.accepted += 1;
                    wanted.pads += pads;
                    wanted.bands[[0, 511, 1022, 1534].iter().filter(|&&last| exponent > last).count()] += 1;
                }
                Err(refusal) => wanted.refused[refusal.number() - 1] += 1,
            }
            wanted.files += 1;
            season = season.with_file(&file(n, &a, &b)).expect("few files");
        }
        assert_eq!(season, wanted);
    }
}

#[test]
fn crossings() {
    let said = fs::read_to_string(repository().join("crates/crossings_check/stdout")).expect("the answers");
    let mut names = 0;
    let mut lines = said.lines().peekable();
    while let Some(name) = lines.next() {
        let mut wanted = Vec::new();
        while let Some(line) = lines.next_if(|line| !line.ends_with(".lxp")) {
            wanted.push(line.to_owned());
        }
        let bytes = fs::read(repository().join("crossings").join(name)).expect("the file");
        let made = match pad_order(&bytes) {
            Err(refusal) => vec![format!("refused {}", refusal.number())],
            Ok(order) => {
                let head = format!("pads {}", order.pads.len());
                std::iter::once(head).chain(order.pads.iter().map(|pad| format!("{} {:016x}", pad.number, pad.load.to_bits()))).collect()
            }
        };
        assert_eq!(made, wanted, "{name}");
        names += 1;
    }
    let files = fs::read_dir(repository().join("crossings")).expect("the folder").flatten();
    assert_eq!(names, files.filter(|file| file.path().extension().is_some_and(|e| e == "lxp")).count());
    let soft = fs::read(repository().join("crossings/soft-ground.lxp")).expect("the file");
    assert_eq!(stiffness(&soft).map(|s| s.determinant.to_string()), Ok("1.25 × 2^-1200".to_owned()));
}
