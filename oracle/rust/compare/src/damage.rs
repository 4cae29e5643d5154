//! Shapes that do not fit: 9, 10, 11 and 3 at their edges, alone and together.
use crate::account::Inputs;
use crate::random::Random;

const HUGE: usize = usize::MAX;

/// Sizes at the edges of 9.
const EDGES: [(usize, usize); 12] =
    [(4097, 0), (4097, 1), (4096, 1), (4096, 2), (1, 65), (0, 65), (0, 64), (64, 64), (65, 64), (HUGE, 0), (0, HUGE), (HUGE, HUGE)];

fn one(rng: &mut Random, a: &mut Inputs) {
    let k = rng.below(3);
    let n = a.assets;
    let fitting = |rows: usize, columns: usize, rng: &mut Random| -> Vec<f64> { (0..rows * columns).map(|_| rng.price()).collect() };
    let m = &mut a.matrices[k];
    match rng.below(13) {
        0 => a.assets = rng.pick(&[0, 64, 65, HUGE, n.wrapping_sub(1), n + 1]),
        1 => (m.rows, m.columns) = rng.pick(&EDGES),
        2 => m.rows = m.rows.wrapping_add(1),
        3 => m.columns = m.columns.wrapping_sub(1),
        4 => {
            m.cells.pop();
        }
        5 => m.cells.push(1.5),
        6 => m.cells.clear(),
        7 => m.given = if m.given == 0 { 1 } else { 0 },
        // Other shapes whose slice fits.
        8 => {
            let (rows, columns) = (rng.below(4), rng.below(5));
            (m.given, m.rows, m.columns, m.cells) = (1, rows, columns, fitting(rows, columns, rng));
        }
        9 => {
            let (rows, columns) = rng.pick(&[(0, n), (1, n), (2, n), (n, n + 1), (n + 1, n), (0, 0), (0, n + 1), (1, n + 1)]);
            if rows.saturating_mul(columns) <= 4200 {
                (m.given, m.rows, m.columns, m.cells) = (1, rows, columns, fitting(rows, columns, rng));
            }
        }
        10 => {
            if !m.cells.is_empty() {
                let i = rng.below(m.cells.len());
                m.cells[i] = rng.pick(&[0.0, -0.0, f64::NAN, f64::INFINITY]);
            }
        }
        // The largest that passes 9, and one over.
        11 if rng.below(8) == 0 => {
            let (rows, columns) = rng.pick(&[(4096, 1), (4097, 1), (64, 64), (63, 65), (1024, 4), (1025, 4)]);
            (m.given, m.rows, m.columns, m.cells) = (1, rows, columns, fitting(rows, columns, rng));
        }
        _ => m.cells.iter_mut().for_each(|x| *x = 0.0),
    }
}

/// One time in five one to three damages.
pub fn shapes(rng: &mut Random, a: &mut Inputs) {
    if rng.below(5) == 0 {
        for _ in 0..1 + rng.below(3) {
            one(rng, a);
        }
    }
}

/// Room for what is needed and a little, or much, more; seldom too little.
pub fn rooms<const B: usize>(rng: &mut Random, needs: [usize; B]) -> [usize; B] {
    let mut out = needs.map(|need| need + rng.pick(&[0, 0, 1, 2, 7, 40]));
    if rng.below(30) == 0 {
        let k = rng.below(B);
        out[k] = rng.pick(&[needs[k].saturating_sub(1), needs[k] / 2, 0]);
    }
    if rng.below(200) == 0 {
        out = [0; B];
    }
    out
}
