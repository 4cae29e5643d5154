//! What is called.
#![allow(unused_must_use)]
use crate::calls::{Answer, Cells, Op, Record};
use crate::kinds::{any_tree, filled, mirrored, square, DISTANCES, TINY};
use crate::random::{Random, ODD};
use openquant::api::{Linkage, Measure};

pub const HUGE: usize = usize::MAX;

pub const METHODS: [Linkage; 4] = [Linkage::Single, Linkage::Complete, Linkage::Average, Linkage::Ward];

const MEASURES: [Measure; 2] = [Measure::Hrp, Measure::Hcaa];

/// The steps of a pipeline whose answers are doubles.
fn doubles(answer: Answer) -> Vec<f64> {
    match answer.expect("a matrix").cells {
        Cells::Doubles(cells) => cells,
        Cells::Numbers(_) => panic!("numbers"),
    }
}

fn numbers(answer: Answer) -> Vec<usize> {
    match answer.expect("rows").cells {
        Cells::Numbers(cells) => cells,
        Cells::Doubles(_) => panic!("doubles"),
    }
}

/// 9, 10 and 11, each at its edge and before what comes after it.
fn limits(out: &mut Record, op: Op) {
    for (rows, columns) in [(4097, 0), (4097, 1), (0, 65), (1, 65), (65, 64), (4096, 2), (HUGE, 0), (0, HUGE), (HUGE, HUGE)] {
        out.sized(op, rows, columns, &[], 64);
    }
    for (rows, columns, len) in [(2, 2, 3), (2, 2, 5), (2, 2, 0), (0, 0, 1), (0, 3, 3), (3, 0, 3), (64, 64, 4), (4096, 1, 2)] {
        out.sized(op, rows, columns, &vec![1.0; len], 9);
    }
    // No room at all, and a slice that is too short: 10 is first.
    out.sized(op, 2, 2, &[1.0; 3], 0);
    for (rows, columns) in [(0, 0), (0, 3), (1, 0), (1, 1), (1, 3), (2, 0), (2, 1), (2, 2), (2, 3), (3, 2)] {
        let cells = vec![1.5; rows * columns];
        let need = op.need(rows, columns);
        if need > 0 {
            out.sized(op, rows, columns, &cells, need - 1);
        }
        out.sized(op, rows, columns, &cells, need);
        out.sized(op, rows, columns, &cells, need + 7);
    }
}

/// Every kind of NaN: signalling, of both signs, with digits. The merge step has its own (`quiet`).
fn nans(out: &mut Record) {
    let cells = [0x7ff0_0000_0000_0001, 0xfff0_0000_0000_0001, 0x7fff_ffff_ffff_ffff, 0xfff8_0000_0000_0000].map(f64::from_bits);
    for op in [Op::ResamplePrices(0), Op::ReturnsFromPrices, Op::Covariance, Op::ShrinkCovariance, Op::Cov2corr] {
        out.call(op, 2, 2, &cells);
    }
    for op in [Op::MeanExpectedReturns, Op::ExponentialExpectedReturns, Op::DistanceOfDistances] {
        out.call(op, 2, 2, &cells);
    }
    for measure in MEASURES {
        out.call(Op::CorrToDistances(measure), 2, 2, &cells);
    }
    out.seriate_matrix(2, 2, &cells, &[1, 0], 5);
}

fn sampling(out: &mut Record, rng: &mut Random) {
    limits(out, Op::ResamplePrices(21));
    out.sized(Op::ResamplePrices(1), 1, 65, &[1.0; 65], 65);
    out.sized(Op::ResamplePrices(1), 1, 64, &[1.0; 64], 64);
    // A buffer for the answer, not for all rows.
    out.sized(Op::ResamplePrices(21), 22, 2, &[1.5; 44], 2);
    out.sized(Op::ResamplePrices(21), 22, 2, &[1.5; 44], 1);
    out.sized(Op::ResamplePrices(0), 3, 2, &[1.5; 6], 5);
    for rows in [20, 21, 42] {
        out.call(Op::ResamplePrices(21), rows, 2, &filled(rows * 2, || rng.price()));
    }
    for (rows, step) in [
        (4, 5),
        (5, 5),
        (6, 5),
        (9, 5),
        (10, 5),
        (11, 5),
        (22, 21),
        (41, 21),
        (43, 21),
        (63, 21),
        (1, 1),
        (7, 1),
        (7, 0),
        (7, 2),
        (7, 6),
        (7, 7),
        (7, 8),
    ] {
        out.call(Op::ResamplePrices(step), rows, 3, &filled(rows * 3, || rng.price()));
    }
    for step in [HUGE, HUGE / 2, 1 << 63, 4096, 4097] {
        out.call(Op::ResamplePrices(step), 3, 2, &filled(6, || rng.price()));
    }
    for step in [1, 2, 5] {
        out.call(Op::ResamplePrices(step), 10, 2, &ODD);
        out.call(Op::ResamplePrices(step), 6, 4, &filled(24, || rng.wild()));
    }
    out.call(Op::ResamplePrices(5), 64, 4, &filled(256, || rng.price()));
}

fn returns(out: &mut Record, rng: &mut Random) {
    let op = Op::ReturnsFromPrices;
    limits(out, op);
    for (rows, columns) in [(2, 1), (2, 5), (3, 3), (10, 4), (21, 2), (2, 64)] {
        out.call(op, rows, columns, &filled(rows * columns, || rng.price()));
    }
    // A zero price, of either sign, in each place of a matrix of 4 by 3; in the last row it is no denominator.
    for zero in [0.0, -0.0] {
        for place in 0..12 {
            let mut prices = filled(12, || rng.price());
            prices[place] = zero;
            out.call(op, 4, 3, &prices);
        }
    }
    // Every double of the list over every other.
    for over in ODD {
        let prices: Vec<f64> = ODD.iter().filter(|x| **x != 0.0).copied().chain(std::iter::repeat_n(over, 18)).collect();
        out.call(op, 2, 18, &prices);
    }
    for _ in 0..5 {
        out.call(op, 5, 4, &filled(20, || rng.wild()));
    }
    out.call(op, 4096, 0, &[]);
}

fn covariances(out: &mut Record, rng: &mut Random) {
    let op = Op::Covariance;
    limits(out, op);
    for (rows, columns) in [(2, 1), (2, 2), (2, 7), (3, 1), (3, 3), (4, 5), (5, 2), (7, 4), (10, 3), (10, 8), (21, 3), (22, 6), (40, 2)] {
        out.call(op, rows, columns, &filled(rows * columns, || rng.gain()));
    }
    for (rows, columns) in [(2, 2), (3, 2), (4, 3), (5, 4), (9, 2)] {
        let plain = rng.gain();
        out.call(op, rows, columns, &filled(rows * columns, || rng.seldom(6, plain)));
    }
    out.call(op, 4096, 0, &[]);
    for _ in 0..4 {
        out.call(op, 6, 3, &filled(18, || rng.seldom(8, 1e160)));
        out.call(op, 6, 3, &filled(18, || rng.seldom(8, 1e-170)));
        out.call(op, 3, 4, &filled(12, || rng.wild()));
        out.call(op, 5, 3, &filled(15, || rng.pick(&[0.0, -0.0, f64::from_bits(1), -f64::from_bits(3)])));
    }
    out.call(op, 4, 2, &[-0.0; 8]);
    out.call(op, 3, 3, &[0.1; 9]);
    out.call(op, 64, 64, &filled(4096, || rng.gain()));
}

fn shrinkage(out: &mut Record, rng: &mut Random) {
    let op = Op::ShrinkCovariance;
    limits(out, op);
    for n in [1, 2, 3, 5, 8] {
        out.call(op, n, n, &mirrored(n, 0.04, || rng.gain()));
        out.call(op, n, n, &filled(n * n, || rng.wild()));
    }
    out.call(op, 4, 4, &ODD[..16]);
    out.call(op, 4, 4, &ODD[4..]);
}

fn correlations(out: &mut Record, rng: &mut Random) {
    let op = Op::Cov2corr;
    limits(out, op);
    for n in [1, 2, 3, 4, 6, 9] {
        let variances = filled(n, || 0.01 + rng.unit());
        out.call(op, n, n, &square(n, |i, j| if i == j { variances[i] } else { rng.gain() }));
        let mut symmetric = mirrored(n, 0.0, || rng.gain());
        (0..n).for_each(|i| symmetric[i * n + i] = variances[i]);
        out.call(op, n, n, &symmetric);
    }
    // Each odd double as the first, the middle and the last variance, and as a covariance.
    for odd in ODD {
        for place in [0, 4, 8, 1] {
            let mut cov = square(3, |i, j| if i == j { 1.0 + i as f64 } else { 0.25 });
            cov[place] = odd;
            out.call(op, 3, 3, &cov);
        }
    }
    for _ in 0..10 {
        let cov = filled(16, || rng.wild());
        out.call(op, 4, 4, &cov);
        let positive: Vec<f64> = cov.iter().enumerate().map(|(k, x)| if k % 5 == 0 { x.abs() } else { *x }).collect();
        out.call(op, 4, 4, &positive);
    }
}

fn expected(out: &mut Record, rng: &mut Random) {
    for op in [Op::MeanExpectedReturns, Op::ExponentialExpectedReturns] {
        limits(out, op);
        out.call(op, 0, 64, &[]);
        for (rows, columns) in [(1, 1), (1, 4), (2, 3), (5, 5), (21, 2), (60, 1), (2, 64)] {
            out.call(op, rows, columns, &filled(rows * columns, || rng.gain()));
        }
        for _ in 0..4 {
            out.call(op, 4, 5, &filled(20, || rng.wild()));
            out.call(op, 4, 5, &filled(20, || rng.seldom(3, 1e308)));
        }
        out.call(op, 1, 20, &ODD);
        out.call(op, 20, 1, &ODD);
        out.call(op, 3, 2, &[-0.0; 6]);
    }
    out.call(Op::MeanExpectedReturns, 4096, 1, &filled(4096, || rng.gain()));
}

fn distances(out: &mut Record, rng: &mut Random) {
    limits(out, Op::CorrToDistances(Measure::Hrp));
    for measure in MEASURES {
        let op = Op::CorrToDistances(measure);
        for n in [1, 2, 3, 5, 8] {
            out.call(op, n, n, &mirrored(n, 1.0, || 2.0 * rng.unit() - 1.0));
            out.call(op, n, n, &square(n, |_, _| 2.2 * rng.unit() - 1.1));
        }
        out.call(op, 4, 4, &ODD[..16]);
        out.call(op, 4, 4, &ODD[4..]);
        for _ in 0..4 {
            out.call(op, 4, 4, &filled(16, || rng.wild()));
            // Within some ulps of 1 and of −1.
            out.call(op, 4, 4, &square(4, |i, _| f64::from_bits((1.0 - 2.0 * (i % 2) as f64).to_bits() + 4 - rng.below(9) as u64)));
        }
    }
    let op = Op::DistanceOfDistances;
    limits(out, op);
    for n in [1, 2, 3, 4, 5, 8, 12] {
        out.call(op, n, n, &mirrored(n, 0.0, || 2.0 * rng.unit()));
        out.call(op, n, n, &square(n, |_, _| 2.0 * rng.unit()));
    }
    out.call(op, 4, 4, &ODD[..16]);
    out.call(op, 4, 4, &ODD[4..]);
    for _ in 0..5 {
        out.call(op, 4, 4, &filled(16, || rng.wild()));
        out.call(op, 4, 4, &square(4, |_, _| rng.seldom(8, 1.0)));
        out.call(op, 3, 3, &square(3, |_, _| rng.unit() * 1e-160));
        out.call(op, 3, 3, &square(3, |_, _| rng.unit() * 2e154));
    }
}

fn trees(out: &mut Record, rng: &mut Random) {
    limits(out, Op::LinkageChildren(Linkage::Single));
    // Document 01's figures.
    let near = 1.0 - TINY;
    let far = 1.0 - 2.0 * TINY;
    for method in METHODS {
        let op = Op::LinkageChildren(method);
        out.call(op, 3, 3, &[f64::NAN; 9]);
        out.call(op, 4, 4, &mirrored(4, 0.0, || 1.0));
        out.call(op, 3, 3, &[0.0, 1.0, near, 1.0, 0.0, near, near, near, 0.0]);
        out.call(op, 3, 3, &[0.0, 1.0, 1.0, 1.0, 0.0, far, 1.0, far, 0.0]);
    }
    for n in [2, 3, 4, 5] {
        for kind in DISTANCES {
            for method in METHODS {
                let d = kind(rng, n);
                let rows = numbers(out.call(Op::LinkageChildren(method), n, n, &d));
                if rng.below(6) == 0 {
                    nodes(out, rng, n, &rows);
                }
            }
        }
    }
    for (n, kinds) in [(7, &DISTANCES[..]), (9, &DISTANCES[..12]), (13, &DISTANCES[4..8])] {
        for kind in kinds {
            let method = rng.pick(&METHODS);
            let rows = numbers(out.call(Op::LinkageChildren(method), n, n, &kind(rng, n)));
            nodes(out, rng, n, &rows);
        }
    }
    for n in [6, 11, 12] {
        for method in METHODS {
            out.call(Op::LinkageChildren(method), n, n, &DISTANCES[0](rng, n));
        }
    }
    out.call(Op::LinkageChildren(Linkage::Complete), 20, 20, &DISTANCES[0](rng, 20));
    out.call(Op::LinkageChildren(Linkage::Average), 32, 32, &DISTANCES[0](rng, 32));
    out.call(Op::LinkageChildren(Linkage::Single), 24, 24, &DISTANCES[6](rng, 24));
    let rows = numbers(out.call(Op::LinkageChildren(Linkage::Ward), 64, 64, &DISTANCES[0](rng, 64)));
    nodes(out, rng, 64, &rows);
}

/// Leaf orders below an asset, the first node, some node and the root, and no node.
fn nodes(out: &mut Record, rng: &mut Random, n: usize, ids: &[usize]) {
    let root = 2 * n - 2;
    for node in [0, n - 1, n.min(root), rng.below(root + 1), root] {
        out.quasi_diagonalization(n, node, ids, n + rng.below(3));
    }
    out.quasi_diagonalization(n, root + 1, ids, n);
}

fn leaves(out: &mut Record, rng: &mut Random) {
    for n in [1, 2, 3, 5, 8, 33, 64] {
        let ids = any_tree(rng, n);
        nodes(out, rng, n, &ids);
        out.quasi_diagonalization(n, 2 * n - 2, &ids, n - 1);
        out.quasi_diagonalization(n, 2 * n - 2, &ids, 200);
        out.quasi_diagonalization(n, HUGE, &ids, n);
    }
    // The deepest trees, to the left and to the right, and the flattest.
    let left: Vec<usize> = (0..63).flat_map(|k| [if k == 0 { 0 } else { 63 + k }, k + 1]).collect();
    let right: Vec<usize> = left.chunks(2).flat_map(|r| [r[1], r[0]]).collect();
    let flat: Vec<usize> = (0..126).collect();
    for ids in [left, right, flat] {
        nodes(out, rng, 64, &ids);
    }
    out.quasi_diagonalization(0, 0, &[], 0);
    out.quasi_diagonalization(0, 0, &[0, 1], 4);
    out.quasi_diagonalization(0, 5, &[], 4);
    out.quasi_diagonalization(65, 0, &[], 65);
    out.quasi_diagonalization(65, 128, &(0..128).collect::<Vec<_>>(), 65);
    out.quasi_diagonalization(65, 128, &(0..128).collect::<Vec<_>>(), 0);
    out.quasi_diagonalization(HUGE, HUGE, &[], 0);
    // No trees: too few or too many ids, one that is not there yet, one twice, one that is huge.
    let no_trees: [(usize, &[usize]); 16] = [
        (1, &[0]),
        (1, &[0, 0]),
        (2, &[]),
        (2, &[0]),
        (2, &[0, 1, 2]),
        (2, &[0, 0]),
        (2, &[0, 2]),
        (2, &[1, HUGE]),
        (3, &[0, 1]),
        (3, &[0, 3, 1, 2]),
        (3, &[0, 1, 2, 4]),
        (3, &[0, 1, 1, 3]),
        (3, &[0, 1, 3, 3]),
        (3, &[1, 2, 0, 5]),
        (4, &[0, 1, 4, 2, 4, 3]),
        (3, &[0, 1, 2, 3, 4, 5]),
    ];
    for (n, ids) in no_trees {
        out.quasi_diagonalization(n, 0, ids, n);
        out.quasi_diagonalization(n, 2 * n - 2, ids, n + 2);
        out.quasi_diagonalization(n, 0, ids, n - 1);
    }
    // One id of a tree changed.
    for _ in 0..20 {
        let n = 2 + rng.below(9);
        let mut ids = any_tree(rng, n);
        let at = rng.below(ids.len());
        ids[at] = rng.below(2 * n);
        out.quasi_diagonalization(n, 2 * n - 2, &ids, n);
    }
}

fn seriation(out: &mut Record, rng: &mut Random) {
    for (rows, columns) in [(4097, 0), (1, 65), (65, 64), (0, HUGE)] {
        out.seriate_matrix(rows, columns, &[], &[], 0);
    }
    out.seriate_matrix(2, 2, &[1.0; 3], &[0, 1], 4);
    out.seriate_matrix(2, 2, &[1.0; 5], &[0, 1], 0);
    out.seriate_matrix(2, 2, &[1.0; 4], &[1, 0], 3);
    out.seriate_matrix(2, 2, &[1.0; 4], &[0, 0], 3);
    out.seriate_matrix(2, 3, &[1.0; 6], &[0, 1, 2], 9);
    out.seriate_matrix(2, 3, &[1.0; 6], &[0, 1, 2], 8);
    out.seriate_matrix(3, 2, &[1.0; 6], &[0, 1, 2], 4);
    out.seriate_matrix(0, 0, &[], &[], 0);
    out.seriate_matrix(0, 0, &[], &[], 5);
    out.seriate_matrix(0, 0, &[], &[0], 5);
    let no_orders: [&[usize]; 9] =
        [&[], &[0, 1], &[0, 1, 2, 3], &[0, 1, 1], &[0, 1, 3], &[2, 2, 2], &[HUGE, 0, 1], &[0, 2, 1, 0], &[1, 2, 3]];
    for order in no_orders {
        out.seriate_matrix(3, 3, &filled(9, || rng.unit()), order, 11);
    }
    for n in [1, 2, 3, 4, 6, 10] {
        let order = rng.permutation(n);
        out.seriate_matrix(n, n, &filled(n * n, || rng.unit()), &order, n * n);
        let order = rng.permutation(n);
        out.seriate_matrix(n, n, &filled(n * n, || rng.wild()), &order, n * n + 3);
    }
    out.seriate_matrix(4, 4, &ODD[4..], &[3, 1, 2, 0], 16);
    out.seriate_matrix(4, 4, &ODD[..16], &[0, 1, 2, 3], 20);
    // 65 numbers of an order are too many for any matrix.
    out.seriate_matrix(1, 1, &[1.0], &(0..65).collect::<Vec<_>>(), 1);
}

fn names(out: &mut Record) {
    for name in ["w", "week", "weekly", "m", "month", "monthly"] {
        out.freq_step(name.as_bytes());
        out.freq_step(name.to_uppercase().as_bytes());
        out.freq_step(
            name.chars().enumerate().map(|(i, c)| if i % 2 == 0 { c.to_ascii_uppercase() } else { c }).collect::<String>().as_bytes(),
        );
        for odd in [format!("{name} "), format!(" {name}"), format!("{name}\n"), format!("{name}\0"), name[1..].to_string(), name.repeat(2)]
        {
            out.freq_step(odd.as_bytes());
        }
        // The bytes that differ from a name's first letter by one bit.
        for bit in 0..8 {
            let mut odd = name.as_bytes().to_vec();
            odd[0] ^= 1 << bit;
            out.freq_step(&odd);
        }
    }
    for name in ["", "d", "day", "daily", "q", "y", "none", "wee\u{212a}", "\u{ff57}", "weekly-monthly"] {
        out.freq_step(name.as_bytes());
    }
    out.freq_step(&[0xff]);
    out.freq_step(&[b'w'; 300]);
}

/// From prices to a seriated matrix, each step on the answer of the one before.
fn pipelines(out: &mut Record, rng: &mut Random) {
    for (rows, n, step) in [(30, 4, 5), (24, 6, 1), (63, 3, 21), (12, 8, 1)] {
        let prices = filled(rows * n, || rng.price());
        let sampled = doubles(out.call(Op::ResamplePrices(step), rows, n, &prices));
        let made = doubles(out.call(Op::ReturnsFromPrices, sampled.len() / n, n, &sampled));
        out.call(Op::MeanExpectedReturns, made.len() / n, n, &made);
        out.call(Op::ExponentialExpectedReturns, made.len() / n, n, &made);
        let cov = doubles(out.call(Op::Covariance, made.len() / n, n, &made));
        let shrunk = doubles(out.call(Op::ShrinkCovariance, n, n, &cov));
        let corr = doubles(out.call(Op::Cov2corr, n, n, &shrunk));
        for measure in MEASURES {
            let near = doubles(out.call(Op::CorrToDistances(measure), n, n, &corr));
            let far = doubles(out.call(Op::DistanceOfDistances, n, n, &near));
            for method in METHODS {
                for d in [&near, &far] {
                    let ids = numbers(out.call(Op::LinkageChildren(method), n, n, d));
                    out.quasi_diagonalization(n, 2 * n - 2, &ids, n);
                }
            }
        }
        let order = rng.permutation(n);
        out.seriate_matrix(n, n, &corr, &order, n * n + 1);
    }
}

pub fn all(out: &mut Record, rng: &mut Random) {
    nans(out);
    sampling(out, rng);
    returns(out, rng);
    covariances(out, rng);
    shrinkage(out, rng);
    correlations(out, rng);
    expected(out, rng);
    distances(out, rng);
    trees(out, rng);
    leaves(out, rng);
    seriation(out, rng);
    names(out);
    pipelines(out, rng);
}
