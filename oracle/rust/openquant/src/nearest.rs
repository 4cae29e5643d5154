//! Document 02's Nearest rule, which `hcaa_ruled` calls where the source calls its own; and where the two could part.
use std::cell::Cell;

/// What of the known differences (docs/DIFFERENCES.md) was met.
#[derive(Clone, Copy, Default, PartialEq, Debug)]
pub struct Known {
    /// A half that goes to the even number below it, and in the source up.
    pub half: bool,
    /// A NaN with a minus sign, which the source sorts first.
    pub minus_nan: bool,
    /// A confidence that is none, which the source clamps.
    pub confidence: bool,
}

impl Known {
    pub fn any(self) -> bool {
        self != Self::default()
    }
}

thread_local! {
    static MET: Cell<Known> = Cell::default();
}

/// What a run answers, and what its quantiles met.
pub fn noted<T>(run: impl FnOnce() -> T) -> (T, Known) {
    MET.take();
    let answer = run();
    (answer, MET.take())
}

/// "index q·(list length − 1) worked out in double, rounded to the nearest whole, halves to even, in the list sorted ascending with −0 before
/// +0 and every NaN last". As in the source it is 0 for no values.
pub fn quantile(values: &[f64], q: f64) -> f64 {
    assert!((0.0..=1.0).contains(&q), "17 comes before a quantile at {q}");
    let Some(last) = values.len().checked_sub(1) else { return 0.0 };
    let (mut sorted, nans): (Vec<f64>, Vec<f64>) = values.iter().partition(|x| !x.is_nan());
    sorted.sort_by(f64::total_cmp);
    sorted.extend_from_slice(&nans);
    let index = q * last as f64;
    let met = MET.get();
    MET.set(Known {
        half: met.half || index.round() != index.round_ties_even(),
        minus_nan: met.minus_nan || nans.iter().any(|x| x.is_sign_negative()),
        ..met
    });
    sorted[index.round_ties_even() as usize]
}

#[cfg(test)]
mod tests {
    use super::{noted, quantile};

    #[test]
    fn places() {
        let five = [3.0, 1.0, 5.0, 2.0, 4.0];
        for (q, due) in
            [(0.0, 1.0), (-0.0, 1.0), (0.125, 1.0), (0.25, 2.0), (0.375, 3.0), (0.5, 3.0), (0.625, 3.0), (0.875, 5.0), (1.0, 5.0)]
        {
            assert_eq!(quantile(&five, q), due, "{q}");
        }
        assert_eq!(quantile(&[], 0.5), 0.0);
        assert!(quantile(&[0.0, -0.0], 0.0).is_sign_negative());
        assert!(quantile(&[-0.0, 0.0], 1.0).is_sign_positive());
        let odd = [-f64::NAN, f64::INFINITY, f64::NAN, f64::NEG_INFINITY];
        assert_eq!([0.0, 0.25].map(|q| quantile(&odd, q)), [f64::NEG_INFINITY, f64::INFINITY]);
        assert!(quantile(&odd, 0.75).is_nan() && quantile(&odd, 1.0).is_nan());
    }

    #[test]
    fn notes() {
        let met = |values: &[f64], q| noted(|| quantile(values, q)).1;
        assert!(!met(&[1.0, 2.0, 3.0], 0.5).any());
        // 0.5 goes to 0, and up in the source; 1.5 goes to 2 in both.
        assert!(met(&[1.0, 2.0], 0.5).half);
        assert!(!met(&[1.0, 2.0, 3.0], 0.75).any());
        assert!(!met(&[f64::NAN], 0.0).any());
        assert!(met(&[1.0, -f64::NAN], 0.0).minus_nan);
        assert!(!met(&[1.0], 0.0).any());
    }
}
