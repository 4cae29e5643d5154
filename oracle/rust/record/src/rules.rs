//! The refusals that the source does not have, by document 01's sentences and document 02's. "Always 9, 10, 11 first."
use openquant::api::{is_confidence, Refused};

/// 9: "a number of assets, rows, columns or cells, or a text, is over its limit"; "a matrix has at most 64 columns, 4,096 rows and 4,096 cells".
fn over_limit(rows: usize, columns: usize) -> bool {
    rows > 4096 || columns > 64 || rows * columns > 4096
}

/// 9, 10 and 11 of one matrix of `len` cells whose answer needs `need` entries of a buffer of `room`.
pub fn sized(rows: usize, columns: usize, len: usize, room: usize, need: impl Fn() -> usize) -> Result<(), u8> {
    if over_limit(rows, columns) {
        return Err(9);
    }
    // 10: "a matrix's slice isn't rows times columns long".
    if len != rows * columns {
        return Err(10);
    }
    // 11: "an answer buffer is too short".
    if room < need() {
        return Err(11);
    }
    Ok(())
}

/// 3: "a matrix that must be square and isn't".
pub fn square(rows: usize, columns: usize) -> Result<(), u8> {
    if rows != columns {
        return Err(3);
    }
    Ok(())
}

/// `sized`, and `square` where it must be.
pub fn matrix(rows: usize, columns: usize, len: usize, room: usize, need: impl Fn() -> usize, must: bool) -> Result<(), u8> {
    sized(rows, columns, len, room, need)?;
    if must {
        square(rows, columns)?;
    }
    Ok(())
}

/// The leaf order's own: 9 over n, 11 ("n for order", and one number for the count where that is lent too), then "n = 0 is 1, then 14".
pub fn leaf_order(n: usize, node: usize, ids: &[usize], rooms: &[usize]) -> Result<(), u8> {
    if n > 64 {
        return Err(9);
    }
    if rooms.iter().zip([n, 1]).any(|(&room, need)| room < need) {
        return Err(11);
    }
    if n == 0 {
        return Err(1);
    }
    // 14: "merge rows are no tree, a node number is above 2n − 2".
    if !is_tree(ids, n) || node > 2 * n - 2 {
        return Err(14);
    }
    Ok(())
}

/// 14: "a given leaf order isn't each asset once".
pub fn order(order: &[usize], n: usize) -> Result<(), u8> {
    if order.len() == n && each_once(order, n) {
        Ok(())
    } else {
        Err(14)
    }
}

/// A list of assets of one matrix, and what a call on it answers into or is handed beside it. 9 is over the list too.
pub fn cluster(rows: usize, columns: usize, len: usize, assets: &[usize], room: Option<usize>, expected: Option<usize>) -> Result<(), u8> {
    if assets.len() > 64 {
        return Err(9);
    }
    matrix(rows, columns, len, room.unwrap_or(assets.len()), || assets.len(), true)?;
    // 3: "expected length other than n".
    if expected.is_some_and(|e| e != columns) {
        return Err(3);
    }
    // 14: "an asset number above n − 1".
    if assets.iter().any(|&a| a >= columns) {
        return Err(14);
    }
    Ok(())
}

/// HRP's bisection: "a matrix that must be square and isn't ..; then 14; then as in the allocators", where "no assets" is 1.
pub fn bisection(rows: usize, columns: usize, len: usize, given: &[usize], room: usize) -> Result<(), u8> {
    matrix(rows, columns, len, room, || columns, true)?;
    order(given, columns)?;
    if columns == 0 {
        return Err(1);
    }
    Ok(())
}

/// A matrix's sizes, and how many cells were handed over.
#[derive(Clone, Copy)]
pub struct Sizes {
    pub rows: usize,
    pub columns: usize,
    pub len: usize,
}

/// 9 over both matrices, then 10 over both.
fn both_sized(matrices: [Sizes; 2]) -> Result<(), u8> {
    if matrices.iter().any(|m| over_limit(m.rows, m.columns)) {
        return Err(9);
    }
    if matrices.iter().any(|m| m.len != m.rows * m.columns) {
        return Err(10);
    }
    Ok(())
}

/// Document 02: "16, no return rows, .. 17, under these two metrics, confidence NaN or outside 0 to 1, right after 16".
fn tail_risk(return_rows: usize, confidence: f64) -> Result<(), u8> {
    if return_rows == 0 {
        return Err(16);
    }
    if !is_confidence(confidence) {
        return Err(17);
    }
    Ok(())
}

/// A tail-risk measure of a list of assets: 9 over the list too, 11 of the buffer for the portfolio's series, 3 of the covariance, then "return
/// rows present with columns other than n", then 14, 16, 17.
pub fn measure(returns: Sizes, covariance: Sizes, assets: &[usize], confidence: f64, series: usize) -> Result<(), u8> {
    if assets.len() > 64 {
        return Err(9);
    }
    both_sized([returns, covariance])?;
    if series < need::series(returns.rows) {
        return Err(11);
    }
    square(covariance.rows, covariance.columns)?;
    if returns.rows > 0 && returns.columns != covariance.columns {
        return Err(3);
    }
    if assets.iter().any(|&a| a >= covariance.columns) {
        return Err(14);
    }
    tail_risk(returns.rows, confidence)
}

/// What a weight is shared down: merge rows, a covariance and, under Sharpe, expected returns, where there are any; under a tail-risk metric
/// returns and a confidence.
pub struct Sharing<'a> {
    pub sharpe: bool,
    pub tail: bool,
    pub clusters: usize,
    pub assets: usize,
    pub expected: Option<usize>,
    pub returns: Sizes,
    pub confidence: f64,
    pub covariance: Sizes,
    pub ids: &'a [usize],
    pub room: usize,
    pub scratch: usize,
}

/// "Sharing down given merge rows (after its 3): n = 0 is 1, then 14", then as HCAA's: 4, 16, 17, 6. The 3 is the covariance's size, then the
/// expected returns' length, then the columns of return rows, each where it is read.
pub fn sharing(s: &Sharing) -> Result<(), Refused> {
    if s.assets > 64 {
        return Err(9.into());
    }
    both_sized([s.covariance, s.returns])?;
    if s.room < s.assets || s.scratch < need::SCRATCH {
        return Err(11.into());
    }
    let other = s.sharpe && s.expected.is_some_and(|len| len != s.assets);
    let wide = s.tail && s.returns.rows > 0 && s.returns.columns != s.assets;
    if s.covariance.rows != s.assets || s.covariance.columns != s.assets || other || wide {
        return Err(3.into());
    }
    if s.assets == 0 {
        return Err(1.into());
    }
    if !is_tree(s.ids, s.assets) {
        return Err(14.into());
    }
    if s.sharpe && s.expected.is_none() {
        return Err(4.into());
    }
    if s.tail {
        tail_risk(s.returns.rows, s.confidence)?;
    }
    if s.clusters == 0 || s.clusters > s.assets {
        return Err(Refused { number: 6, asked: [s.clusters, s.assets] });
    }
    Ok(())
}

/// A matrix of an account: its sizes, how many cells were handed over, and whether it is there at all.
#[derive(Clone, Copy)]
pub struct Handed {
    pub given: bool,
    pub rows: usize,
    pub columns: usize,
    pub len: usize,
}

/// An account's 9 over all counts and given matrices, then 10 over all, then 11 over all its buffers.
pub fn account<const B: usize>(
    assets: usize,
    matrices: &[Handed; 3],
    rooms: &[usize; B],
    needs: fn(usize) -> [usize; B],
) -> Result<(), u8> {
    let given = || matrices.iter().filter(|m| m.given);
    if assets > 64 || given().any(|m| over_limit(m.rows, m.columns)) {
        return Err(9);
    }
    if given().any(|m| m.len != m.rows * m.columns) {
        return Err(10);
    }
    if rooms.iter().zip(needs(assets)).any(|(&room, need)| room < need) {
        return Err(11);
    }
    Ok(())
}

/// "Merge rows are a tree when there are n − 1, row k names only ids below n + k, and each id 0 to 2n − 3 occurs once."
fn is_tree(ids: &[usize], n: usize) -> bool {
    ids.len() == 2 * (n - 1) && ids.iter().enumerate().all(|(i, &id)| id < n + i / 2) && each_once(ids, 2 * (n - 1))
}

fn each_once(list: &[usize], n: usize) -> bool {
    (0..n).all(|x| list.iter().filter(|&&y| y == x).count() == 1)
}

/// The entries that an answer needs: "2(n − 1) numbers for rows, .. n² for each seriated matrix (0 where n = 0), elsewhere the answer's cells;
/// n is a lone matrix's columns".
pub mod need {
    /// "Step s keeps rows s − 1, 2s − 1, ... and keeps all rows where there are fewer than s or s is 0."
    pub fn sampled(rows: usize, columns: usize, step: usize) -> usize {
        let kept = if step == 0 || rows < step { rows } else { rows / step };
        kept * columns
    }

    /// Returns of 0 or 1 price rows need 0 cells.
    pub fn returns(rows: usize, columns: usize) -> usize {
        rows.saturating_sub(1) * columns
    }

    pub fn square(columns: usize) -> usize {
        columns * columns
    }

    pub fn children(columns: usize) -> usize {
        2 * columns.saturating_sub(1)
    }

    /// A portfolio's series: its rows and its start. There are no more rows than 9 lets pass.
    pub fn series(rows: usize) -> usize {
        rows + 1
    }

    /// "Scratch has under 8,192 doubles."
    pub const SCRATCH: usize = 8192;

    /// Rows, order, weights, correlations, distances, scratch.
    pub fn hrp(assets: usize) -> [usize; 6] {
        [children(assets), assets, assets, square(assets), square(assets), SCRATCH]
    }

    /// Rows, order, weights, scratch.
    pub fn hcaa(assets: usize) -> [usize; 4] {
        [children(assets), assets, assets, SCRATCH]
    }
}
