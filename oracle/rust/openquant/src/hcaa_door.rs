// A door to the private functions of hcaa.rs, in the module that includes it.
use super::{DMatrix, HcaaError, MetricInputs};
use crate::api::Sharing;

fn number(e: HcaaError) -> u8 {
    match e {
        HcaaError::NoData => 1,
        HcaaError::DimensionMismatch(_) => 3,
        other => panic!("no inner step gives {other}"),
    }
}

pub fn returns_from_prices(prices: &DMatrix<f64>) -> Result<DMatrix<f64>, u8> {
    super::returns_from_prices(prices).map_err(number)
}

pub fn covariance(returns: &DMatrix<f64>) -> Result<DMatrix<f64>, u8> {
    super::covariance(returns).map_err(number)
}

pub fn cov2corr(cov: &DMatrix<f64>) -> Result<DMatrix<f64>, u8> {
    super::cov2corr(cov).map_err(number)
}

pub fn mean_expected_returns(returns: &DMatrix<f64>) -> Vec<f64> {
    super::mean_expected_returns(returns)
}

pub fn exponential_expected_returns(returns: &DMatrix<f64>) -> Vec<f64> {
    super::exponential_expected_returns(returns, 500)
}

pub fn corr_to_distances(corr: &DMatrix<f64>) -> DMatrix<f64> {
    super::corr_to_distances(corr)
}

pub fn inverse_variance_weights(cov: &DMatrix<f64>, assets: &[usize]) -> Result<Vec<f64>, u8> {
    super::inverse_variance_weights(cov, assets).map_err(number)
}

pub fn cluster_variance(cov: &DMatrix<f64>, assets: &[usize]) -> Result<f64, u8> {
    super::cluster_variance(cov, assets).map_err(number)
}

pub fn cluster_sharpe(expected: &[f64], cov: &DMatrix<f64>, assets: &[usize]) -> Result<f64, u8> {
    super::cluster_sharpe(expected, cov, assets).map_err(number)
}

pub fn cluster_expected_shortfall(returns: &DMatrix<f64>, cov: &DMatrix<f64>, confidence: f64, assets: &[usize]) -> Result<f64, u8> {
    super::cluster_expected_shortfall(returns, cov, confidence, assets).map_err(number)
}

pub fn cluster_conditional_drawdown(returns: &DMatrix<f64>, cov: &DMatrix<f64>, confidence: f64, assets: &[usize]) -> Result<f64, u8> {
    super::cluster_conditional_drawdown(returns, cov, confidence, assets).map_err(number)
}

/// From the last row's node with weight 1, as `allocate` calls it.
pub fn allocate_down_tree(s: &Sharing) -> Result<Vec<f64>, u8> {
    let inputs =
        MetricInputs { expected: s.expected, returns: s.returns, cov: s.covariance, metric: s.metric, confidence_level: s.confidence };
    let mut weights = vec![0.0; s.assets];
    super::allocate_down_tree(s.rows, s.assets, s.clusters, 2 * s.assets - 2, 1.0, &inputs, &mut weights).map_err(number)?;
    Ok(weights)
}
