//! The five files of the source, unchanged, in the module tree that they expect; and `api`, by which a recorder calls their inner steps.
#![allow(dead_code)]

pub mod hcaa;
pub mod hrp;

pub mod util {
    pub(crate) mod linkage;
    pub(crate) mod resample;
    pub mod stats;
}

pub mod api;
pub mod nearest;

/// hrp.rs once more, with a door to its private functions.
mod hrp_open {
    include!(concat!(env!("OUT_DIR"), "/hrp.rs"));

    pub(crate) mod door {
        use super::{DMatrix, HrpError};

        fn number(e: HrpError) -> u8 {
            match e {
                HrpError::NoData => 1,
                HrpError::DimensionMismatch(_) => 3,
                other => panic!("no inner step gives {other}"),
            }
        }

        pub fn returns_from_prices(prices: &DMatrix<f64>) -> Result<DMatrix<f64>, u8> {
            super::returns_from_prices(prices).map_err(number)
        }

        pub fn covariance(returns: &DMatrix<f64>) -> Result<DMatrix<f64>, u8> {
            super::covariance(returns).map_err(number)
        }

        pub fn shrink_covariance(cov: &DMatrix<f64>) -> DMatrix<f64> {
            super::shrink_covariance(cov, 0.1)
        }

        pub fn cov2corr(cov: &DMatrix<f64>) -> Result<DMatrix<f64>, u8> {
            super::cov2corr(cov).map_err(number)
        }

        pub fn corr_to_distances(corr: &DMatrix<f64>) -> DMatrix<f64> {
            super::corr_to_distances(corr)
        }

        pub fn seriate_matrix(matrix: &DMatrix<f64>, order: &[usize]) -> DMatrix<f64> {
            super::seriate_matrix(matrix, order)
        }

        pub fn inverse_variance_weights(cov: &DMatrix<f64>, assets: &[usize]) -> Result<Vec<f64>, u8> {
            super::inverse_variance_weights(cov, assets).map_err(number)
        }

        pub fn cluster_variance(cov: &DMatrix<f64>, assets: &[usize]) -> Result<f64, u8> {
            super::cluster_variance(cov, assets).map_err(number)
        }

        pub fn recursive_bisection_min_var(cov: &DMatrix<f64>, order: &[usize]) -> Result<Vec<f64>, u8> {
            super::recursive_bisection_min_var(cov, order).map_err(number)
        }
    }
}

/// hcaa.rs once more, likewise.
mod hcaa_open {
    include!(concat!(env!("OUT_DIR"), "/hcaa.rs"));

    pub(crate) mod door {
        include!("hcaa_door.rs");
    }
}

/// And a third time, with document 02's Nearest rule in the place of its own.
#[allow(unused_imports)]
mod hcaa_ruled {
    include!(concat!(env!("OUT_DIR"), "/hcaa_ruled.rs"));

    pub(crate) mod door {
        include!("hcaa_door.rs");
    }
}
