//! What crates/capi/rovignesc.h declares, in its order.

extern "C" {
    pub fn rovignesc_sqrt(x: f64) -> f64;

    pub fn rovignesc_hrp(
        assets: usize,
        prices: *const f64,
        prices_len: usize,
        prices_given: u8,
        prices_rows: usize,
        prices_columns: usize,
        returns: *const f64,
        returns_len: usize,
        returns_given: u8,
        returns_rows: usize,
        returns_columns: usize,
        covariance: *const f64,
        covariance_len: usize,
        covariance_given: u8,
        covariance_rows: usize,
        covariance_columns: usize,
        resample_by: *const u8,
        resample_by_len: usize,
        use_shrinkage: u8,
        distance: *const u8,
        distance_len: usize,
        rows: *mut usize,
        rows_len: usize,
        order: *mut usize,
        order_len: usize,
        weights: *mut f64,
        weights_len: usize,
        seriated_correlations: *mut f64,
        seriated_correlations_len: usize,
        seriated_distances: *mut f64,
        seriated_distances_len: usize,
        scratch: *mut f64,
        scratch_len: usize,
    ) -> u8;

    pub fn rovignesc_hcaa(
        assets: usize,
        prices: *const f64,
        prices_len: usize,
        prices_given: u8,
        prices_rows: usize,
        prices_columns: usize,
        returns: *const f64,
        returns_len: usize,
        returns_given: u8,
        returns_rows: usize,
        returns_columns: usize,
        covariance: *const f64,
        covariance_len: usize,
        covariance_given: u8,
        covariance_rows: usize,
        covariance_columns: usize,
        expected: *const f64,
        expected_len: usize,
        expected_given: u8,
        metric: *const u8,
        metric_len: usize,
        method: *const u8,
        method_len: usize,
        confidence: f64,
        clusters_given: u8,
        clusters: usize,
        resample_by: *const u8,
        resample_by_len: usize,
        distance: *const u8,
        distance_len: usize,
        linkage: *const u8,
        linkage_len: usize,
        rows: *mut usize,
        rows_len: usize,
        order: *mut usize,
        order_len: usize,
        weights: *mut f64,
        weights_len: usize,
        scratch: *mut f64,
        scratch_len: usize,
        asked: *mut usize,
        asked_len: usize,
    ) -> u8;

    pub fn rovignesc_covariance(
        returns: *const f64,
        returns_len: usize,
        returns_rows: usize,
        returns_columns: usize,
        covariance: *mut f64,
        covariance_len: usize,
    ) -> u8;

    pub fn rovignesc_linkage_children(
        distances: *const f64,
        distances_len: usize,
        distances_rows: usize,
        distances_columns: usize,
        linkage: *const u8,
        linkage_len: usize,
        rows: *mut usize,
        rows_len: usize,
        pairs: *mut usize,
        pairs_len: usize,
    ) -> u8;

    pub fn rovignesc_quasi_diagonalization(
        rows: *const usize,
        rows_len: usize,
        assets: usize,
        node: usize,
        order: *mut usize,
        order_len: usize,
        leaves: *mut usize,
        leaves_len: usize,
    ) -> u8;

    pub fn rovignesc_listing(
        text: *const u8,
        text_len: usize,
        listing: *mut u8,
        listing_len: usize,
        bytes: *mut usize,
        bytes_len: usize,
    ) -> u8;

    pub fn rovignesc_sheet(
        text: *const u8,
        text_len: usize,
        named: u8,
        sheet: *mut u8,
        sheet_len: usize,
        bytes: *mut usize,
        bytes_len: usize,
    ) -> u8;

    pub fn rovignesc_refusal_line(
        number: u8,
        line: *mut u8,
        line_len: usize,
        bytes: *mut usize,
        bytes_len: usize,
    ) -> u8;
}
