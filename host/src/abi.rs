//! The entries of libmoments.a as a linker sees them; the rest of the crate calls them safely.
//!
//! Names, order and types are those of docs/ABI.md, where a slice is a pointer and then a length (`trace`, `trace_len`);
//! `tests/library/declarations.rs` holds each to that document and to the Rattle source. A map has at least as many bytes as
//! one bit a reading takes; spare bits and the bytes behind are ignored.
//!
//! # Safety
//!
//! An entry here that is unsafe takes pointers. Each must be aligned and not null, and as many places behind it as its length says must be
//! readable, of a `*mut` list writable too and in no other list of the call. That is all: the entries have no other precondition.
//! Where `has_map` (`x_has_map`, `y_has_map`) is false, that map is not looked at.
use crate::{CovState, KurtosisState, PearsonState, SkewState, VarState};

/// An entry that makes a state of a trace: the trace, whether there is a map, the map, the state.
pub type OfTrace<const N: usize> = unsafe extern "C" fn(*const f64, usize, bool, *const u8, usize, &mut [f64; N]) -> u32;
/// An entry that makes a state of two traces, each as above, with the state last.
pub type OfPair<const N: usize> = unsafe extern "C" fn(
    *const f64,
    usize,
    bool,
    *const u8,
    usize,
    *const f64,
    usize,
    bool,
    *const u8,
    usize,
    &mut [f64; N],
) -> u32;
/// An entry that makes a state of a range: a trace as above, the start, the length, the state.
pub type OfRange<const N: usize> =
    unsafe extern "C" fn(*const f64, usize, bool, *const u8, usize, usize, usize, &mut [f64; N]) -> u32;

unsafe extern "C" {
    /// Variance of a plan's windows, with the lowest and the highest finite reading of each.
    pub fn moments_plan_var(
        trace: *const u8,
        trace_len: usize,
        readings: *mut f64,
        readings_len: usize,
        has_map: bool,
        map: *const u8,
        map_len: usize,
        starts: *const u32,
        starts_len: usize,
        ends: *const u32,
        ends_len: usize,
        min_periods: usize,
        ddof: u8,
        work: *mut f64,
        work_len: usize,
        figures: *mut f64,
        figures_len: usize,
        present: *mut u8,
        present_len: usize,
        lowest: *mut f64,
        lowest_len: usize,
        lowest_present: *mut u8,
        lowest_present_len: usize,
        highest: *mut f64,
        highest_len: usize,
        highest_present: *mut u8,
        highest_present_len: usize,
    ) -> u32;
    /// Skewness of a plan's windows.
    pub fn moments_plan_skew(
        trace: *const u8,
        trace_len: usize,
        readings: *mut f64,
        readings_len: usize,
        has_map: bool,
        map: *const u8,
        map_len: usize,
        starts: *const u32,
        starts_len: usize,
        ends: *const u32,
        ends_len: usize,
        min_periods: usize,
        bias: bool,
        work: *mut f64,
        work_len: usize,
        figures: *mut f64,
        figures_len: usize,
        present: *mut u8,
        present_len: usize,
    ) -> u32;
    /// Kurtosis of a plan's windows.
    pub fn moments_plan_kurtosis(
        trace: *const u8,
        trace_len: usize,
        readings: *mut f64,
        readings_len: usize,
        has_map: bool,
        map: *const u8,
        map_len: usize,
        starts: *const u32,
        starts_len: usize,
        ends: *const u32,
        ends_len: usize,
        min_periods: usize,
        fisher: bool,
        bias: bool,
        work: *mut f64,
        work_len: usize,
        figures: *mut f64,
        figures_len: usize,
        present: *mut u8,
        present_len: usize,
    ) -> u32;
    /// Covariance of a plan's windows over two traces.
    pub fn moments_plan_cov(
        x: *const u8,
        x_len: usize,
        x_readings: *mut f64,
        x_readings_len: usize,
        x_has_map: bool,
        x_map: *const u8,
        x_map_len: usize,
        y: *const u8,
        y_len: usize,
        y_readings: *mut f64,
        y_readings_len: usize,
        y_has_map: bool,
        y_map: *const u8,
        y_map_len: usize,
        starts: *const u32,
        starts_len: usize,
        ends: *const u32,
        ends_len: usize,
        min_periods: usize,
        ddof: u8,
        work: *mut f64,
        work_len: usize,
        figures: *mut f64,
        figures_len: usize,
        present: *mut u8,
        present_len: usize,
    ) -> u32;
    /// Correlation of a plan's windows over two traces.
    pub fn moments_plan_pearson_corr(
        x: *const u8,
        x_len: usize,
        x_readings: *mut f64,
        x_readings_len: usize,
        x_has_map: bool,
        x_map: *const u8,
        x_map_len: usize,
        y: *const u8,
        y_len: usize,
        y_readings: *mut f64,
        y_readings_len: usize,
        y_has_map: bool,
        y_map: *const u8,
        y_map_len: usize,
        starts: *const u32,
        starts_len: usize,
        ends: *const u32,
        ends_len: usize,
        min_periods: usize,
        work: *mut f64,
        work_len: usize,
        figures: *mut f64,
        figures_len: usize,
        present: *mut u8,
        present_len: usize,
    ) -> u32;

    /// Variance of fixed windows, with the lowest and the highest finite reading of each.
    pub fn moments_rolling_var(
        trace: *const f64,
        trace_len: usize,
        has_map: bool,
        map: *const u8,
        map_len: usize,
        window_size: usize,
        min_periods: usize,
        center: bool,
        ddof: u8,
        work: *mut f64,
        work_len: usize,
        figures: *mut f64,
        figures_len: usize,
        present: *mut u8,
        present_len: usize,
        lowest: *mut f64,
        lowest_len: usize,
        lowest_present: *mut u8,
        lowest_present_len: usize,
        highest: *mut f64,
        highest_len: usize,
        highest_present: *mut u8,
        highest_present_len: usize,
    ) -> u32;
    /// Skewness of fixed windows.
    pub fn moments_rolling_skew(
        trace: *const f64,
        trace_len: usize,
        has_map: bool,
        map: *const u8,
        map_len: usize,
        window_size: usize,
        min_periods: usize,
        center: bool,
        bias: bool,
        work: *mut f64,
        work_len: usize,
        figures: *mut f64,
        figures_len: usize,
        present: *mut u8,
        present_len: usize,
    ) -> u32;
    /// Kurtosis of fixed windows.
    pub fn moments_rolling_kurtosis(
        trace: *const f64,
        trace_len: usize,
        has_map: bool,
        map: *const u8,
        map_len: usize,
        window_size: usize,
        min_periods: usize,
        center: bool,
        fisher: bool,
        bias: bool,
        work: *mut f64,
        work_len: usize,
        figures: *mut f64,
        figures_len: usize,
        present: *mut u8,
        present_len: usize,
    ) -> u32;
    /// Covariance of fixed windows over two traces.
    pub fn moments_rolling_cov(
        x: *const f64,
        x_len: usize,
        x_has_map: bool,
        x_map: *const u8,
        x_map_len: usize,
        y: *const f64,
        y_len: usize,
        y_has_map: bool,
        y_map: *const u8,
        y_map_len: usize,
        window_size: usize,
        min_periods: usize,
        center: bool,
        ddof: u8,
        work: *mut f64,
        work_len: usize,
        figures: *mut f64,
        figures_len: usize,
        present: *mut u8,
        present_len: usize,
    ) -> u32;
    /// Correlation of fixed windows over two traces.
    pub fn moments_rolling_pearson_corr(
        x: *const f64,
        x_len: usize,
        x_has_map: bool,
        x_map: *const u8,
        x_map_len: usize,
        y: *const f64,
        y_len: usize,
        y_has_map: bool,
        y_map: *const u8,
        y_map_len: usize,
        window_size: usize,
        min_periods: usize,
        center: bool,
        work: *mut f64,
        work_len: usize,
        figures: *mut f64,
        figures_len: usize,
        present: *mut u8,
        present_len: usize,
    ) -> u32;
    /// Weighted variance of fixed windows.
    pub fn moments_rolling_var_weights(
        trace: *const f64,
        trace_len: usize,
        has_map: bool,
        map: *const u8,
        map_len: usize,
        window_size: usize,
        min_periods: usize,
        center: bool,
        weights: *const f64,
        weights_len: usize,
        figures: *mut f64,
        figures_len: usize,
        present: *mut u8,
        present_len: usize,
    ) -> u32;

    /// Variance's state of a whole array.
    pub fn moments_var(
        trace: *const f64,
        trace_len: usize,
        has_map: bool,
        map: *const u8,
        map_len: usize,
        state: &mut [f64; 3],
    ) -> u32;
    /// Skewness's state of a whole array.
    pub fn moments_skew(
        trace: *const f64,
        trace_len: usize,
        has_map: bool,
        map: *const u8,
        map_len: usize,
        state: &mut [f64; 4],
    ) -> u32;
    /// Kurtosis's state of a whole array.
    pub fn moments_kurtosis(
        trace: *const f64,
        trace_len: usize,
        has_map: bool,
        map: *const u8,
        map_len: usize,
        state: &mut [f64; 5],
    ) -> u32;
    /// Covariance's state of two whole arrays.
    pub fn moments_cov(
        x: *const f64,
        x_len: usize,
        x_has_map: bool,
        x_map: *const u8,
        x_map_len: usize,
        y: *const f64,
        y_len: usize,
        y_has_map: bool,
        y_map: *const u8,
        y_map_len: usize,
        state: &mut [f64; 4],
    ) -> u32;
    /// Correlation's state of two whole arrays.
    pub fn moments_pearson_corr(
        x: *const f64,
        x_len: usize,
        x_has_map: bool,
        x_map: *const u8,
        x_map_len: usize,
        y: *const f64,
        y_len: usize,
        y_has_map: bool,
        y_map: *const u8,
        y_map_len: usize,
        state: &mut [f64; 6],
    ) -> u32;
    /// Skewness's state of a range.
    pub fn moments_skew_range(
        trace: *const f64,
        trace_len: usize,
        has_map: bool,
        map: *const u8,
        map_len: usize,
        start: usize,
        length: usize,
        state: &mut [f64; 4],
    ) -> u32;
    /// Kurtosis's state of a range.
    pub fn moments_kurtosis_range(
        trace: *const f64,
        trace_len: usize,
        has_map: bool,
        map: *const u8,
        map_len: usize,
        start: usize,
        length: usize,
        state: &mut [f64; 5],
    ) -> u32;

    /// A reading more.
    pub safe fn moments_var_insert_one(state: VarState, x: f64) -> VarState;
    /// A pair more.
    pub safe fn moments_cov_insert_one(state: CovState, x: f64, y: f64) -> CovState;
    /// A pair more.
    pub safe fn moments_pearson_insert_one(state: PearsonState, x: f64, y: f64) -> PearsonState;
    /// A reading more.
    pub safe fn moments_skew_insert_one(state: SkewState, x: f64) -> SkewState;
    /// A reading more.
    pub safe fn moments_kurtosis_insert_one(state: KurtosisState, x: f64) -> KurtosisState;
    /// Two states as one.
    pub safe fn moments_var_combine(state: VarState, other: VarState) -> VarState;
    /// Two states as one.
    pub safe fn moments_cov_combine(state: CovState, other: CovState) -> CovState;
    /// Two states as one.
    pub safe fn moments_pearson_combine(state: PearsonState, other: PearsonState) -> PearsonState;
    /// Two states as one.
    pub safe fn moments_skew_combine(state: SkewState, other: SkewState) -> SkewState;
    /// Two states as one.
    pub safe fn moments_kurtosis_combine(state: KurtosisState, other: KurtosisState) -> KurtosisState;
    /// The variance: 1 present, 0 missing.
    pub safe fn moments_var_finalize(state: VarState, ddof: u8, figure: &mut f64) -> u8;
    /// The covariance: 1 present, 0 missing.
    pub safe fn moments_cov_finalize(state: CovState, ddof: u8, figure: &mut f64) -> u8;
    /// The skewness: 1 present, 0 missing.
    pub safe fn moments_skew_finalize(state: SkewState, bias: bool, figure: &mut f64) -> u8;
    /// The kurtosis: 1 present, 0 missing.
    pub safe fn moments_kurtosis_finalize(state: KurtosisState, fisher: bool, bias: bool, figure: &mut f64) -> u8;
    /// The correlation.
    pub safe fn moments_pearson_finalize(state: PearsonState) -> f64;
    /// The square root.
    pub safe fn moments_root(x: f64) -> f64;
}
