//! Variance, covariance, correlation, skewness and kurtosis of a trace of 64-bit floats: of all of it, of a range, and over
//! moving windows. Safe Rust over libmoments.a, a library in Rattle whose functions are proved to meet their contracts.
//!
//! - States: [`VarState`], [`CovState`], [`PearsonState`], [`SkewState`], [`KurtosisState`]; readings are inserted, two states combine,
//!   `finalize` gives the figure. [`root`] is the square root they use.
//! - Whole traces: [`var`], [`skew`], [`kurtosis`], [`cov`], [`pearson_corr`]. Ranges: [`skew_range`], [`kurtosis_range`].
//! - Windows: [`plan`] for a [`Plan`] of any windows, [`rolling`] for a [`Window`] of one size, [`rolling_var_weights`] for weighted ones;
//!   [`plan_var`] and [`rolling_var`] give the lowest and the highest reading of each window with the variance; over two traces
//!   [`plan_pair`] and [`rolling_pair`]. What is asked of each window is a [`Setting`]. Those that end in `_into` take the lists to write
//!   to and allocate nothing.
//!
//! A trace is a slice. Where readings are missing, a map has a bit for each place, lowest bit first, 1 for valid, in at least as many
//! bytes as that takes; [`trace_of`] makes both. Spare bits and the bytes behind are ignored, so the bitmap of an Arrow array, padded to
//! 8 or 64 bytes, can be lent as it is where its offset is 0; where it is not, [`map_of`] makes the map, and a bitmap lent without its
//! offset is not noticed. A call gives its answer or a [`Refusal`], and does not panic.
//!
//! ```
//! use moments::{rolling, trace_of, var, Setting, Window};
//! let (trace, map) = trace_of([Some(2.0), Some(4.0), None, Some(8.0)]);
//! let answers = rolling(&trace, map.as_deref(), Window::trailing(2), Setting::var(1))?;
//! assert_eq!(answers, [None, Some(2.0), None, None]);      // at ddof 1 a figure takes two readings
//! assert_eq!(var(&trace, map.as_deref())?.weight, 3.0);
//! # Ok::<(), moments::Refusal>(())
//! ```
//!
//! What is proved and what is trusted is in the repository's docs/TRUST.md.

#[cfg(not(target_arch = "x86_64"))]
compile_error!("libmoments.a is for x86-64");

pub mod abi;
mod map;
mod moment;
mod refusal;
mod rolling;

pub use map::{is_valid, map_of, trace_of};
pub use moment::{
    cov, kurtosis, kurtosis_range, pearson_corr, root, skew, skew_range, var, CovState, KurtosisState, PearsonState, SkewState,
    VarState,
};
pub use refusal::{List, Refusal, Which, MOST};
pub use rolling::{
    plan, plan_into, plan_pair, plan_pair_into, plan_var, plan_var_into, rolling, rolling_into, rolling_pair, rolling_pair_into,
    rolling_var, rolling_var_into, rolling_var_weights, rolling_var_weights_into, Answer, Column, Encoded, Figure, Kind, Lists,
    PairFigure, Plan, Setting, Shape, Var, VarLists, Window,
};

/// The README's example is run too.
#[cfg(doctest)]
#[doc = include_str!("../../README.md")]
struct Readme;
