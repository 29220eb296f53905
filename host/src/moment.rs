//! The five states, whole arrays and ranges.
use crate::abi::{self, OfPair, OfRange, OfTrace};
use crate::refusal::{Given, GivenTrace, Refusal};

macro_rules! states {
    ($($(#[$doc:meta])* $state:ident, $n:literal, $combine:ident, ($($x:ident),*), $insert:ident: $($(#[$about:meta])* $member:ident),*;)*) => {$(
        $(#[$doc])*
        ///
        /// Any floats are a state; the default is the state of no readings.
        #[repr(C)]
        #[derive(Clone, Copy, Debug, Default, PartialEq)]
        pub struct $state {
            $($(#[$about])* pub $member: f64,)*
        }
        impl $state {
            /// The state with one reading, or pair of readings, more.
            #[must_use]
            pub fn insert_one(self, $($x: f64),*) -> Self {
                abi::$insert(self, $($x),*)
            }
            /// The state of this one's readings and then the other's.
            #[must_use]
            pub fn combine(self, other: Self) -> Self {
                abi::$combine(self, other)
            }
        }
        impl From<[f64; $n]> for $state {
            fn from([$($member),*]: [f64; $n]) -> Self {
                Self { $($member),* }
            }
        }
        impl From<$state> for [f64; $n] {
            fn from(state: $state) -> Self {
                [$(state.$member),*]
            }
        }
    )*};
}
states! {
    /// What variance keeps of its readings.
    ///
    /// ```
    /// use moments::VarState;
    /// let state = VarState::default().insert_one(2.0).insert_one(4.0);
    /// assert_eq!(state.finalize(1), Some(2.0));
    /// assert_eq!(state.finalize(2), None);
    /// ```
    VarState, 3, moments_var_combine, (x), moments_var_insert_one:
        /// How many readings.
        weight,
        /// Their mean.
        mean,
        /// The sum of squares about the mean.
        dp;
    /// What covariance keeps of its pairs.
    ///
    /// ```
    /// let state = moments::CovState::default().insert_one(1.0, 2.0).insert_one(3.0, 4.0);
    /// assert_eq!(state.finalize(1), Some(2.0));
    /// ```
    CovState, 4, moments_cov_combine, (x, y), moments_cov_insert_one:
        /// How many pairs.
        weight,
        /// The mean of the first.
        mean_x,
        /// The mean of the second.
        mean_y,
        /// The sum of products about the means.
        dp_xy;
    /// What Pearson's correlation keeps of its pairs.
    ///
    /// ```
    /// let state = moments::PearsonState::default().insert_one(1.0, 2.0);
    /// assert!(state.finalize().is_nan());
    /// assert_eq!(state.insert_one(3.0, 4.0).finalize(), 1.0);
    /// ```
    PearsonState, 6, moments_pearson_combine, (x, y), moments_pearson_insert_one:
        /// How many pairs.
        weight,
        /// The mean of the first.
        mean_x,
        /// The mean of the second.
        mean_y,
        /// The first's sum of squares about its mean.
        dp_xx,
        /// The sum of products about the means.
        dp_xy,
        /// The second's sum of squares about its mean.
        dp_yy;
    /// What skewness keeps of its readings.
    ///
    /// ```
    /// let state = [0.0, 0.0, 0.0, 0.0, 5.0].iter().fold(moments::SkewState::default(), |s, x| s.insert_one(*x));
    /// assert_eq!(state.weight, 5.0);
    /// assert!((state.finalize(true).unwrap() - 1.5).abs() < 1e-12);
    /// ```
    SkewState, 4, moments_skew_combine, (x), moments_skew_insert_one:
        /// How many readings.
        weight,
        /// Their mean.
        mean,
        /// The sum of squares about the mean.
        m2,
        /// The sum of cubes about the mean.
        m3;
    /// What kurtosis keeps of its readings.
    ///
    /// ```
    /// let state = moments::KurtosisState::default().insert_one(1.0).insert_one(3.0);
    /// assert_eq!(state.finalize(true, true), Some(-2.0));
    /// assert_eq!(state.finalize(true, false), None);
    /// ```
    KurtosisState, 5, moments_kurtosis_combine, (x), moments_kurtosis_insert_one:
        /// How many readings.
        weight,
        /// Their mean.
        mean,
        /// The sum of squares about the mean.
        m2,
        /// The sum of cubes about the mean.
        m3,
        /// The sum of fourth powers about the mean.
        m4;
}

/// What a `finalize` of the library leaves in a double and says by a byte.
fn figure(finalize: impl FnOnce(&mut f64) -> u8) -> Option<f64> {
    let mut figure = 0.0;
    (finalize(&mut figure) == 1).then_some(figure)
}
impl VarState {
    /// The variance; none where the weight is at most `ddof`.
    pub fn finalize(self, ddof: u8) -> Option<f64> {
        figure(|out| abi::moments_var_finalize(self, ddof, out))
    }
}
impl CovState {
    /// The covariance; none where the weight is at most `ddof`.
    pub fn finalize(self, ddof: u8) -> Option<f64> {
        figure(|out| abi::moments_cov_finalize(self, ddof, out))
    }
}
impl PearsonState {
    /// The correlation; NaN where there is none.
    pub fn finalize(self) -> f64 {
        abi::moments_pearson_finalize(self)
    }
}
impl SkewState {
    /// The skewness, biased or not; none where the weight is 0, or at most 2 if unbiased.
    pub fn finalize(self, bias: bool) -> Option<f64> {
        figure(|out| abi::moments_skew_finalize(self, bias, out))
    }
}
impl KurtosisState {
    /// The kurtosis, less three where `fisher`, biased or not; none where the weight is 0, or at most 3 if unbiased.
    pub fn finalize(self, fisher: bool, bias: bool) -> Option<f64> {
        figure(|out| abi::moments_kurtosis_finalize(self, fisher, bias, out))
    }
}

/// The correctly rounded square root.
///
/// ```
/// assert_eq!(moments::root(2.0).to_bits(), 0x3FF6_A09E_667F_3BCD);
/// assert!(moments::root(-1.0).is_nan());
/// ```
pub fn root(x: f64) -> f64 {
    abi::moments_root(x)
}

/// A map as an entry takes it: whether there is one, pointer, length.
pub(crate) fn map_parts(map: Option<&[u8]>) -> (bool, *const u8, usize) {
    let bytes = map.unwrap_or(&[]);
    (map.is_some(), bytes.as_ptr(), bytes.len())
}

fn of_trace<const N: usize>(entry: OfTrace<N>, trace: &[f64], map: Option<&[u8]>) -> Result<[f64; N], Refusal> {
    let mut state = [0.0; N];
    let (has_map, m, bytes) = map_parts(map);
    // SAFETY: each pointer and length is a slice's.
    let number = unsafe { entry(trace.as_ptr(), trace.len(), has_map, m, bytes, &mut state) };
    Given::trace(trace, map).result(number)?;
    Ok(state)
}
fn of_pair<const N: usize>(
    entry: OfPair<N>,
    (x, x_map): (&[f64], Option<&[u8]>),
    (y, y_map): (&[f64], Option<&[u8]>),
) -> Result<[f64; N], Refusal> {
    let mut state = [0.0; N];
    let (x_has_map, xm, x_bytes) = map_parts(x_map);
    let (y_has_map, ym, y_bytes) = map_parts(y_map);
    let (a, b) = (x.as_ptr(), y.as_ptr());
    // SAFETY: each pointer and length is a slice's.
    let number = unsafe { entry(a, x.len(), x_has_map, xm, x_bytes, b, y.len(), y_has_map, ym, y_bytes, &mut state) };
    Given { pair: Some(GivenTrace::new(y, y_map)), ..Given::trace(x, x_map) }.result(number)?;
    Ok(state)
}
fn of_range<const N: usize>(
    entry: OfRange<N>,
    trace: &[f64],
    map: Option<&[u8]>,
    (start, length): (usize, usize),
) -> Result<[f64; N], Refusal> {
    let mut state = [0.0; N];
    let (has_map, m, bytes) = map_parts(map);
    // SAFETY: each pointer and length is a slice's.
    let number = unsafe { entry(trace.as_ptr(), trace.len(), has_map, m, bytes, start, length, &mut state) };
    Given { range: (start, length), ..Given::trace(trace, map) }.result(number)?;
    Ok(state)
}

/// Variance's state of a trace's valid readings.
///
/// ```
/// let state = moments::var(&[2.0, 7.0, 4.0], Some(&[0b101]))?;
/// assert_eq!(state.finalize(1), Some(2.0));
/// # Ok::<(), moments::Refusal>(())
/// ```
pub fn var(trace: &[f64], map: Option<&[u8]>) -> Result<VarState, Refusal> {
    of_trace(abi::moments_var, trace, map).map(VarState::from)
}
/// Skewness's state of a trace's valid readings, put together from chunks; [`skew_range`] makes it in one.
///
/// ```
/// assert_eq!(moments::skew(&[1.0, 9.0, 2.0, 3.0], Some(&[0b1101]))?.finalize(true), Some(0.0));
/// # Ok::<(), moments::Refusal>(())
/// ```
pub fn skew(trace: &[f64], map: Option<&[u8]>) -> Result<SkewState, Refusal> {
    of_trace(abi::moments_skew, trace, map).map(SkewState::from)
}
/// Kurtosis's state of a trace's valid readings, put together from chunks; [`kurtosis_range`] makes it in one.
///
/// ```
/// assert_eq!(moments::kurtosis(&[1.0, 3.0], None)?.finalize(false, true), Some(1.0));
/// # Ok::<(), moments::Refusal>(())
/// ```
pub fn kurtosis(trace: &[f64], map: Option<&[u8]>) -> Result<KurtosisState, Refusal> {
    of_trace(abi::moments_kurtosis, trace, map).map(KurtosisState::from)
}
/// Covariance's state of two traces, of the places that are valid in both.
///
/// ```
/// use moments::{cov, Refusal};
/// assert_eq!(cov(&[1.0, 3.0], None, &[2.0, 4.0], None)?.finalize(1), Some(2.0));
/// let refusal = cov(&[1.0, 3.0], None, &[2.0], None).unwrap_err();
/// assert_eq!(refusal, Refusal::LengthsDiffer { first: 2, second: 1 });
/// assert_eq!(refusal.to_string(), "the second trace has 1 reading, the first 2, but two traces must be of one length");
/// # Ok::<(), Refusal>(())
/// ```
pub fn cov(x: &[f64], x_map: Option<&[u8]>, y: &[f64], y_map: Option<&[u8]>) -> Result<CovState, Refusal> {
    of_pair(abi::moments_cov, (x, x_map), (y, y_map)).map(CovState::from)
}
/// Correlation's state of two traces, of the places that are valid in both.
///
/// ```
/// let state = moments::pearson_corr(&[1.0, 3.0], None, &[2.0, 4.0], None)?;
/// assert_eq!(state.finalize(), 1.0);
/// # Ok::<(), moments::Refusal>(())
/// ```
pub fn pearson_corr(x: &[f64], x_map: Option<&[u8]>, y: &[f64], y_map: Option<&[u8]>) -> Result<PearsonState, Refusal> {
    of_pair(abi::moments_pearson_corr, (x, x_map), (y, y_map)).map(PearsonState::from)
}
/// Skewness's state of the valid readings of `length` places from `start`.
///
/// ```
/// let state = moments::skew_range(&[0.0, 0.0, 0.0, 0.0, 5.0], None, 0, 5)?;
/// assert_eq!(state.finalize(true), Some(1.5));
/// # Ok::<(), moments::Refusal>(())
/// ```
pub fn skew_range(trace: &[f64], map: Option<&[u8]>, start: usize, length: usize) -> Result<SkewState, Refusal> {
    of_range(abi::moments_skew_range, trace, map, (start, length)).map(SkewState::from)
}
/// Kurtosis's state of the valid readings of `length` places from `start`.
///
/// ```
/// let state = moments::kurtosis_range(&[9.0, 1.0, 3.0], None, 1, 2)?;
/// assert_eq!(state.finalize(false, true), Some(1.0));
/// let refusal = moments::kurtosis_range(&[9.0, 1.0, 3.0], None, 1, usize::MAX).unwrap_err();
/// assert_eq!(refusal.number(), 11);
/// # Ok::<(), moments::Refusal>(())
/// ```
pub fn kurtosis_range(trace: &[f64], map: Option<&[u8]>, start: usize, length: usize) -> Result<KurtosisState, Refusal> {
    of_range(abi::moments_kurtosis_range, trace, map, (start, length)).map(KurtosisState::from)
}
