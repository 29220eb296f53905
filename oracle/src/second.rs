//! A second implementation beside the Rust, reached by function pointers: `fuzz` asks both. With the feature `host` it is our
//! libmoments.a, by the crate `moments` of ../host.
use crate::host::{Call, Room};
use crate::{pairs, windows};
#[cfg(feature = "host")]
use crate::{Figure, PairFigure};

/// What a call answers.
#[derive(Debug)]
pub enum Answer {
    /// 0 or the refusal's number, and no more.
    Number(u32),
    /// The same in words: of a plan's row that is refused, which row and the numbers that are said of it.
    Words { number: u32, row: Option<(usize, Vec<usize>)> },
}
impl Answer {
    pub fn number(&self) -> u32 {
        match self {
            Answer::Number(number) | Answer::Words { number, .. } => *number,
        }
    }
}
/// The lists that take the answers of a call on one trace. Those of the lowest and of the highest are lent to variance without weights
/// alone.
pub struct Outputs<'a> {
    pub figures: &'a mut [f64],
    pub present: &'a mut [u8],
    pub lowest: (&'a mut [f64], &'a mut [u8]),
    pub highest: (&'a mut [f64], &'a mut [u8]),
}
impl Outputs<'_> {
    fn room(&self, readings: usize, work: usize) -> Room {
        let extremes = [self.lowest.0.len(), self.lowest.1.len(), self.highest.0.len(), self.highest.1.len()];
        Room { readings, work, figures: self.figures.len(), present: self.present.len(), extremes }
    }
}
/// call, readings out, work, answers
pub type PlanFn = fn(&Call, &mut [f64], &mut [f64], Outputs) -> Answer;
/// call (of a figure, or with weights), work, answers
pub type WindowsFn = fn(&windows::Call, &mut [f64], Outputs) -> Answer;
/// call (over a plan or fixed windows), readings of both out (none for fixed windows), work, figures out, present out
pub type PairsFn = fn(&pairs::Case, [&mut [f64]; 2], &mut [f64], &mut [f64], &mut [u8]) -> Answer;

#[derive(Clone, Copy)]
pub struct Impl {
    pub plan: PlanFn,
    pub fixed: WindowsFn,
    pub weighted: Option<WindowsFn>,
    pub pairs: PairsFn,
}

/// A demonstration: the work-slice model of src/model.rs, which has no weights.
pub fn demo() -> Impl {
    use crate::extremes::Extremes;
    fn put(outv: &mut [f64], outp: &mut [u8], i: usize, r: Option<f64>) {
        // a NaN that arithmetic made has the bits FFF8... on x86: document 01 wants 7FF8...
        outv[i] = match r {
            None => 0.0,
            Some(x) if x.is_nan() => f64::from_bits(std::hint::black_box(crate::NAN_BITS)),
            Some(x) => x,
        };
        outp[i] = r.is_some() as u8;
    }
    fn put_all(outs: &mut Outputs, extremes: bool, i: usize, figure: Option<f64>, [lowest, highest]: Extremes) {
        put(outs.figures, outs.present, i, figure);
        if extremes {
            put(outs.lowest.0, outs.lowest.1, i, lowest);
            put(outs.highest.0, outs.highest.1, i, highest);
        }
    }
    fn plan(c: &Call, readings: &mut [f64], work: &mut [f64], mut outs: Outputs) -> Answer {
        let number = c.refusal(outs.room(readings.len(), work.len()));
        if number == 0 {
            let (x, given) = (c.readings(), c.figure.has_extremes());
            readings[..x.len()].copy_from_slice(&x);
            let rows = c.starts.iter().zip(c.ends).map(|(a, b)| (*a as usize, *b as usize));
            let put = |i: usize, figure: Option<f64>, extremes: Extremes| put_all(&mut outs, given, i, figure, extremes);
            crate::model::plan_into(&x, c.map(), rows, c.figure, c.min, work, put, &mut ());
        }
        Answer::Number(number)
    }
    fn fixed(c: &windows::Call, work: &mut [f64], mut outs: Outputs) -> Answer {
        let number = c.refusal(outs.room(0, work.len()));
        if number == 0 {
            let (n, given) = (c.x.len(), c.has_extremes());
            let rows = (0..n).map(|i| crate::offsets(i, c.size, n, c.centre));
            let put = |i: usize, figure: Option<f64>, extremes: Extremes| put_all(&mut outs, given, i, figure, extremes);
            crate::model::plan_into(c.x, c.map(), rows, c.figure, c.min, work, put, &mut ());
        }
        Answer::Number(number)
    }
    fn pairs(c: &pairs::Case, readings: [&mut [f64]; 2], work: &mut [f64], figures: &mut [f64], present: &mut [u8]) -> Answer {
        let number = c.refusal();
        if number == 0 {
            let (x, y) = (c.x.readings(), c.y.readings());
            if c.decodes() {
                readings.into_iter().zip([&x, &y]).for_each(|(list, x)| list[..x.len()].copy_from_slice(x));
            }
            let (maps, rows) = ([c.x.map(), c.y.map()], c.rows().into_iter());
            crate::model::pairs_into([&x, &y], maps, rows, c.figure, c.min, work, |i, r| put(figures, present, i, r), &mut ());
        }
        Answer::Number(number)
    }
    Impl { plan, fixed, weighted: None, pairs }
}

#[cfg(not(feature = "host"))]
pub fn second() -> Option<Impl> {
    None
}
#[cfg(feature = "host")]
pub fn second() -> Option<Impl> {
    Some(Impl { plan: ours::plan, fixed: ours::windows, weighted: Some(ours::windows), pairs: ours::pairs })
}

/// A figure and a minimum as ../host has them.
#[cfg(feature = "host")]
pub fn setting(figure: Figure, min: usize) -> moments::Setting {
    use moments::Setting;
    match figure {
        Figure::Var { ddof } => Setting::var(ddof).min_periods(min).into(),
        Figure::Skew { bias } => Setting::skew(bias).min_periods(min).into(),
        Figure::Kurt { fisher, bias } => Setting::kurtosis(fisher, bias).min_periods(min).into(),
    }
}
#[cfg(feature = "host")]
pub fn pair_setting(figure: PairFigure, min: usize) -> moments::Setting<moments::PairFigure> {
    let setting = match figure {
        PairFigure::Cov { ddof } => moments::Setting::cov(ddof),
        PairFigure::Pearson => moments::Setting::pearson_corr(),
    };
    setting.min_periods(min)
}

#[cfg(feature = "host")]
mod ours {
    use super::{pair_setting, setting, Answer, Outputs};
    use crate::host::Call;
    use crate::pairs::{self, Windows};
    use crate::{windows, Figure, PairFigure};
    use moments::{abi, plan_into, plan_pair_into, plan_var_into, rolling_into, rolling_pair_into, rolling_var_into};
    use moments::{rolling_var_weights_into, Column, Encoded, Lists, Plan, Refusal, Setting, VarLists, Window};

    fn answer(result: Result<(), Refusal>) -> Answer {
        let Err(refusal) = result else { return Answer::Words { number: 0, row: None } };
        let wide = |v: &[u32]| v.iter().map(|v| *v as usize).collect();
        let said = match refusal {
            Refusal::StartAfterEnd { start, end, .. } => wide(&[start, end]),
            Refusal::EndPastTrace { end, readings, .. } => vec![end as usize, readings],
            Refusal::BelowRowBefore { bounds, before, .. } => wide(&[bounds.0, bounds.1, before.0, before.1]),
            _ => vec![],
        };
        Answer::Words { number: refusal.number(), row: refusal.row().map(|row| (row, said)) }
    }

    /// The lists of variance as ../host has them.
    fn lists<'a>(work: &'a mut [f64], outs: Outputs<'a>) -> VarLists<'a> {
        let Outputs { figures, present, lowest, highest } = outs;
        let [variance, lowest, highest] = [(figures, present), lowest, highest].map(|(values, present)| Column::new(values, present));
        VarLists { work, variance, lowest, highest }
    }

    #[rustfmt::skip]
    pub fn plan(c: &Call, readings: &mut [f64], work: &mut [f64], outs: Outputs) -> Answer {
        if c.has_map || c.map.is_empty() {
            let (plan, Setting { figure, min_periods }) = (Plan::new(c.starts, c.ends), setting(c.figure, c.min));
            return answer(match figure {
                moments::Figure::Var(figure) => {
                    plan_var_into(c.trace, readings, c.map(), plan, Setting { figure, min_periods }, lists(work, outs))
                }
                moments::Figure::Shape(figure) => {
                    let lists = Lists { work, figures: outs.figures, present: outs.present };
                    plan_into(c.trace, readings, c.map(), plan, Setting { figure, min_periods }, lists)
                }
            });
        }
        // bytes where no map is lent: the safe function has none there
        let (t, tn, rd, rn) = (c.trace.as_ptr(), c.trace.len(), readings.as_mut_ptr(), readings.len());
        let (mp, mn) = (c.map.as_ptr(), c.map.len());
        let (sp, sn, ep, en, min) = (c.starts.as_ptr(), c.starts.len(), c.ends.as_ptr(), c.ends.len(), c.min);
        let (wp, wn) = (work.as_mut_ptr(), work.len());
        let (vp, vn, pp, pn) = parts((outs.figures, outs.present));
        let ((lv, lvn, lp, lpn), (hv, hvn, hp, hpn)) = (parts(outs.lowest), parts(outs.highest));
        // SAFETY: each pointer and length is a slice's, and the lists that are written to are lent to this call alone.
        Answer::Number(unsafe {
            match c.figure {
                Figure::Var { ddof } => abi::moments_plan_var(
                    t, tn, rd, rn, false, mp, mn, sp, sn, ep, en, min, ddof, wp, wn, vp, vn, pp, pn,
                    lv, lvn, lp, lpn, hv, hvn, hp, hpn,
                ),
                Figure::Skew { bias } => abi::moments_plan_skew(
                    t, tn, rd, rn, false, mp, mn, sp, sn, ep, en, min, bias, wp, wn, vp, vn, pp, pn,
                ),
                Figure::Kurt { fisher, bias } => abi::moments_plan_kurtosis(
                    t, tn, rd, rn, false, mp, mn, sp, sn, ep, en, min, fisher, bias, wp, wn, vp, vn, pp, pn,
                ),
            }
        })
    }
    /// As an entry takes them.
    fn parts((values, present): (&mut [f64], &mut [u8])) -> (*mut f64, usize, *mut u8, usize) {
        (values.as_mut_ptr(), values.len(), present.as_mut_ptr(), present.len())
    }

    #[rustfmt::skip]
    pub fn windows(c: &windows::Call, work: &mut [f64], outs: Outputs) -> Answer {
        if c.has_map || c.map.is_empty() {
            let (window, Setting { figure, min_periods }) = (Window { size: c.size, center: c.centre }, setting(c.figure, c.min));
            return answer(match (c.weights, figure) {
                (Some(weights), _) => rolling_var_weights_into(c.x, c.map(), window, c.min, weights, outs.figures, outs.present),
                (_, moments::Figure::Var(figure)) => {
                    rolling_var_into(c.x, c.map(), window, Setting { figure, min_periods }, lists(work, outs))
                }
                (_, moments::Figure::Shape(figure)) => {
                    let lists = Lists { work, figures: outs.figures, present: outs.present };
                    rolling_into(c.x, c.map(), window, Setting { figure, min_periods }, lists)
                }
            });
        }
        let (t, n, mp, mn, size, min, centre) = (c.x.as_ptr(), c.x.len(), c.map.as_ptr(), c.map.len(), c.size, c.min, c.centre);
        let (wp, wn) = (work.as_mut_ptr(), work.len());
        let (vp, vn, pp, pn) = parts((outs.figures, outs.present));
        let ((lv, lvn, lp, lpn), (hv, hvn, hp, hpn)) = (parts(outs.lowest), parts(outs.highest));
        // SAFETY: as above.
        Answer::Number(unsafe {
            match (c.weights, c.figure) {
                (Some(w), _) => abi::moments_rolling_var_weights(
                    t, n, false, mp, mn, size, min, centre, w.as_ptr(), w.len(), vp, vn, pp, pn,
                ),
                (_, Figure::Var { ddof }) => abi::moments_rolling_var(
                    t, n, false, mp, mn, size, min, centre, ddof, wp, wn, vp, vn, pp, pn, lv, lvn, lp, lpn, hv, hvn, hp, hpn,
                ),
                (_, Figure::Skew { bias }) => abi::moments_rolling_skew(
                    t, n, false, mp, mn, size, min, centre, bias, wp, wn, vp, vn, pp, pn,
                ),
                (_, Figure::Kurt { fisher, bias }) => abi::moments_rolling_kurtosis(
                    t, n, false, mp, mn, size, min, centre, fisher, bias, wp, wn, vp, vn, pp, pn,
                ),
            }
        })
    }

    #[rustfmt::skip]
    pub fn pairs(c: &pairs::Case, readings: [&mut [f64]; 2], work: &mut [f64], figures: &mut [f64], present: &mut [u8]) -> Answer {
        let (a, b) = if c.decodes() { (vec![], vec![]) } else { (c.x.readings(), c.y.readings()) };
        let [x_readings, y_readings] = readings;
        if [&c.x, &c.y].iter().all(|trace| trace.has_map || trace.map.is_empty()) {
            let (setting, lists) = (pair_setting(c.figure, c.min), Lists { work, figures, present });
            return answer(match &c.windows {
                Windows::Plan { starts, ends } => {
                    let x = Encoded { bytes: c.x.bytes(), readings: x_readings, map: c.x.map() };
                    let y = Encoded { bytes: c.y.bytes(), readings: y_readings, map: c.y.map() };
                    plan_pair_into(x, y, Plan::new(starts, ends), setting, lists)
                }
                Windows::Fixed { size, centre } => {
                    rolling_pair_into(&a, c.x.map(), &b, c.y.map(), Window { size: *size, center: *centre }, setting, lists)
                }
            });
        }
        let (xh, xm, xmn, yh, ym, ymn) = (c.x.has_map, c.x.map.as_ptr(), c.x.map.len(), c.y.has_map, c.y.map.as_ptr(), c.y.map.len());
        let (wp, wn, vp, vn) = (work.as_mut_ptr(), work.len(), figures.as_mut_ptr(), figures.len());
        let (pp, pn) = (present.as_mut_ptr(), present.len());
        // SAFETY: as above.
        Answer::Number(unsafe {
            match &c.windows {
                Windows::Plan { starts, ends } => {
                    let (x, xn, xr, xrn) = (c.x.bytes().as_ptr(), c.x.bytes().len(), x_readings.as_mut_ptr(), x_readings.len());
                    let (y, yn, yr, yrn) = (c.y.bytes().as_ptr(), c.y.bytes().len(), y_readings.as_mut_ptr(), y_readings.len());
                    let (sp, sn, ep, en, min) = (starts.as_ptr(), starts.len(), ends.as_ptr(), ends.len(), c.min);
                    match c.figure {
                        PairFigure::Cov { ddof } => abi::moments_plan_cov(
                            x, xn, xr, xrn, xh, xm, xmn, y, yn, yr, yrn, yh, ym, ymn, sp, sn, ep, en, min, ddof, wp, wn, vp, vn, pp, pn,
                        ),
                        PairFigure::Pearson => abi::moments_plan_pearson_corr(
                            x, xn, xr, xrn, xh, xm, xmn, y, yn, yr, yrn, yh, ym, ymn, sp, sn, ep, en, min, wp, wn, vp, vn, pp, pn,
                        ),
                    }
                }
                Windows::Fixed { size, centre } => {
                    let (x, xn, y, yn, size, centre, min) = (a.as_ptr(), a.len(), b.as_ptr(), b.len(), *size, *centre, c.min);
                    match c.figure {
                        PairFigure::Cov { ddof } => abi::moments_rolling_cov(
                            x, xn, xh, xm, xmn, y, yn, yh, ym, ymn, size, min, centre, ddof, wp, wn, vp, vn, pp, pn,
                        ),
                        PairFigure::Pearson => abi::moments_rolling_pearson_corr(
                            x, xn, xh, xm, xmn, y, yn, yh, ym, ymn, size, min, centre, wp, wn, vp, vn, pp, pn,
                        ),
                    }
                }
            }
        })
    }
}
