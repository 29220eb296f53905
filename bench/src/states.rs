//! The five states and the root: one call at a time.
//!
//! - Independent: n states, a call on each; no call waits for another.
//! - Chain: one state that takes n readings or other states, so that each call waits for the one before.
//! - Figures: n states, each finalised.
//!
//! The Rust's method stands behind a function that is not inlined, reached by a pointer that the compiler cannot see through, with
//! the method's own signature: the state is changed in place. Ours is called as a user calls it: the method of ../host is inlined
//! and calls the entry, which takes the state by value and gives it back, both through memory. So each side makes one call a step, and the
//! copies that a caller of ours makes are counted with ours. Two kinds of lines show what is behind a ratio:
//!
//! - 'by value': the Rust's method, not inlined either, behind the C signature that our entry has. What is left is the work itself.
//! - 'inlined', which is no target: the Rust as it is in a program of its own, where a chain keeps its state in registers. No
//!   library behind a C interface can do that.
use crate::input::Input;
use crate::measure::{Aim, Bench, Case};
use std::hint::black_box;

/// States that are cycled through.
const TABLE: usize = 64;

/// What a `finalize` answers.
trait Answer: Copy {
    fn bits(self) -> u64;
    fn same(self, other: Self) -> bool;
    /// As an entry gives it: the figure goes out by a pointer, and whether it is present by a byte.
    fn put(self, figure: &mut f64) -> u8;
    fn got(figure: f64, present: u8) -> Self;
}
impl Answer for f64 {
    fn bits(self) -> u64 {
        self.to_bits()
    }
    fn put(self, figure: &mut f64) -> u8 {
        *figure = self;
        1
    }
    fn got(figure: f64, _: u8) -> Self {
        figure
    }
    fn same(self, other: Self) -> bool {
        oracle::same(self, other)
    }
}
impl Answer for Option<f64> {
    fn bits(self) -> u64 {
        self.map_or(1, f64::to_bits)
    }
    fn put(self, figure: &mut f64) -> u8 {
        *figure = self.unwrap_or(0.0);
        self.is_some().into()
    }
    fn got(figure: f64, present: u8) -> Self {
        (present == 1).then_some(figure)
    }
    fn same(self, other: Self) -> bool {
        oracle::same_row(self, other)
    }
}

/// A state of both, under one interface.
trait State {
    const NAME: &'static str;
    /// What `finalize` takes, with a name for it.
    const SETTINGS: &'static [(&'static str, Self::Setting)];
    type Reading: Copy;
    type Setting: Copy + 'static;
    type Answer: Answer;
    type Rust: Clone + Default;
    type Ours: Copy + Default;
    fn readings(input: &Input) -> Vec<Self::Reading>;
    fn insert_one(state: &mut Self::Rust, reading: Self::Reading);
    fn our_insert_one(state: Self::Ours, reading: Self::Reading) -> Self::Ours;
    fn combine(state: &mut Self::Rust, other: &Self::Rust);
    fn our_combine(state: Self::Ours, other: Self::Ours) -> Self::Ours;
    fn finalize(state: &Self::Rust, setting: Self::Setting) -> Self::Answer;
    fn our_finalize(state: Self::Ours, setting: Self::Setting) -> Self::Answer;
    fn ours(rust: &Self::Rust) -> Self::Ours;
    fn same(rust: &Self::Rust, ours: &Self::Ours) -> bool;
}
macro_rules! state {
    ($Name:ident, $State:ident, $name:literal, $Reading:ty, $readings:expr, $reading:pat => ($($read:expr),*),
     $Setting:ty, $setting:pat => ($($set:expr),*), $Answer:ty, $settings:expr) => {
        struct $Name;
        impl State for $Name {
            const NAME: &'static str = $name;
            const SETTINGS: &'static [(&'static str, $Setting)] = &$settings;
            type Reading = $Reading;
            type Setting = $Setting;
            type Answer = $Answer;
            type Rust = oracle::$State;
            type Ours = moments::$State;
            fn readings(input: &Input) -> Vec<$Reading> {
                $readings(input)
            }
            #[inline(always)]
            fn insert_one(state: &mut Self::Rust, $reading: $Reading) {
                state.insert_one($($read),*)
            }
            #[inline(always)]
            fn our_insert_one(state: Self::Ours, $reading: $Reading) -> Self::Ours {
                state.insert_one($($read),*)
            }
            #[inline(always)]
            fn combine(state: &mut Self::Rust, other: &Self::Rust) {
                state.combine(other)
            }
            #[inline(always)]
            fn our_combine(state: Self::Ours, other: Self::Ours) -> Self::Ours {
                state.combine(other)
            }
            #[inline(always)]
            fn finalize(state: &Self::Rust, $setting: $Setting) -> $Answer {
                state.finalize($($set),*)
            }
            #[inline(always)]
            fn our_finalize(state: Self::Ours, $setting: $Setting) -> $Answer {
                state.finalize($($set),*)
            }
            fn ours(rust: &Self::Rust) -> Self::Ours {
                let members: [f64; oracle::$State::FIELDS] = rust.fields().try_into().expect("its members");
                members.into()
            }
            fn same(rust: &Self::Rust, ours: &Self::Ours) -> bool {
                let ours: [f64; oracle::$State::FIELDS] = (*ours).into();
                rust.fields().into_iter().zip(ours).all(|(a, b)| oracle::same(a, b))
            }
        }
    };
}
fn singles(input: &Input) -> Vec<f64> {
    input.x.clone()
}
fn pairs(input: &Input) -> Vec<(f64, f64)> {
    input.x.iter().copied().zip(input.y.iter().copied()).collect()
}
state!(Var, VarState, "var", f64, singles, x => (x), u8, ddof => (ddof), Option<f64>, [("", 1)]);
state!(Cov, CovState, "cov", (f64, f64), pairs, (x, y) => (x, y), u8, ddof => (ddof), Option<f64>, [("", 1)]);
state!(Pearson, PearsonState, "pearson", (f64, f64), pairs, (x, y) => (x, y), (), () => (), f64, [("", ())]);
state!(Skew, SkewState, "skew", f64, singles, x => (x), bool, bias => (bias), Option<f64>, [("", false), (" biased", true)]);
state!(Kurtosis, KurtosisState, "kurtosis", f64, singles, x => (x), (bool, bool), (fisher, bias) => (fisher, bias), Option<f64>,
    [("", (true, false)), (" biased", (true, true))]);

#[inline(never)]
fn insert_one<S: State>(state: &mut S::Rust, reading: S::Reading) {
    S::insert_one(state, reading)
}
#[inline(never)]
fn combine<S: State>(state: &mut S::Rust, other: &S::Rust) {
    S::combine(state, other)
}
#[inline(never)]
fn finalize<S: State>(state: &S::Rust, setting: S::Setting) -> S::Answer {
    S::finalize(state, setting)
}
/// The methods behind the signatures that our entries have.
#[allow(improper_ctypes_definitions)]
#[inline(never)]
extern "C" fn insert_one_by_value<S: State>(mut state: S::Rust, reading: S::Reading) -> S::Rust {
    S::insert_one(&mut state, reading);
    state
}
#[allow(improper_ctypes_definitions)]
#[inline(never)]
extern "C" fn combine_by_value<S: State>(mut state: S::Rust, other: S::Rust) -> S::Rust {
    S::combine(&mut state, &other);
    state
}
#[allow(improper_ctypes_definitions)]
#[inline(never)]
extern "C" fn finalize_by_value<S: State>(state: S::Rust, setting: S::Setting, figure: &mut f64) -> u8 {
    S::finalize(&state, setting).put(figure)
}
type FinalizeByValue<S> = extern "C" fn(<S as State>::Rust, <S as State>::Setting, &mut f64) -> u8;
type InsertByValue<S> = extern "C" fn(<S as State>::Rust, <S as State>::Reading) -> <S as State>::Rust;
type CombineByValue<S> = extern "C" fn(<S as State>::Rust, <S as State>::Rust) -> <S as State>::Rust;
type Insert<S> = fn(&mut <S as State>::Rust, <S as State>::Reading);
type Combine<S> = fn(&mut <S as State>::Rust, &<S as State>::Rust);
type Finalize<S> = fn(&<S as State>::Rust, <S as State>::Setting) -> <S as State>::Answer;

/// The states of 4 readings and more, in both forms.
fn table<S: State>(readings: &[S::Reading]) -> (Vec<S::Rust>, Vec<S::Ours>) {
    (0..TABLE)
        .map(|i| {
            let mut state = S::Rust::default();
            readings.iter().cycle().skip(i).take(4 + i).for_each(|reading| S::insert_one(&mut state, *reading));
            let ours = S::ours(&state);
            (state, ours)
        })
        .unzip()
}
fn all_same<S: State>((rust, ours): (Vec<S::Rust>, Vec<S::Ours>)) -> impl Iterator<Item = bool> {
    assert_eq!(rust.len(), ours.len());
    rust.into_iter().zip(ours).map(|(rust, ours)| S::same(&rust, &ours))
}

type Both<S> = (Vec<<S as State>::Rust>, Vec<<S as State>::Ours>);

fn of<S: State>(bench: &mut Bench, input: &Input) {
    let n = input.n;
    let case = |what: &str, aim| Case { section: "States", name: format!("{} {what}", S::NAME), aim, n };
    let target = |what: &str| case(what, Aim::AtMost(1.0));
    let extra = |what: &str| case(&format!("{what} (no target)"), Aim::None);
    let readings = &S::readings(input)[..];
    let (others, our_others) = &table::<S>(readings);
    let many = || (others.iter().cycle().take(n).cloned().collect(), our_others.iter().cycle().take(n).copied().collect());
    let one = || (vec![S::Rust::default()], vec![S::Ours::default()]);

    let ours = |(_, states): &mut Both<S>| {
        states.iter_mut().zip(readings).for_each(|(state, reading)| *state = S::our_insert_one(*state, *reading));
    };
    bench.run(
        target("insert_one, independent"),
        many,
        |(states, _): &mut Both<S>| {
            let insert = black_box(insert_one::<S> as Insert<S>);
            states.iter_mut().zip(readings).for_each(|(state, reading)| insert(state, *reading));
        },
        ours,
        all_same::<S>,
    );
    bench.run(
        target("insert_one, independent, the Rust by value"),
        many,
        |(states, _): &mut Both<S>| {
            let insert = black_box(insert_one_by_value::<S> as InsertByValue<S>);
            states.iter_mut().zip(readings).for_each(|(state, reading)| *state = insert(state.clone(), *reading));
        },
        ours,
        all_same::<S>,
    );
    let ours = |(_, states): &mut Both<S>| {
        states[0] = readings.iter().fold(S::Ours::default(), |state, reading| S::our_insert_one(state, *reading));
    };
    bench.run(
        target("insert_one, chain"),
        one,
        |(states, _): &mut Both<S>| {
            let insert = black_box(insert_one::<S> as Insert<S>);
            let mut state = S::Rust::default();
            readings.iter().for_each(|reading| insert(&mut state, *reading));
            states[0] = state;
        },
        ours,
        all_same::<S>,
    );
    bench.run(
        target("insert_one, chain, the Rust by value"),
        one,
        |(states, _): &mut Both<S>| {
            let insert = black_box(insert_one_by_value::<S> as InsertByValue<S>);
            states[0] = readings.iter().fold(S::Rust::default(), |state, reading| insert(state, *reading));
        },
        ours,
        all_same::<S>,
    );
    bench.run(
        extra("insert_one, chain, the Rust inlined"),
        one,
        |(states, _): &mut Both<S>| {
            let mut state = S::Rust::default();
            readings.iter().for_each(|reading| S::insert_one(&mut state, *reading));
            states[0] = state;
        },
        ours,
        all_same::<S>,
    );

    let ours = |(_, states): &mut Both<S>| {
        let others = our_others.iter().rev().cycle();
        states.iter_mut().zip(others).for_each(|(state, other)| *state = S::our_combine(*state, *other));
    };
    bench.run(
        target("combine, independent"),
        many,
        |(states, _): &mut Both<S>| {
            let combine = black_box(combine::<S> as Combine<S>);
            states.iter_mut().zip(others.iter().rev().cycle()).for_each(|(state, other)| combine(state, other));
        },
        ours,
        all_same::<S>,
    );
    bench.run(
        target("combine, independent, the Rust by value"),
        many,
        |(states, _): &mut Both<S>| {
            let combine = black_box(combine_by_value::<S> as CombineByValue<S>);
            let others = others.iter().rev().cycle();
            states.iter_mut().zip(others).for_each(|(state, other)| *state = combine(state.clone(), other.clone()));
        },
        ours,
        all_same::<S>,
    );
    let ours = |(_, states): &mut Both<S>| {
        states[0] = our_others.iter().cycle().take(n).fold(S::Ours::default(), |state, other| S::our_combine(state, *other));
    };
    bench.run(
        target("combine, chain"),
        one,
        |(states, _): &mut Both<S>| {
            let combine = black_box(combine::<S> as Combine<S>);
            let mut state = S::Rust::default();
            others.iter().cycle().take(n).for_each(|other| combine(&mut state, other));
            states[0] = state;
        },
        ours,
        all_same::<S>,
    );
    bench.run(
        target("combine, chain, the Rust by value"),
        one,
        |(states, _): &mut Both<S>| {
            let combine = black_box(combine_by_value::<S> as CombineByValue<S>);
            states[0] = others.iter().cycle().take(n).fold(S::Rust::default(), |state, other| combine(state, other.clone()));
        },
        ours,
        all_same::<S>,
    );
    bench.run(
        extra("combine, chain, the Rust inlined"),
        one,
        |(states, _): &mut Both<S>| {
            let mut state = S::Rust::default();
            others.iter().cycle().take(n).for_each(|other| S::combine(&mut state, other));
            states[0] = state;
        },
        ours,
        all_same::<S>,
    );

    for (name, setting) in S::SETTINGS {
        let ours = |(_, states): &mut Both<S>| {
            black_box(states.iter().fold(0, |bits, state| bits ^ S::our_finalize(*state, *setting).bits()));
        };
        let compare = |(rust, ours): Both<S>| {
            rust.into_iter().zip(ours).map(|(rust, ours)| S::finalize(&rust, *setting).same(S::our_finalize(ours, *setting)))
        };
        bench.run(
            target(&format!("finalize{name}, independent")),
            many,
            |(states, _): &mut Both<S>| {
                let finalize = black_box(finalize::<S> as Finalize<S>);
                black_box(states.iter().fold(0, |bits, state| bits ^ finalize(state, *setting).bits()));
            },
            ours,
            compare,
        );
        bench.run(
            target(&format!("finalize{name}, independent, the Rust by value")),
            many,
            |(states, _): &mut Both<S>| {
                let finalize = black_box(finalize_by_value::<S> as FinalizeByValue<S>);
                let figure = |state: &S::Rust| {
                    let mut figure = 0.0;
                    let present = finalize(state.clone(), *setting, &mut figure);
                    S::Answer::got(figure, present)
                };
                black_box(states.iter().fold(0, |bits, state| bits ^ figure(state).bits()));
            },
            ours,
            compare,
        );
    }
}
pub fn states(bench: &mut Bench, input: &Input) {
    of::<Var>(bench, input);
    of::<Cov>(bench, input);
    of::<Pearson>(bench, input);
    of::<Skew>(bench, input);
    of::<Kurtosis>(bench, input);
}

#[inline(never)]
fn hardware(x: f64) -> f64 {
    x.sqrt()
}
/// The roots' bits as one number.
fn fold(numbers: &[f64], root: impl Fn(f64) -> f64) -> u64 {
    numbers.iter().fold(0, |bits, x| bits ^ root(*x).to_bits())
}
/// The root of each number, and a chain in which each number is added to the last root before its own is taken; against the
/// processor's instruction.
pub fn root(bench: &mut Bench, input: &Input) {
    let n = input.n;
    let any = input.of_any_size();
    for (name, numbers) in [("readings", &input.x), ("numbers of any size", &any)] {
        let case = |form: &str, aim| Case { section: "Root", name: format!("{name}, {form}"), aim, n };
        let compare = |_| numbers.iter().map(|x| oracle::same(x.sqrt(), moments::root(*x)));
        bench.run(
            case("independent", Aim::AtMost(8.0)),
            || 0,
            |bits| *bits = fold(numbers, black_box(hardware as fn(f64) -> f64)),
            |bits| *bits = fold(numbers, moments::root),
            compare,
        );
        bench.run(
            case("independent, hardware inlined (no target)", Aim::None),
            || 0,
            |bits| *bits = fold(numbers, f64::sqrt),
            |bits| *bits = fold(numbers, moments::root),
            compare,
        );
        bench.run(
            case("chain (no target)", Aim::None),
            || (0.0, 0.0),
            |last| {
                let root = black_box(hardware as fn(f64) -> f64);
                last.0 = numbers.iter().fold(0.0, |last, x| root(last + x));
            },
            |last| last.1 = numbers.iter().fold(0.0, |last, x| moments::root(last + x)),
            |(rust, ours)| std::iter::once(oracle::same(rust, ours)),
        );
    }
}
