//! Lists to lend, with places beside them that nobody may touch, and a small generator of their contents.
use moments::*;

/// splitmix64.
pub struct Rng(pub u64);
impl Rng {
    pub fn word(&mut self) -> u64 {
        self.0 = self.0.wrapping_add(0x9E37_79B9_7F4A_7C15);
        let mut z = self.0;
        z = (z ^ (z >> 30)).wrapping_mul(0xBF58_476D_1CE4_E5B9);
        z = (z ^ (z >> 27)).wrapping_mul(0x94D0_49BB_1331_11EB);
        z ^ (z >> 31)
    }
}

/// A number whose bits can be made and seen.
pub trait Bits: Copy {
    fn of(word: u64) -> Self;
    fn bits(self) -> u64;
}
impl Bits for f64 {
    fn of(word: u64) -> Self {
        f64::from_bits(word)
    }
    fn bits(self) -> u64 {
        self.to_bits()
    }
}
impl Bits for u8 {
    fn of(word: u64) -> Self {
        word as u8
    }
    fn bits(self) -> u64 {
        self.into()
    }
}
pub fn bits<T: Bits>(list: &[T]) -> Vec<u64> {
    list.iter().map(|x| x.bits()).collect()
}

const BESIDE: usize = 5;

/// A list to lend between places beside it, and what all of them held before.
pub struct Guarded<T> {
    all: Vec<T>,
    before: Vec<u64>,
}
impl<T: Bits> Guarded<T> {
    /// A list of any bits, NaNs of every kind among them.
    pub fn any(rng: &mut Rng, length: usize) -> Self {
        let words: Vec<u64> = (0..length).map(|i| if i % 3 == 0 { rng.word() | 0x7FF << 52 } else { rng.word() }).collect();
        Guarded::holding(rng, &words)
    }
    pub fn holding(rng: &mut Rng, words: &[u64]) -> Self {
        let mut all: Vec<T> = (0..BESIDE).map(|_| T::of(rng.word())).collect();
        all.extend(words.iter().map(|word| T::of(*word)));
        all.extend((0..BESIDE).map(|_| T::of(rng.word())));
        let before = bits(&all);
        Guarded { all, before }
    }
    /// The black box keeps the compiler from taking for granted that the places beside the list are as they were.
    pub fn lend(&mut self) -> &mut [T] {
        let end = self.all.len() - BESIDE;
        &mut std::hint::black_box(&mut self.all)[BESIDE..end]
    }
    pub fn held(&self) -> &[T] {
        &self.all[BESIDE..self.all.len() - BESIDE]
    }
    /// All but the list's first `free` places are as they were.
    pub fn check(&self, name: &str, free: usize) {
        for (i, (now, before)) in bits(&self.all).iter().zip(&self.before).enumerate() {
            let within = (BESIDE..BESIDE + free).contains(&i);
            assert!(within || now == before, "{name}: place {} was written", i as isize - BESIDE as isize);
        }
    }
}

/// What an accepted call writes to: readings of each trace that is decoded, doubles of work, rows.
pub type Needed = ([usize; 2], usize, usize);

/// Lengths of the lists that a call on windows is lent, of readings one for each trace.
#[derive(Clone, PartialEq)]
pub struct Lengths {
    pub readings: [usize; 2],
    pub work: usize,
    pub figures: usize,
    pub present: usize,
    /// Lowest readings, their bytes, highest readings, their bytes: lent to the variance alone.
    pub extremes: [usize; 4],
}
impl Lengths {
    /// So many more than an accepted call writes to.
    pub fn longer((readings, work, rows): Needed, more: usize) -> Self {
        let rows = rows + more;
        Lengths { readings: readings.map(|n| n + more), work: work + more, figures: rows, present: rows, extremes: [rows; 4] }
    }
    /// Runs the call on lists of any bits; places past `rows`, `readings` and `work`, and all of them on a refusal, are kept. It gives
    /// what readings, figures and present bytes then hold.
    pub fn run<E>(
        &self,
        (readings, work, rows): Needed,
        call: impl FnOnce([&mut [f64]; 2], Lists) -> Result<(), E>,
    ) -> Result<Vec<u64>, E> {
        let (mut rng, [first, second]) = (Rng(7), self.readings);
        let mut lists = [first, second, self.work, self.figures].map(|length| Guarded::<f64>::any(&mut rng, length));
        let mut present = Guarded::<u8>::any(&mut rng, self.present);
        let [x, y, scratch, figures] = &mut lists;
        let lent = Lists { work: scratch.lend(), figures: figures.lend(), present: present.lend() };
        let result = call([x.lend(), y.lend()], lent);
        let free = if result.is_ok() { [readings[0], readings[1], work, rows] } else { [0; 4] };
        for ((list, name), free) in lists.iter().zip(["readings", "second readings", "work", "figures"]).zip(free) {
            list.check(name, free);
        }
        present.check("present", free[3]);
        let [x, y, _, figures] = &lists;
        result.map(|()| [bits(x.held()), bits(y.held()), bits(figures.held()), bits(present.held())].concat())
    }
    /// The same of the variance: what readings and then all six lists of answers hold.
    pub fn run_var<E>(
        &self,
        ([readings, _], work, rows): Needed,
        call: impl FnOnce(&mut [f64], VarLists) -> Result<(), E>,
    ) -> Result<Vec<u64>, E> {
        let (mut rng, [lowest, lowest_present, highest, highest_present]) = (Rng(8), self.extremes);
        let lengths = [self.readings[0], self.work, self.figures, lowest, highest];
        let mut lists = lengths.map(|length| Guarded::<f64>::any(&mut rng, length));
        let lengths = [self.present, lowest_present, highest_present];
        let mut bytes = lengths.map(|length| Guarded::<u8>::any(&mut rng, length));
        let ([x, scratch, f, l, h], [p, lp, hp]) = (lists.each_mut().map(Guarded::lend), bytes.each_mut().map(Guarded::lend));
        let (variance, lowest, highest) = (Column::new(f, p), Column::new(l, lp), Column::new(h, hp));
        let result = call(x, VarLists { work: scratch, variance, lowest, highest });
        let free = if result.is_ok() { [readings, work, rows] } else { [0; 3] };
        let names = [("readings", free[0]), ("work", free[1]), ("figures", free[2]), ("lowest", free[2]), ("highest", free[2])];
        lists.iter().zip(names).for_each(|(list, (name, free))| list.check(name, free));
        let names = ["present", "lowest present", "highest present"];
        bytes.iter().zip(names).for_each(|(list, name)| list.check(name, free[2]));
        let ([x, _, f, l, h], [p, lp, hp]) =
            (lists.each_ref().map(|list| bits(list.held())), bytes.each_ref().map(|list| bits(list.held())));
        result.map(|()| [x, f, p, l, lp, h, hp].concat())
    }
    /// A plan's call by the function of what is asked.
    pub fn plan(
        &self,
        needed: Needed,
        (trace, map): (&[u8], Option<&[u8]>),
        plan: Plan,
        Setting { figure, min_periods }: Setting,
    ) -> Result<Vec<u64>, Refusal> {
        match figure {
            Figure::Var(figure) => self.run_var(needed, |readings, lists| {
                plan_var_into(trace, readings, map, plan, Setting { figure, min_periods }, lists)
            }),
            Figure::Shape(figure) => self.run(needed, |[readings, _], lists| {
                plan_into(trace, readings, map, plan, Setting { figure, min_periods }, lists)
            }),
        }
    }
    /// The same of fixed windows.
    pub fn rolling(
        &self,
        needed: Needed,
        (trace, map): (&[f64], Option<&[u8]>),
        window: Window,
        Setting { figure, min_periods }: Setting,
    ) -> Result<Vec<u64>, Refusal> {
        match figure {
            Figure::Var(figure) => {
                self.run_var(needed, |_, lists| rolling_var_into(trace, map, window, Setting { figure, min_periods }, lists))
            }
            Figure::Shape(figure) => {
                self.run(needed, |_, lists| rolling_into(trace, map, window, Setting { figure, min_periods }, lists))
            }
        }
    }
}

/// Calls an entry as it is with a state array of any bits, which a refusal must leave: the members, or the number.
pub fn state_of<const N: usize>(call: impl FnOnce(&mut [f64; N]) -> u32) -> Result<Vec<u64>, u32> {
    let mut state = Guarded::<f64>::any(&mut Rng(9), N);
    let answer = accepted(call(state.lend().try_into().expect("N members")));
    state.check("state", if answer.is_ok() { N } else { 0 });
    answer.map(|()| bits(state.held()))
}
/// The number that an entry answers.
pub fn accepted(number: u32) -> Result<(), u32> {
    if number == 0 {
        Ok(())
    } else {
        Err(number)
    }
}
/// A trace as a plan call takes it.
pub fn bytes_of(trace: &[f64]) -> Vec<u8> {
    trace.iter().flat_map(|x| x.to_le_bytes()).collect()
}
/// A trace and its map as an entry takes them.
pub fn raw(trace: &[f64], has_map: bool, map: &[u8]) -> (*const f64, usize, bool, *const u8, usize) {
    (trace.as_ptr(), trace.len(), has_map, map.as_ptr(), map.len())
}

/// The list as a map is lent, if one is.
pub fn lent_map(has_map: bool, map: &[u8]) -> Option<&[u8]> {
    has_map.then_some(map)
}
