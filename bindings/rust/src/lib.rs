//! gco: labels of least energy by moves, each to the best labelling that it reaches, and least
//! assignments of yes-no variables by one minimum cut, in whole numbers. Safe calls over libgco;
//! `gco.h` has the whole description.
//!
//! ```
//! let pairs = [(0, 1, 3), (1, 2, 2), (2, 3, 2), (3, 4, 4), (1, 3, 1), (0, 4, 1)]
//!     .map(|(first, second, weight)| gco::Pair { first, second, weight });
//! let problem = gco::Problem {
//!     label_count: 3,
//!     data: &[4, 6, 9, 7, 5, 6, 8, 4, 7, 9, 7, 3, 6, 8, 5], // site by site, label by label
//!     smooth: &[0, 1, 1, 1, 0, 1, 1, 1, 0],
//!     label_costs: &[],
//!     pairs: &pairs,
//! };
//! let mut labels = [0; 5]; // the start, and then the answer
//! let told = problem.label(gco::Moves::Expansion, None, &mut labels)?;
//! assert_eq!((told.energy(), labels), (27, [1, 1, 1, 2, 2]));
//! # Ok::<(), gco::Refusal>(())
//! ```

mod calls;
mod grids;
mod refusal;
mod scaling;
mod stretches;
mod tables;

pub use grids::{grid_pairs, Neighbours};
pub use refusal::Refusal;
pub use scaling::{scale, Scaled, Unscalable};
pub use stretches::Progress;
pub use tables::TableProblem;

/// Two sites, numbered from 0, and the weight of their term. A pair that stands twice counts twice.
#[repr(C)]
#[derive(Clone, Copy, Debug, PartialEq, Eq)]
pub struct Pair {
    pub first: u32,
    pub second: u32,
    pub weight: u32,
}

/// Which moves a run makes.
#[derive(Clone, Copy, Debug, PartialEq, Eq)]
pub enum Moves {
    Expansion,
    Swap,
}

/// A problem of labels, over costs of 64 bits or, for all but `lower_bound`, of 32.
#[derive(Clone, Copy, Debug)]
pub struct Problem<'a, Cost = i64> {
    pub label_count: u32,
    /// One for each label at each site, site by site.
    pub data: &'a [Cost],
    /// One for each two labels, by the label of a pair's first site.
    pub smooth: &'a [Cost],
    /// None, or what each label costs once where some site has it.
    pub label_costs: &'a [Cost],
    pub pairs: &'a [Pair],
}

/// Where a run ended.
#[derive(Clone, Copy, Debug, PartialEq, Eq)]
pub struct Run {
    /// The three parts of the energy.
    pub data: i64,
    pub smooth: i64,
    pub label: i64,
    pub cycles: u32,
    /// Whether the last cycle changed nothing.
    pub settled: bool,
    /// `vmin` and `vmax`, if a bound is known: `vmin` times the energy is at most twice `vmax`
    /// times the least energy of all labellings.
    pub bound: Option<(u64, u64)>,
}

impl Run {
    fn of(told: &calls::Outcome) -> Run {
        Run {
            data: told.data,
            smooth: told.smooth,
            label: told.label,
            cycles: told.cycles,
            settled: told.settled != 0,
            bound: if told.vmax != 0 {
                Some((told.vmin, told.vmax))
            } else {
                None
            },
        }
    }

    pub fn energy(&self) -> i64 {
        self.data + self.smooth + self.label
    }
}

/// Where a single move ended.
#[derive(Clone, Copy, Debug, PartialEq, Eq)]
pub struct Move {
    /// The three parts of the energy.
    pub data: i64,
    pub smooth: i64,
    pub label: i64,
    /// Whether a label changed.
    pub changed: bool,
}

impl Move {
    pub fn energy(&self) -> i64 {
        self.data + self.smooth + self.label
    }
}

mod sealed {
    pub trait Sealed: Sized {
        fn call() -> super::calls::Label<Self>;
        fn stretch() -> super::calls::Stretch<Self>;
        fn expand() -> super::calls::Expand<Self>;
        fn swap() -> super::calls::Swap<Self>;
        fn label_pairs() -> super::calls::LabelPairs<Self>;
        fn expand_pairs() -> super::calls::ExpandPairs<Self>;
        fn swap_pairs() -> super::calls::SwapPairs<Self>;
    }
}

/// What a cost may be: `i64` or `i32`. Data costs are read where they lie.
pub trait Cost: sealed::Sealed {}
impl sealed::Sealed for i64 {
    fn call() -> calls::Label<i64> {
        calls::gco_label
    }
    fn stretch() -> calls::Stretch<i64> {
        calls::gco_label_stretch
    }
    fn expand() -> calls::Expand<i64> {
        calls::gco_expand
    }
    fn swap() -> calls::Swap<i64> {
        calls::gco_swap
    }
    fn label_pairs() -> calls::LabelPairs<i64> {
        calls::gco_label_pairs
    }
    fn expand_pairs() -> calls::ExpandPairs<i64> {
        calls::gco_expand_pairs
    }
    fn swap_pairs() -> calls::SwapPairs<i64> {
        calls::gco_swap_pairs
    }
}
impl sealed::Sealed for i32 {
    fn call() -> calls::Label<i32> {
        calls::gco_label_int32
    }
    fn stretch() -> calls::Stretch<i32> {
        calls::gco_label_stretch_int32
    }
    fn expand() -> calls::Expand<i32> {
        calls::gco_expand_int32
    }
    fn swap() -> calls::Swap<i32> {
        calls::gco_swap_int32
    }
    fn label_pairs() -> calls::LabelPairs<i32> {
        calls::gco_label_pairs_int32
    }
    fn expand_pairs() -> calls::ExpandPairs<i32> {
        calls::gco_expand_pairs_int32
    }
    fn swap_pairs() -> calls::SwapPairs<i32> {
        calls::gco_swap_pairs_int32
    }
}
impl Cost for i64 {}
impl Cost for i32 {}

/// The status of a call over the arrays of a problem, with the call's own numbers, and what it told.
macro_rules! call_over {
    ($told:ty, $call:expr, $problem:expr, $labels:expr, $($number:expr),+) => {{
        let mut told = <$told>::default();
        // Safety: each pointer is of a slice with its length, and the labels and `told` are
        // borrowed by this call alone.
        let status = unsafe {
            $call(
                $problem.label_count,
                $problem.data.as_ptr(),
                $problem.data.len(),
                $problem.smooth.as_ptr(),
                $problem.smooth.len(),
                $problem.label_costs.as_ptr(),
                $problem.label_costs.len(),
                $problem.pairs.as_ptr(),
                $problem.pairs.len(),
                $($number,)+
                $labels.as_mut_ptr(),
                $labels.len(),
                &mut told,
            )
        };
        (status, told)
    }};
}

impl<C: Cost> Problem<'_, C> {
    /// Makes moves from `labels` until a cycle changes nothing or so many cycles are done, and
    /// writes where they ended. A refusal leaves the labels as they were.
    pub fn label(
        &self,
        moves: Moves,
        cycles: Option<u32>,
        labels: &mut [u32],
    ) -> Result<Run, Refusal> {
        let cycles = cycles.unwrap_or(u32::MAX);
        let (status, told) = call_over!(calls::Outcome, C::call(), self, labels, moves as u32, cycles);
        if status != 0 {
            return Err(Refusal::of_outcome(status, &told));
        }
        Ok(Run::of(&told))
    }

    /// One move: every site keeps its label or takes `alpha`.
    pub fn expand(&self, alpha: u32, labels: &mut [u32]) -> Result<Move, Refusal> {
        let (status, told) = call_over!(calls::Outcome, C::expand(), self, labels, alpha);
        moved(status, &told)
    }

    /// One move: every site that has `alpha` or `beta` takes either.
    pub fn swap(&self, alpha: u32, beta: u32, labels: &mut [u32]) -> Result<Move, Refusal> {
        let (status, told) = call_over!(calls::Outcome, C::swap(), self, labels, alpha, beta);
        moved(status, &told)
    }
}

fn moved(status: u32, told: &calls::Outcome) -> Result<Move, Refusal> {
    if status != 0 {
        return Err(Refusal::of_outcome(status, told));
    }
    Ok(Move {
        data: told.data,
        smooth: told.smooth,
        label: told.label,
        changed: told.changed != 0,
    })
}

impl Problem<'_, i64> {
    /// A number that no labelling's energy is below, after at most so many passes over the sites,
    /// `None` for as many as raise it by a part in 10,000. Writes labels from which a run may start,
    /// whose energy is mostly near the bound. Nothing is promised of how near the bound comes.
    ///
    /// It takes 8 bytes a site and label and 4 a pair and label, and is refused if these are more
    /// than `allowed`. The labels that stand there before are tested, and play no other part.
    pub fn lower_bound(
        &self,
        passes: Option<u32>,
        allowed: Option<u64>,
        labels: &mut [u32],
    ) -> Result<i64, Refusal> {
        let (status, told) = call_over!(
            calls::Bound,
            calls::gco_lower_bound,
            self,
            labels,
            passes.unwrap_or(u32::MAX),
            allowed.unwrap_or(u64::MAX)
        );
        if status != 0 {
            return Err(Refusal::of_place(status, told.place as usize));
        }
        Ok(told.low)
    }
}

/// The numbers of a term of one variable, at 0 and at 1.
#[repr(C)]
#[derive(Clone, Copy, Debug, PartialEq, Eq)]
pub struct One {
    variable: u32,
    spare: u32,
    at: [i64; 2],
}

impl One {
    pub fn new(variable: u32, at: [i64; 2]) -> One {
        One {
            variable,
            spare: 0,
            at,
        }
    }
}

/// The numbers of a term of two variables, at 00, 01, 10 and 11.
#[repr(C)]
#[derive(Clone, Copy, Debug, PartialEq, Eq)]
pub struct Two {
    variables: [u32; 2],
    at: [i64; 4],
}

impl Two {
    pub fn new(first: u32, second: u32, at: [i64; 4]) -> Two {
        Two {
            variables: [first, second],
            at,
        }
    }
}

/// The numbers of a term of three variables, at 000, 001, 010, .., 111.
#[repr(C)]
#[derive(Clone, Copy, Debug, PartialEq, Eq)]
pub struct Three {
    variables: [u32; 3],
    spare: u32,
    at: [i64; 8],
}

impl Three {
    pub fn new(first: u32, second: u32, third: u32, at: [i64; 8]) -> Three {
        Three {
            variables: [first, second, third],
            spare: 0,
            at,
        }
    }
}

/// Writes the assignment of least value, 0 or 1 for each variable, and answers the value with the
/// constant. Of several least ones it is the one with the fewest ones. A refusal leaves the
/// assignment as it was.
///
/// ```
/// let mut assignment = [0; 2];
/// let ones = [gco::One::new(0, [5, 2]), gco::One::new(1, [1, 6])];
/// let twos = [gco::Two::new(0, 1, [0, 3, 4, 0])];
/// assert_eq!(gco::minimise(0, &ones, &twos, &[], &mut assignment), Ok(6));
/// assert_eq!(assignment, [0, 0]);
/// ```
pub fn minimise(
    constant: i64,
    ones: &[One],
    twos: &[Two],
    threes: &[Three],
    assignment: &mut [u8],
) -> Result<i64, Refusal> {
    let mut told = calls::Minimum::default();
    // Safety: as in `label`.
    let status = unsafe {
        calls::gco_minimise(
            constant,
            ones.as_ptr(),
            ones.len(),
            twos.as_ptr(),
            twos.len(),
            threes.as_ptr(),
            threes.len(),
            assignment.as_mut_ptr(),
            assignment.len(),
            &mut told,
        )
    };
    if status != 0 {
        return Err(Refusal::of_minimum(status, &told));
    }
    Ok(told.value)
}
