//! Pairs each of which has costs of its own.
use crate::calls::{gco_lower_bound_pairs, Bound, Outcome};
use crate::{moved, Cost, Move, Moves, Pair, Refusal, Run};

/// A problem of labels whose pairs have tables of costs: a pair costs its weight times the entry of
/// its table, at most 10,000,000.
///
/// ```
/// let pairs = [(0, 1, 1), (1, 2, 1)]
///     .map(|(first, second, weight)| gco::Pair { first, second, weight });
/// let problem = gco::TableProblem {
///     label_count: 2,
///     data: &[0, 2, 3, 0, 7, 1],
///     tables: &[0, 2, 4, 0, 0, 9, 1, 0], // of each pair, at the labels 00, 01, 10 and 11
///     table_of: &[],
///     label_costs: &[],
///     pairs: &pairs,
/// };
/// let mut labels = [0; 3];
/// let told = problem.label(gco::Moves::Expansion, None, &mut labels)?;
/// assert_eq!((told.energy(), labels), (3, [0, 1, 1]));
/// # Ok::<(), gco::Refusal>(())
/// ```
#[derive(Clone, Copy, Debug)]
pub struct TableProblem<'a, Cost = i64> {
    pub label_count: u32,
    /// One for each label at each site, site by site.
    pub data: &'a [Cost],
    /// The tables, one after another: an entry for each two labels, by the label of a pair's first
    /// site. They are read where they lie.
    pub tables: &'a [Cost],
    /// The number of each pair's table; or none, where pair `n` has table `n`.
    pub table_of: &'a [u32],
    /// None, or what each label costs once where some site has it.
    pub label_costs: &'a [Cost],
    pub pairs: &'a [Pair],
}

/// The status of a call over the arrays of a problem, with the call's own numbers, and what it told.
macro_rules! call_over_tables {
    ($told:ty, $call:expr, $problem:expr, $labels:expr, $($number:expr),+) => {{
        let mut told = <$told>::default();
        // Safety: each pointer is of a slice with its length, and the labels and `told` are
        // borrowed by this call alone.
        let status = unsafe {
            $call(
                $problem.label_count,
                $problem.data.as_ptr(),
                $problem.data.len(),
                $problem.table_count(),
                $problem.tables.as_ptr(),
                $problem.tables.len(),
                $problem.label_costs.as_ptr(),
                $problem.label_costs.len(),
                $problem.pairs.as_ptr(),
                $problem.pairs.len(),
                $problem.table_of.as_ptr(),
                $problem.table_of.len(),
                $($number,)+
                $labels.as_mut_ptr(),
                $labels.len(),
                &mut told,
            )
        };
        (status, told)
    }};
}

impl<C: Cost> TableProblem<'_, C> {
    /// How many whole tables there are.
    fn table_count(&self) -> u32 {
        let entries = (self.label_count as usize).saturating_mul(self.label_count as usize);
        let count = self.tables.len().checked_div(entries).unwrap_or(0);
        u32::try_from(count).unwrap_or(u32::MAX)
    }

    /// What `Problem::label` does. No bound is told.
    pub fn label(
        &self,
        moves: Moves,
        cycles: Option<u32>,
        labels: &mut [u32],
    ) -> Result<Run, Refusal> {
        let cycles = cycles.unwrap_or(u32::MAX);
        let (status, told) =
            call_over_tables!(Outcome, C::label_pairs(), self, labels, moves as u32, cycles);
        if status != 0 {
            return Err(Refusal::of_outcome(status, &told));
        }
        Ok(Run::of(&told))
    }

    /// One move: every site keeps its label or takes `alpha`.
    pub fn expand(&self, alpha: u32, labels: &mut [u32]) -> Result<Move, Refusal> {
        let (status, told) = call_over_tables!(Outcome, C::expand_pairs(), self, labels, alpha);
        moved(status, &told)
    }

    /// One move: every site that has `alpha` or `beta` takes either.
    pub fn swap(&self, alpha: u32, beta: u32, labels: &mut [u32]) -> Result<Move, Refusal> {
        let (status, told) =
            call_over_tables!(Outcome, C::swap_pairs(), self, labels, alpha, beta);
        moved(status, &told)
    }
}

impl TableProblem<'_, i64> {
    /// What `Problem::lower_bound` does.
    pub fn lower_bound(
        &self,
        passes: Option<u32>,
        allowed: Option<u64>,
        labels: &mut [u32],
    ) -> Result<i64, Refusal> {
        let (status, told) = call_over_tables!(
            Bound,
            gco_lower_bound_pairs,
            self,
            labels,
            passes.unwrap_or(u32::MAX),
            allowed.unwrap_or(u64::MAX)
        );
        if status != 0 {
            return Err(Refusal::of_place(status, told.place as usize));
        }
        Ok(told.low)
    }
}
