//! Runs that are watched, and may be stopped: some moves a call of the library.
use crate::calls::{Course, Outcome};
use crate::{Cost, Moves, Problem, Refusal, Run};
use std::ops::ControlFlow;
use std::time::{Duration, Instant};

/// How far a run is.
#[derive(Clone, Copy, Debug, PartialEq, Eq)]
pub struct Progress {
    /// The three parts of the energy.
    pub data: i64,
    pub smooth: i64,
    pub label: i64,
    /// How many moves were made. At the end of the run those that are left of its cycle count too,
    /// since they are known to change nothing.
    pub moves: u64,
    /// How many moves a cycle has.
    pub cycle_moves: u64,
}

impl Progress {
    pub fn energy(&self) -> i64 {
        self.data + self.smooth + self.label
    }
}

impl<C: Cost> Problem<'_, C> {
    /// Does what `label` does, and calls `watch` about so often, after some moves, and at the end.
    /// Where that breaks, the run stops there, and is not settled. The labels are those of `label`,
    /// or those that the moves till then led to. A refusal leaves them as they were.
    ///
    /// A call of the library costs a pass over the problem, so half a second serves for `every`. Of
    /// no time `watch` is called after each move.
    ///
    /// ```
    /// use std::ops::ControlFlow;
    /// use std::time::Duration;
    ///
    /// let pairs = [gco::Pair { first: 0, second: 1, weight: 1 }];
    /// let problem = gco::Problem {
    ///     label_count: 2,
    ///     data: &[5, 0, 5, 1],
    ///     smooth: &[0, 2, 2, 0],
    ///     label_costs: &[],
    ///     pairs: &pairs,
    /// };
    /// let (mut labels, often) = ([0; 2], Duration::from_millis(500));
    /// let told = problem.label_watched(gco::Moves::Expansion, None, often, &mut labels, |so_far| {
    ///     eprintln!("{} moves, energy {}", so_far.moves, so_far.energy());
    ///     ControlFlow::Continue(()) // or Break(()), to stop
    /// })?;
    /// assert_eq!((told.energy(), labels), (1, [1, 1]));
    /// # Ok::<(), gco::Refusal>(())
    /// ```
    pub fn label_watched(
        &self,
        moves: Moves,
        cycles: Option<u32>,
        every: Duration,
        labels: &mut [u32],
        mut watch: impl FnMut(&Progress) -> ControlFlow<()>,
    ) -> Result<Run, Refusal> {
        let mut run = UnderWay::new(self.label_count, moves, cycles, labels);
        // the first moves are taken for slow ones, and later stretches grow to twice as many at most
        let mut most = moves_of(every, 2.5e-7 * labels.len() as f64);
        loop {
            let began = Instant::now();
            let goes_on = run.make(self, most)?;
            let each = began.elapsed().as_secs_f64() / f64::from(most);
            most = moves_of(every, each).min(2 * most);
            let progress = run.progress();
            let is_stopped = progress.moves > 0 && watch(&progress).is_break();
            if is_stopped || !goes_on {
                labels.copy_from_slice(&run.labels);
                return Ok(Run::of(&run.told));
            }
        }
    }
}

/// How many moves take so long, where each takes so many seconds.
fn moves_of(wanted: Duration, each: f64) -> u32 {
    (wanted.as_secs_f64() / each.max(1e-9)).clamp(1.0, 1e6) as u32
}

/// A run that is under way: its labels, and what is lent to each call.
struct UnderWay {
    moves: Moves,
    cycles: u32,
    cycle_moves: u64,
    course: Course,
    stamps: Vec<u32>,
    made: Vec<u32>,
    labels: Vec<u32>,
    told: Outcome,
}

impl UnderWay {
    fn new(label_count: u32, moves: Moves, cycles: Option<u32>, start: &[u32]) -> UnderWay {
        let k = u64::from(label_count);
        UnderWay {
            moves,
            cycles: cycles.unwrap_or(u32::MAX),
            cycle_moves: match moves {
                Moves::Expansion => k,
                Moves::Swap => k * k.saturating_sub(1) / 2,
            },
            course: Course::default(),
            stamps: vec![0; start.len()],
            // more labels than there may be are refused before this is looked at
            made: vec![0; label_count.min(256) as usize],
            labels: start.to_vec(),
            told: Outcome::default(),
        }
    }

    /// Makes at most so many moves. Whether the run goes on.
    fn make<C: Cost>(&mut self, problem: &Problem<C>, most: u32) -> Result<bool, Refusal> {
        const UNFINISHED: u32 = 29;
        // Safety: each pointer is of a slice with its length, or of a struct of `gco.h`, and what is
        // written is borrowed by this call alone.
        let status = unsafe {
            C::stretch()(
                problem.label_count,
                problem.data.as_ptr(),
                problem.data.len(),
                problem.smooth.as_ptr(),
                problem.smooth.len(),
                problem.label_costs.as_ptr(),
                problem.label_costs.len(),
                problem.pairs.as_ptr(),
                problem.pairs.len(),
                self.moves as u32,
                self.cycles,
                most,
                &mut self.course,
                self.stamps.as_mut_ptr(),
                self.stamps.len(),
                self.made.as_mut_ptr(),
                self.made.len(),
                self.labels.as_mut_ptr(),
                self.labels.len(),
                &mut self.told,
            )
        };
        match status {
            0 => Ok(false),
            UNFINISHED => Ok(true),
            _ => Err(Refusal::of_outcome(status, &self.told)),
        }
    }

    fn progress(&self) -> Progress {
        let (ended, whole) = (self.told.cycles, self.course.cycles);
        let moves = if ended > whole {
            u64::from(ended) * self.cycle_moves
        } else {
            u64::from(whole) * self.cycle_moves + u64::from(self.course.place)
        };
        Progress {
            data: self.told.data,
            smooth: self.told.smooth,
            label: self.told.label,
            moves,
            cycle_moves: self.cycle_moves,
        }
    }
}
