//! Costs with fractions as whole numbers.
use crate::{Pair, Problem};
use std::error::Error;
use std::fmt;

const DATA_LIMIT: f64 = 10_000_000.0;
const SMOOTH_LIMIT: f64 = 10_000.0;
const WEIGHT_LIMIT: f64 = 1_000.0;

/// A cost or a weight that cannot be scaled. Places are in the slice that is named, from 0.
#[derive(Clone, Copy, Debug, PartialEq, Eq, Hash)]
#[non_exhaustive]
pub enum Unscalable {
    /// A data cost is no number, or has no limit.
    Data { place: usize },
    /// A smooth cost is no number, or has no limit.
    Smooth { place: usize },
    /// A label cost is no number, has no limit, or is below 0.
    LabelCost { label: usize },
    /// The weight of a pair is no number, has no limit, or is below 0.
    Weight { place: usize },
}

impl fmt::Display for Unscalable {
    fn fmt(&self, f: &mut fmt::Formatter<'_>) -> fmt::Result {
        match self {
            Unscalable::Data { place } => write!(f, "data cost {place} is no finite number"),
            Unscalable::Smooth { place } => write!(f, "smooth cost {place} is no finite number"),
            Unscalable::LabelCost { label } => {
                write!(f, "the cost of label {label} is no finite number from 0 on")
            }
            Unscalable::Weight { place } => {
                write!(
                    f,
                    "the weight of pair {place} is no finite number from 0 on"
                )
            }
        }
    }
}

impl Error for Unscalable {}

/// A problem whose costs had fractions or were below 0, in whole numbers.
#[derive(Clone, Debug)]
pub struct Scaled {
    label_count: u32,
    data: Vec<i64>,
    smooth: Vec<i64>,
    label_costs: Vec<i64>,
    pairs: Vec<Pair>,
    /// What was taken away from each energy of the caller's costs.
    shift: f64,
    /// The power of two that the costs were multiplied by.
    pub scale: f64,
    /// Whether the whole numbers are the costs times `scale`, with nothing rounded.
    pub exact: bool,
}

impl Scaled {
    /// The problem in whole numbers.
    pub fn problem(&self) -> Problem<'_> {
        Problem {
            label_count: self.label_count,
            data: &self.data,
            smooth: &self.smooth,
            label_costs: &self.label_costs,
            pairs: &self.pairs,
        }
    }

    /// An energy of the problem in the caller's costs; to the last bit if `exact`.
    pub fn energy(&self, whole: i64) -> f64 {
        whole as f64 / self.scale + self.shift
    }
}

/// Shifts costs below 0, of each site and of all smooth costs by the least, and multiplies all by
/// one power of two, the scale.
///
/// Data and label costs are rounded to the nearest whole number. Smooth costs and weights are each
/// multiplied by a power of two, whose product is the scale: smooth costs are rounded up, which
/// keeps a metric one, and weights to the nearest. The powers are the least from 1 on that leave no
/// fraction, if there are such within the limits of `gco.h`, and else the greatest within them.
///
/// ```
/// let scaled = gco::scale(2, &[0.5, 1.25, 0.75, 0.0], &[0.0, 1.0, 1.0, 0.0], &[], &[(0, 1, 0.25)])?;
/// let mut labels = [0; 2];
/// let told = scaled.problem().label(gco::Moves::Expansion, None, &mut labels)?;
/// assert_eq!((labels, scaled.energy(told.energy()), scaled.exact), ([0, 1], 0.75, true));
/// # Ok::<(), Box<dyn std::error::Error>>(())
/// ```
pub fn scale(
    label_count: u32,
    data: &[f64],
    smooth: &[f64],
    label_costs: &[f64],
    pairs: &[(u32, u32, f64)],
) -> Result<Scaled, Unscalable> {
    look_at(data, smooth, label_costs, pairs)?;
    let weights: Vec<f64> = pairs.iter().map(|pair| pair.2).collect();
    let (own, data_shift) = shifted_by_rows(data, label_count as usize);
    let (smooth, smooth_shift) = shifted_by_rows(smooth, smooth.len());
    let costs: Vec<f64> = own.iter().chain(label_costs).copied().collect();
    let (by_smooth, by_weight) = powers(&costs, &smooth, &weights);
    let scale = by_smooth * by_weight;
    let total_weight: f64 = weights.iter().sum();
    let exact =
        is_whole(&costs, scale) && is_whole(&smooth, by_smooth) && is_whole(&weights, by_weight);
    let nearest = |values: &[f64]| {
        values
            .iter()
            .map(|cost| (cost * scale).round() as i64)
            .collect()
    };
    let smooth = smooth
        .iter()
        .map(|cost| (cost * by_smooth - 1e-6).ceil() as i64)
        .collect();
    let pairs = pairs.iter().map(|&(first, second, weight)| Pair {
        first,
        second,
        weight: (weight * by_weight).round() as u32,
    });
    Ok(Scaled {
        label_count,
        data: nearest(&own),
        smooth,
        label_costs: nearest(label_costs),
        pairs: pairs.collect(),
        shift: data_shift + smooth_shift * total_weight,
        scale,
        exact,
    })
}

fn look_at(
    data: &[f64],
    smooth: &[f64],
    label_costs: &[f64],
    pairs: &[(u32, u32, f64)],
) -> Result<(), Unscalable> {
    let is_below = |cost: f64| !cost.is_finite() || cost < 0.0;
    if let Some(place) = data.iter().position(|cost| !cost.is_finite()) {
        return Err(Unscalable::Data { place });
    }
    if let Some(place) = smooth.iter().position(|cost| !cost.is_finite()) {
        return Err(Unscalable::Smooth { place });
    }
    if let Some(label) = label_costs.iter().position(|&cost| is_below(cost)) {
        return Err(Unscalable::LabelCost { label });
    }
    match pairs.iter().position(|pair| is_below(pair.2)) {
        Some(place) => Err(Unscalable::Weight { place }),
        None => Ok(()),
    }
}

/// Rows of so many costs, each without its least where that is below 0; and the sum of these.
fn shifted_by_rows(costs: &[f64], length: usize) -> (Vec<f64>, f64) {
    let (mut shifted, mut sum) = (Vec::with_capacity(costs.len()), 0.0);
    for row in costs.chunks(length.max(1)) {
        let least = row.iter().copied().fold(0.0, f64::min);
        sum += least;
        shifted.extend(row.iter().map(|cost| cost - least));
    }
    (shifted, sum)
}

/// The greatest power of two that keeps the numbers within the limit.
fn most(numbers: &[f64], limit: f64) -> f64 {
    let greatest = numbers.iter().copied().fold(0.0, f64::max);
    if greatest > 0.0 {
        (limit / greatest).log2().floor().exp2()
    } else {
        60f64.exp2()
    }
}

fn is_whole(numbers: &[f64], power: f64) -> bool {
    numbers.iter().all(|number| (number * power).fract() == 0.0)
}

/// The least power of two from 1 to `most` that leaves no fraction.
fn least_exact(numbers: &[f64], most: f64) -> Option<f64> {
    let mut power = 1.0;
    while power <= most {
        if is_whole(numbers, power) {
            return Some(power);
        }
        power *= 2.0;
    }
    None
}

/// The powers of two of smooth costs and of weights.
fn powers(costs: &[f64], smooth: &[f64], weights: &[f64]) -> (f64, f64) {
    let greatest = (
        most(costs, DATA_LIMIT),
        most(smooth, SMOOTH_LIMIT),
        most(weights, WEIGHT_LIMIT),
    );
    let exact = (
        least_exact(costs, greatest.0),
        least_exact(smooth, greatest.1),
        least_exact(weights, greatest.2),
    );
    let mut scale = greatest.0.min(greatest.1 * greatest.2);
    if let (Some(own), Some(table), Some(weight)) = exact {
        if own.max(table * weight) <= scale {
            scale = own.max(table * weight);
        }
    }
    let by_weight = match exact {
        (_, _, Some(weight)) => weight,
        (_, Some(table), None) => scale / table,
        (_, None, None) => (scale.log2() * 3.0 / 7.0).round().exp2(),
    };
    let by_weight = by_weight.max(scale / greatest.1).min(greatest.2);
    (scale / by_weight, by_weight)
}
