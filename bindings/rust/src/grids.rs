//! The pairs of a picture's neighbours.
use crate::{Pair, Refusal};

/// Which pixels are beside one another.
#[derive(Clone, Copy, Debug, PartialEq, Eq)]
pub enum Neighbours {
    /// Right, left, above and below.
    Four,
    /// Across corners too.
    Eight,
}

/// The pairs of neighbours of a picture, of the weight that `weight` answers of their two sites.
///
/// The pixel in column x and row y is the site x + y * width. Of each site, in rising order, stand
/// the pairs with the site to the right, below, below to the right and below to the left. A picture
/// of more than 1,048,576 pixels is refused.
///
/// ```
/// let pairs = gco::grid_pairs(2, 2, gco::Neighbours::Four, |_, _| 7)?;
/// assert_eq!(pairs.len(), 4);
/// assert_eq!(pairs[1], gco::Pair { first: 0, second: 2, weight: 7 });
/// # Ok::<(), gco::Refusal>(())
/// ```
pub fn grid_pairs(
    width: u32,
    height: u32,
    neighbours: Neighbours,
    mut weight: impl FnMut(u32, u32) -> u32,
) -> Result<Vec<Pair>, Refusal> {
    if u64::from(width) * u64::from(height) > 1_048_576 {
        return Err(Refusal::TooManySites);
    }
    let mut pairs = Vec::new();
    for y in 0..height {
        for x in 0..width {
            let first = x + y * width;
            let mut add = |second: u32| {
                pairs.push(Pair {
                    first,
                    second,
                    weight: weight(first, second),
                })
            };
            if x + 1 < width {
                add(first + 1);
            }
            if y + 1 == height {
                continue;
            }
            add(first + width);
            if neighbours == Neighbours::Eight && x + 1 < width {
                add(first + width + 1);
            }
            if neighbours == Neighbours::Eight && x > 0 {
                add(first + width - 1);
            }
        }
    }
    Ok(pairs)
}
