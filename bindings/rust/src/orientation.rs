//! Coherent signs with the facet looks of the walk that finds them.
use crate::complex::{corners, plain};
use crate::{raw, Refusal};

/// Coherent signs, or that none exist; each with the walk's facet looks: one for each facet of each cell taken off its stack.
#[derive(Clone, Debug, PartialEq, Eq, Hash)]
pub enum Coherence {
    /// One sign a cell, as [`orientation`](crate::orientation) hands them out, and d+1 looks a cell, none in dimension 0.
    Signs {
        /// +1 or -1, in the colex order of the cells.
        signs: Vec<i32>,
        /// How many looks the walk made.
        looks: u32,
    },
    /// No coherent signs exist, which [`orientation`](crate::orientation) refuses with 13.
    OneSided {
        /// How many looks the walk made, the one that met the conflict included.
        looks: u32,
    },
}

/// The signs of [`orientation`](crate::orientation) and how many facet looks it took to find them, or to find that there are none.
///
/// ```
/// use planner::Coherence;
///
/// // 3 by 1, axis 0 periodic: three facets of each of six cells
/// let ring = planner::orientation_looks(2, &[0, 1, 4, 0, 3, 4, 1, 2, 5, 1, 4, 5, 2, 0, 3, 2, 5, 3]).unwrap();
/// assert_eq!(ring, Coherence::Signs { signs: vec![1, -1, 1, -1, -1, 1], looks: 18 });
/// // axis 0 twisted: the fifteenth look meets a conflict
/// let band = planner::orientation_looks(2, &[0, 1, 4, 0, 3, 4, 1, 2, 5, 1, 4, 5, 2, 3, 0, 2, 5, 0]).unwrap();
/// assert_eq!(band, Coherence::OneSided { looks: 15 });
/// ```
pub fn orientation_looks(d: u32, words: &[u32]) -> Result<Coherence, Refusal> {
    let n = corners(d, words);
    let mut room = plain(d, n).map(|n| vec![0u32; n]);
    let [keys, rows, spare, counts] = &mut room;
    let (mut signs, mut looks) = (vec![0; n / (d as usize + 1)], 0);
    let said = crate::answer::said(unsafe {
        raw::planner_orientation_looks(
            d, words.as_ptr(), words.len(), signs.as_mut_ptr(), signs.len(), keys.as_mut_ptr(), keys.len(), rows.as_mut_ptr(), rows.len(), spare.as_mut_ptr(), spare.len(),
            counts.as_mut_ptr(), counts.len(), &mut looks,
        )
    });
    match said {
        Ok(cells) => {
            signs.truncate(cells as usize);
            Ok(Coherence::Signs { signs, looks })
        }
        Err(Refusal { number: 13, .. }) => Ok(Coherence::OneSided { looks }),
        Err(refusal) => Err(refusal),
    }
}
