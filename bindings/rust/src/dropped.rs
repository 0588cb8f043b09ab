//! Cells dropped from a mesh.
use crate::complex::needed;
use crate::{raw, Refusal};

/// What stays of a mesh.
#[derive(Clone, Debug, PartialEq, Eq, Hash)]
pub struct Kept {
    /// The words that stay, in the order given, by the new numbers of their vertices.
    pub words: Vec<u32>,
    /// The old number of each vertex, rising.
    pub old: Vec<u32>,
}

/// The mesh without the cells `gone`, which are named by their places in the list of [`cells`](crate::cells); a place given twice counts once. Vertices that no word has any
/// more are freed, and the others numbered anew without gaps, in their old order.
///
/// ```
/// // three triangles in a row, without the first
/// let kept = planner::drop_cells(2, &[0, 1, 2, 1, 2, 3, 2, 3, 4], &[0]).unwrap();
/// assert_eq!(kept.words, [0, 1, 2, 1, 2, 3]);
/// assert_eq!(kept.old, [1, 2, 3, 4]);
/// // without the cell 1 of a single triangle: 23; without its only cell: 2
/// assert_eq!(planner::drop_cells(2, &[0, 1, 2], &[1]).unwrap_err().number, 23);
/// assert_eq!(planner::drop_cells(2, &[0, 1, 2], &[0]).unwrap_err().number, 2);
/// ```
pub fn drop_cells(d: u32, words: &[u32], gone: &[u32]) -> Result<Kept, Refusal> {
    let [mut kept, mut old, mut keys, mut rows, mut spare, mut counts] = needed(raw::planner_need_drop_cells, d, words.len()).map(|n| vec![0u32; n]);
    let mut vertices = 0;
    let count = crate::answer::said(unsafe {
        raw::planner_drop_cells(
            d, words.as_ptr(), words.len(), gone.as_ptr(), gone.len(), kept.as_mut_ptr(), kept.len(), old.as_mut_ptr(), old.len(), keys.as_mut_ptr(), keys.len(), rows.as_mut_ptr(), rows.len(),
            spare.as_mut_ptr(), spare.len(), counts.as_mut_ptr(), counts.len(), &mut vertices,
        )
    })?;
    kept.truncate(count as usize * (d as usize + 1));
    old.truncate(vertices as usize);
    Ok(Kept { words: kept, old })
}
