//! The pattern of one refined cell: the corners of its children.
use crate::answer::said;
use crate::{raw, Refusal};

/// The corners of the children of a cell of dimension d refined by r, child after child in the order of a refinement, d+1 corners each; a corner is d+1 weights over the
/// places of the cell's word, whole numbers over r.
///
/// ```
/// let corners = planner::corners(2, 2).unwrap();
/// assert_eq!(corners.len(), 12);
/// assert_eq!(corners[..3], [vec![2, 0, 0], vec![1, 1, 0], vec![1, 0, 1]]);
/// assert_eq!(planner::corners(2, 0).unwrap_err().number, 11);
/// ```
pub fn corners(d: u32, r: u32) -> Result<Vec<Vec<u32>>, Refusal> {
    listed(d, r, raw::planner_corners)
}

/// [`corners`] by the stepping rule and never from the table: equal on every input.
///
/// ```
/// assert_eq!(planner::corners_stepping(3, 4), planner::corners(3, 4));
/// ```
pub fn corners_stepping(d: u32, r: u32) -> Result<Vec<Vec<u32>>, Refusal> {
    listed(d, r, raw::planner_corners_stepping)
}

type Call = unsafe extern "C" fn(u32, u32, *mut u32, usize) -> u64;

fn listed(d: u32, r: u32, call: Call) -> Result<Vec<Vec<u32>>, Refusal> {
    let mut need = [0usize; 1];
    unsafe { raw::planner_need_corners(d, r, need.as_mut_ptr()) };
    let mut list = vec![0u32; need[0]];
    let count = said(unsafe { call(d, r, list.as_mut_ptr(), list.len()) })? as usize;
    Ok(list.chunks(d as usize + 1).take(count).map(|corner| corner.to_vec()).collect())
}
