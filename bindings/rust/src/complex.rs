//! Cell lists: a dimension d and d+1 vertex numbers for each cell.
use crate::{raw, Refusal};

/// Makes a call with these arguments and working lists of these lengths after them.
macro_rules! with_room {
    ($call:expr, $need:expr, $($argument:expr),*) => {{
        let mut room = $need.map(|n| vec![0u32; n]);
        let [keys, rows, spare, counts] = &mut room;
        crate::answer::said(unsafe {
            $call(
                $($argument,)* keys.as_mut_ptr(), keys.len(), rows.as_mut_ptr(), rows.len(), spare.as_mut_ptr(), spare.len(), counts.as_mut_ptr(), counts.len(),
            )
        })
    }};
}
pub(crate) use with_room;

/// How long the lists of a call must be, as the core tells: result lists at most, working lists exactly, in the order of its parameters. With these it never says 12.
pub(crate) fn needed<const K: usize>(tell: unsafe extern "C" fn(u32, usize, *mut usize), d: u32, corners: usize) -> [usize; K] {
    let mut need = [0; K];
    unsafe { tell(d, corners, need.as_mut_ptr()) };
    need
}

/// How many corners a word list may have and still come to the test of the working lists; 0 where it is refused before it.
pub(crate) fn corners(d: u32, words: &[u32]) -> usize {
    needed::<5>(raw::planner_need_cells, d, words.len())[0]
}

/// What most calls on a cell list need of the working lists.
pub(crate) fn plain(d: u32, n: usize) -> [usize; 4] {
    needed(raw::planner_need_orient_by, d, n)
}

/// The count of an answer that has a yes beside it, and the yes.
pub(crate) fn with_yes(said: u32) -> (usize, bool) {
    ((said & 0x7FFF_FFFF) as usize, said >> 31 == 1)
}

/// A call with a cell list, a result list and the four working lists.
type Listing<T> = unsafe extern "C" fn(u32, *const u32, usize, *mut T, usize, *mut u32, usize, *mut u32, usize, *mut u32, usize, *mut u32, usize) -> u64;

/// Makes the call with a result list of `most` elements and hands out the first `stride` times as many as it says.
pub(crate) fn listed<T: Copy + Default>(call: Listing<T>, d: u32, list: &[u32], most: usize, stride: usize, need: [usize; 4]) -> Result<Vec<T>, Refusal> {
    let mut out = vec![T::default(); most];
    let count = with_room!(call, need, d, list.as_ptr(), list.len(), out.as_mut_ptr(), out.len())?;
    out.truncate(count as usize * stride);
    Ok(out)
}

/// The cells, d+1 vertices each, in colex order without repeats.
///
/// ```
/// assert_eq!(planner::cells(2, &[2, 1, 0, 3, 1, 2, 0, 1, 2]).unwrap(), [0, 1, 2, 1, 2, 3]);
/// assert_eq!(planner::cells(2, &[0, 1, 2, 0, 1, 3, 0, 1, 4]).unwrap_err().number, 7);
/// ```
pub fn cells(d: u32, words: &[u32]) -> Result<Vec<u32>, Refusal> {
    let [most, need @ ..] = needed::<5>(raw::planner_need_cells, d, words.len());
    listed(raw::planner_cells, d, words, most, d as usize + 1, need)
}

/// The edges, two vertices each, the lower first, in colex order without repeats.
///
/// ```
/// assert_eq!(planner::edges(2, &[2, 1, 0]).unwrap(), [0, 1, 0, 2, 1, 2]);
/// ```
pub fn edges(d: u32, words: &[u32]) -> Result<Vec<u32>, Refusal> {
    let [most, need @ ..] = needed::<5>(raw::planner_need_edges, d, words.len());
    listed(raw::planner_edges, d, words, most, 2, need)
}

/// A cell that a facet lies in.
#[derive(Clone, Copy, Debug, PartialEq, Eq, Hash)]
pub struct Side {
    /// Its place in the list of [`cells`].
    pub cell: u32,
    /// The position of the vertex that the facet drops.
    pub dropped: u32,
}

/// A facet and its cells.
#[derive(Clone, Debug, PartialEq, Eq, Hash)]
pub struct Facet {
    /// Its d vertices, rising.
    pub vertices: Vec<u32>,
    /// The lower of its cells.
    pub lower: Side,
    /// The other, or none where the facet is in the border.
    pub other: Option<Side>,
}

/// The facets in colex order, each with its one or two cells. In dimension 0 there are none.
///
/// ```
/// let facets = planner::facets(1, &[0, 1, 1, 2]).unwrap();
/// assert_eq!(facets[1].vertices, [1]);
/// assert_eq!((facets[1].lower.cell, facets[1].lower.dropped), (0, 0));
/// assert_eq!(facets[1].other.map(|side| (side.cell, side.dropped)), Some((1, 1)));
/// assert!(facets[0].other.is_none());
/// ```
pub fn facets(d: u32, words: &[u32]) -> Result<Vec<Facet>, Refusal> {
    let [most, most_table, need @ ..] = needed::<6>(raw::planner_need_facets, d, words.len());
    let size = d as usize;
    let (mut flat, mut table) = (vec![0; most], vec![0; most_table]);
    let call = raw::planner_facets;
    let count = with_room!(call, need, d, words.as_ptr(), words.len(), flat.as_mut_ptr(), flat.len(), table.as_mut_ptr(), table.len())?;
    let side = |cell: u32, dropped: u32| if cell == u32::MAX { None } else { Some(Side { cell, dropped }) };
    Ok((0..count as usize)
        .map(|i| {
            let row = &table[4 * i..4 * i + 4];
            let (lower, other) = (Side { cell: row[0], dropped: row[1] }, side(row[2], row[3]));
            Facet { vertices: flat[size * i..size * (i + 1)].to_vec(), lower, other }
        })
        .collect())
}

/// The facets that lie in one cell, d vertices each, in colex order.
///
/// ```
/// assert_eq!(planner::border(2, &[0, 1, 2, 1, 2, 3]).unwrap(), [0, 1, 0, 2, 1, 3, 2, 3]);
/// ```
pub fn border(d: u32, words: &[u32]) -> Result<Vec<u32>, Refusal> {
    let [most, need @ ..] = needed::<5>(raw::planner_need_border, d, words.len());
    listed(raw::planner_border, d, words, most, d as usize, need)
}

/// One sign a cell, +1 or -1, in the colex order of the cells: coherent, +1 at the lowest cell of each facet-connected piece. Refused with 13 exactly
/// where no coherent signs exist.
///
/// ```
/// // 3 by 1, axis 0 periodic
/// let signs = planner::orientation(2, &[0, 1, 4, 0, 3, 4, 1, 2, 5, 1, 4, 5, 2, 0, 3, 2, 5, 3]).unwrap();
/// assert_eq!(signs, [1, -1, 1, -1, -1, 1]);
/// ```
pub fn orientation(d: u32, words: &[u32]) -> Result<Vec<i32>, Refusal> {
    let [most, need @ ..] = needed::<5>(raw::planner_need_orientation, d, words.len());
    listed(raw::planner_orientation, d, words, most, 1, need)
}

/// Whether the signs, one for each cell in colex order, are coherent; in dimension 0 never. Refused with 14 where they are not one +1 or -1 for each cell.
///
/// ```
/// assert_eq!(planner::orient_by(1, &[0, 1, 1, 2], &[1, 1]), Ok(true));
/// assert_eq!(planner::orient_by(1, &[0, 1, 1, 2], &[1, -1]), Ok(false));
/// assert_eq!(planner::orient_by(1, &[0, 1, 1, 2], &[1]).unwrap_err().number, 14);
/// ```
pub fn orient_by(d: u32, words: &[u32], signs: &[i32]) -> Result<bool, Refusal> {
    let need = needed::<4>(raw::planner_need_orient_by, d, words.len());
    Ok(with_room!(raw::planner_orient_by, need, d, words.as_ptr(), words.len(), signs.as_ptr(), signs.len())? == 1)
}

/// An order's words by cell.
#[derive(Clone, Debug, PartialEq, Eq)]
pub struct Ordered {
    /// d+1 vertices for each cell, the cells in colex order.
    pub words: Vec<u32>,
    /// Whether on every facet of two cells both words list the facet's vertices in one sequence.
    pub agrees: bool,
}

/// The words of an order by cell, and whether they agree on every facet of two cells. Refused with 16 where they are not one for each cell, no more.
///
/// ```
/// let order = planner::ordering(1, &[0, 1, 1, 2], &[2, 1, 0, 1]).unwrap();
/// assert_eq!((order.words, order.agrees), (vec![0, 1, 2, 1], true));
/// let order = planner::ordering(2, &[0, 1, 2, 1, 2, 3], &[0, 1, 2, 3, 2, 1]).unwrap();
/// assert!(!order.agrees);
/// assert_eq!(planner::ordering(1, &[0, 1, 1, 2], &[1, 0]).unwrap_err().number, 16);
/// ```
pub fn ordering(d: u32, words: &[u32], order: &[u32]) -> Result<Ordered, Refusal> {
    let [most, need @ ..] = needed::<5>(raw::planner_need_ordering, d, words.len());
    let mut listed = vec![0; most];
    let call = raw::planner_ordering;
    let said = with_room!(call, need, d, words.as_ptr(), words.len(), order.as_ptr(), order.len(), listed.as_mut_ptr(), listed.len())?;
    let (cells, agrees) = with_yes(said);
    listed.truncate(cells * (d as usize + 1));
    Ok(Ordered { words: listed, agrees })
}

/// Whether the signs of an order's words are coherent, + where an even number of swaps sorts the word; in dimension 0 never. Refused with 16 as [`ordering`] is.
///
/// ```
/// assert_eq!(planner::induced_orientation(1, &[0, 1, 1, 2], &[0, 1, 1, 2]), Ok(true));
/// assert_eq!(planner::induced_orientation(1, &[0, 1, 1, 2], &[0, 1, 2, 1]), Ok(false));
/// ```
pub fn induced_orientation(d: u32, words: &[u32], order: &[u32]) -> Result<bool, Refusal> {
    let need = needed::<4>(raw::planner_need_induced_orientation, d, words.len());
    Ok(with_room!(raw::planner_induced_orientation, need, d, words.as_ptr(), words.len(), order.as_ptr(), order.len())? == 1)
}
