//! One record a facet: its cells, the induced sign in each, and whether their words agree.
use crate::complex::{corners, needed, plain, with_room};
use crate::{raw, Refusal};

/// A cell that a facet lies in, and the sign that it induces there.
#[derive(Clone, Copy, Debug, PartialEq, Eq, Hash)]
pub struct SignedSide {
    /// Its place in the list of [`cells`](crate::cells).
    pub cell: u32,
    /// +1 where the position that the facet drops is even, -1 where it is odd.
    pub sign: i32,
}

/// A facet with its record.
#[derive(Clone, Debug, PartialEq, Eq, Hash)]
pub struct FacetRecord {
    /// Its d vertices, rising.
    pub vertices: Vec<u32>,
    /// The lower of its cells.
    pub lower: SignedSide,
    /// The other, or none where the facet is in the border.
    pub other: Option<SignedSide>,
    /// Whether the words of its cells list its vertices in one sequence; sorted cells always do.
    pub agree: bool,
}

/// The facets in colex order, each with its record. In dimension 0 there are none.
///
/// ```
/// let records = planner::facet_records(2, &[0, 1, 2, 1, 2, 3]).unwrap();
/// assert_eq!(records[2].vertices, [1, 2]);
/// assert_eq!((records[2].lower.cell, records[2].lower.sign), (0, 1));
/// assert_eq!(records[2].other.map(|side| (side.cell, side.sign)), Some((1, 1)));
/// assert!(records[0].other.is_none() && records.iter().all(|record| record.agree));
/// ```
pub fn facet_records(d: u32, words: &[u32]) -> Result<Vec<FacetRecord>, Refusal> {
    let n = corners(d, words);
    let size = d as usize;
    let (mut flat, mut records) = (vec![0; n.saturating_mul(size)], vec![0; 5 * n]);
    let call = raw::planner_facet_records;
    let count = with_room!(call, plain(d, n), d, words.as_ptr(), words.len(), flat.as_mut_ptr(), flat.len(), records.as_mut_ptr(), records.len())?;
    Ok(read(size, count as usize, &flat, &records))
}

/// The facets in colex order, each with its record; `agree` is by the words of an order. Refused with 16 where these are not exactly one for each cell.
///
/// ```
/// let records = planner::facet_records_with(2, &[0, 1, 2, 1, 2, 3], &[0, 1, 2, 3, 2, 1]).unwrap();
/// assert_eq!(records.iter().map(|record| record.agree).collect::<Vec<_>>(), [true, true, false, true, true]);
/// assert_eq!(planner::facet_records_with(1, &[0, 1, 1, 2], &[1, 0]).unwrap_err().number, 16);
/// ```
pub fn facet_records_with(d: u32, words: &[u32], order: &[u32]) -> Result<Vec<FacetRecord>, Refusal> {
    let [_, need @ ..] = needed::<5>(raw::planner_need_ordering, d, words.len());
    let n = corners(d, words);
    let size = d as usize;
    let (mut flat, mut records) = (vec![0; n.saturating_mul(size)], vec![0; 5 * n]);
    let call = raw::planner_facet_records_with;
    let count =
        with_room!(call, need, d, words.as_ptr(), words.len(), order.as_ptr(), order.len(), flat.as_mut_ptr(), flat.len(), records.as_mut_ptr(), records.len())?;
    Ok(read(size, count as usize, &flat, &records))
}

/// The records of `count` facets of `size` vertices, five numbers each.
fn read(size: usize, count: usize, flat: &[u32], records: &[u32]) -> Vec<FacetRecord> {
    let side = |cell: u32, mark: u32| SignedSide { cell, sign: if mark == 1 { 1 } else { -1 } };
    (0..count)
        .map(|i| {
            let row = &records[5 * i..5 * i + 5];
            let other = if row[2] == u32::MAX { None } else { Some(side(row[2], row[3])) };
            FacetRecord { vertices: flat[size * i..size * (i + 1)].to_vec(), lower: side(row[0], row[1]), other, agree: row[4] == 1 }
        })
        .collect()
}
