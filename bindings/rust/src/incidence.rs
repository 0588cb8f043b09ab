//! Faces by dimension, the boundary operator between two dimensions, and the cells at each vertex.
use crate::complex::{needed, with_room};
use crate::{raw, Refusal};

/// One entry of a boundary operator.
#[derive(Clone, Copy, Debug, PartialEq, Eq, Hash)]
pub struct Entry {
    /// +1 or -1: the sign that the dropped position induces.
    pub sign: i32,
    /// The row: the place of the face in the list of [`faces`] of dimension k - 1.
    pub face: u32,
    /// The column: the place of the coface in the list of [`faces`] of dimension k.
    pub coface: u32,
}

/// The cells at each vertex, rising, by their places in the list of [`cells`](crate::cells).
///
/// ```
/// assert_eq!(planner::incidence(2, &[0, 1, 2, 1, 2, 3]).unwrap(), [vec![0], vec![0, 1], vec![0, 1], vec![1]]);
/// ```
pub fn incidence(d: u32, words: &[u32]) -> Result<Vec<Vec<u32>>, Refusal> {
    let [most_starts, most, need @ ..] = needed::<6>(raw::planner_need_incidence, d, words.len());
    let (mut starts, mut touching) = (vec![0; most_starts], vec![0; most]);
    let call = raw::planner_incidence;
    let count = with_room!(call, need, d, words.as_ptr(), words.len(), starts.as_mut_ptr(), starts.len(), touching.as_mut_ptr(), touching.len())?;
    Ok((0..count as usize).map(|v| touching[starts[v] as usize..starts[v + 1] as usize].to_vec()).collect())
}

/// The faces of dimension k, k+1 vertices each, in colex order without repeats. Refused with 24 where k is above d.
///
/// ```
/// assert_eq!(planner::faces(2, 1, &[0, 1, 2, 1, 2, 3]).unwrap(), [0, 1, 0, 2, 1, 2, 1, 3, 2, 3]);
/// assert_eq!(planner::faces(2, 3, &[0, 1, 2]).unwrap_err().number, 24);
/// ```
pub fn faces(d: u32, k: u32, words: &[u32]) -> Result<Vec<u32>, Refusal> {
    let [most, need @ ..] = needed::<5>(raw::planner_need_faces, d, words.len());
    let mut out = vec![0; most];
    let call = raw::planner_faces;
    let count = with_room!(call, need, d, k, words.as_ptr(), words.len(), out.as_mut_ptr(), out.len())?;
    out.truncate(count as usize * (k as usize + 1));
    Ok(out)
}

/// The boundary operator from the faces of dimension k to those of dimension k - 1, by rising coface, then by dropped position. Refused with 24 where k is 0 or above d.
///
/// ```
/// let edge = planner::boundary(1, 1, &[0, 1]).unwrap();
/// assert_eq!(edge.iter().map(|e| (e.sign, e.face, e.coface)).collect::<Vec<_>>(), [(1, 1, 0), (-1, 0, 0)]);
/// ```
pub fn boundary(d: u32, k: u32, words: &[u32]) -> Result<Vec<Entry>, Refusal> {
    let [a, b, c, need @ ..] = needed::<7>(raw::planner_need_boundary, d, words.len());
    let (mut signs, mut faces, mut cofaces) = (vec![0i32; a], vec![0u32; b], vec![0u32; c]);
    let call = raw::planner_boundary;
    let count = with_room!(
        call, need, d, k, words.as_ptr(), words.len(), signs.as_mut_ptr(), signs.len(), faces.as_mut_ptr(), faces.len(), cofaces.as_mut_ptr(), cofaces.len()
    )?;
    Ok((0..count as usize).map(|i| Entry { sign: signs[i], face: faces[i], coface: cofaces[i] }).collect())
}

/// The same operator as a Matrix Market file, which SciPy's `mmread` and other tools of linear algebra read: rows and columns are counted from one.
///
/// ```
/// let file = planner::matrix_market(1, 1, &[0, 1]).unwrap();
/// assert_eq!(file, "%%MatrixMarket matrix coordinate integer general\n2 1 2\n2 1 1\n1 1 -1\n");
/// ```
pub fn matrix_market(d: u32, k: u32, words: &[u32]) -> Result<String, Refusal> {
    let [most, need @ ..] = needed::<5>(raw::planner_need_matrix_market, d, words.len());
    let mut bytes = vec![0u8; most];
    let call = raw::planner_matrix_market;
    let count = with_room!(call, need, d, k, words.as_ptr(), words.len(), bytes.as_mut_ptr(), bytes.len())?;
    bytes.truncate(count as usize);
    Ok(bytes.into_iter().map(char::from).collect())
}
