//! Mesh files: a mesh's words and births as bytes, to be carried home and read again.
use crate::complex::with_room;
use crate::{raw, Refined, Refusal};

/// A vertex that a refinement made.
#[derive(Clone, Debug, PartialEq, Eq, Hash)]
pub struct BornVertex {
    /// Its number.
    pub number: u32,
    /// What the weights are over.
    pub r: u32,
    /// The vertices that it was born of, rising, each with its weight.
    pub pairs: Vec<(u32, u32)>,
}

/// A mesh as a file has it.
#[derive(Clone, Debug, PartialEq, Eq, Hash)]
pub struct Mesh {
    /// The dimension.
    pub d: u32,
    /// d+1 vertex numbers for each cell, in the order of the cells.
    pub words: Vec<u32>,
    /// The last of the vertices, by number, where they were born of the others.
    pub births: Vec<BornVertex>,
}

impl Refined {
    /// The mesh of a refinement: its children's words, and its births where R is 2 or more.
    ///
    /// ```
    /// let mesh = planner::refine(1, &[0, 1], 2).unwrap().mesh();
    /// assert_eq!(mesh.words, [0, 2, 2, 1]);
    /// assert_eq!(mesh.births, [planner::BornVertex { number: 2, r: 2, pairs: vec![(0, 1), (1, 1)] }]);
    /// assert_eq!(planner::read_mesh(&planner::write_mesh(&mesh).unwrap()).unwrap(), mesh);
    /// ```
    pub fn mesh(&self) -> Mesh {
        let first = self.vertices - self.births.len() as u32;
        let births = (first..).zip(&self.births).map(|(number, birth)| BornVertex {
            number,
            r: birth.weights.iter().sum(),
            pairs: birth.vertices.iter().copied().zip(birth.weights.iter().copied()).collect(),
        });
        Mesh {
            d: self.children.first().map_or(0, |child| child.cell.len() as u32 - 1),
            words: self.children.iter().flat_map(|child| child.word.iter().copied()).collect(),
            births: births.collect(),
        }
    }
}

/// Writes the file of a mesh. Refused with 22 where its lists break the rules of a mesh file.
///
/// ```
/// use planner::{write_mesh, Mesh};
/// let point = Mesh { d: 0, words: vec![0], births: vec![] };
/// assert_eq!(write_mesh(&point).unwrap(), [6, 0, 0, 0, 1, 0, 0, 0, 1, 0, 6, 0, 0, 0, 2, 0, 0, 0, 0, 0, 2, 0, 0, 0, 4, 0]);
/// // cells out of order
/// assert_eq!(write_mesh(&Mesh { d: 1, words: vec![1, 2, 0, 1], births: vec![] }).unwrap_err().number, 22);
/// ```
pub fn write_mesh(mesh: &Mesh) -> Result<Vec<u8>, Refusal> {
    let births: Vec<u32> = mesh.births.iter().flat_map(|birth| [birth.number, birth.r, birth.pairs.len() as u32]).collect();
    let pairs: Vec<u32> = mesh.births.iter().flat_map(|birth| birth.pairs.iter().flat_map(|pair| [pair.0, pair.1])).collect();
    let mut need = [0usize; 5];
    unsafe { raw::planner_need_write_mesh(mesh.d, mesh.words.len(), births.len(), pairs.len(), need.as_mut_ptr()) };
    let [most, need @ ..] = need;
    let mut bytes = vec![0u8; most];
    let size = with_room!(
        raw::planner_write_mesh, need, mesh.d, mesh.words.as_ptr(), mesh.words.len(), births.as_ptr(), births.len(), pairs.as_ptr(), pairs.len(), bytes.as_mut_ptr(), bytes.len()
    )?;
    bytes.truncate(size as usize);
    Ok(bytes)
}

/// Reads a mesh file. Refused with 20 where it ends too soon, 21 for a record of an unknown kind, 22 for anything else that is wrong with its bytes; then as a cell list is.
///
/// ```
/// use planner::{read_mesh, Mesh};
/// let point = [6, 0, 0, 0, 1, 0, 0, 0, 1, 0, 6, 0, 0, 0, 2, 0, 0, 0, 0, 0, 2, 0, 0, 0, 4, 0];
/// assert_eq!(read_mesh(&point).unwrap(), Mesh { d: 0, words: vec![0], births: vec![] });
/// assert_eq!(read_mesh(&point[..25]).unwrap_err().number, 20);
/// assert_eq!(read_mesh(&[6, 0, 0, 0, 9, 0]).unwrap_err().number, 21);
/// assert_eq!(read_mesh(&[0; 4]).unwrap_err().number, 22);
/// ```
pub fn read_mesh(bytes: &[u8]) -> Result<Mesh, Refusal> {
    let mut need = [0usize; 7];
    unsafe { raw::planner_need_read_mesh(bytes.len(), need.as_mut_ptr()) };
    let [mut words, mut births, mut pairs, mut keys, mut rows, mut spare, mut counts] = need.map(|n| vec![0u32; n]);
    let mut shape = [0u32; 3];
    let cells = crate::answer::said(unsafe {
        raw::planner_read_mesh(
            bytes.as_ptr(), bytes.len(), words.as_mut_ptr(), words.len(), births.as_mut_ptr(), births.len(), pairs.as_mut_ptr(), pairs.len(), keys.as_mut_ptr(), keys.len(),
            rows.as_mut_ptr(), rows.len(), spare.as_mut_ptr(), spare.len(), counts.as_mut_ptr(), counts.len(), shape.as_mut_ptr(),
        )
    })?;
    let [d, many, _] = shape;
    words.truncate(cells as usize * (d as usize + 1));
    let mut at = pairs.chunks_exact(2).map(|pair| (pair[0], pair[1]));
    let births = births.chunks_exact(3).take(many as usize).map(|birth| BornVertex { number: birth[0], r: birth[1], pairs: at.by_ref().take(birth[2] as usize).collect() }).collect();
    Ok(Mesh { d, words, births })
}
