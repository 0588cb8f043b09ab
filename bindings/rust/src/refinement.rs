//! Refinement: every cell is cut into R^d children.
use crate::answer::said;
use crate::{raw, Refusal};

/// A child of a coarse cell.
#[derive(Clone, Debug, PartialEq)]
pub struct Child {
    /// Its vertices, rising.
    pub cell: Vec<u32>,
    /// Its word: the corners in the order they are met.
    pub word: Vec<u32>,
    /// The coarse cell that it lies in, by its place in the list of [`cells`](crate::cells).
    pub parent: u32,
    /// d·d numbers by column: column j is sorted corner j+1 less corner 0, in the parent's local coordinates.
    pub jacobian: Vec<f64>,
    /// The same times R, whole numbers.
    pub whole: Vec<i32>,
}

/// A new vertex: the coarse vertices with a positive weight, rising.
#[derive(Clone, Debug, PartialEq)]
pub struct Birth {
    /// The coarse vertices.
    pub vertices: Vec<u32>,
    /// Their weights, over R.
    pub weights: Vec<u32>,
    /// Their shares: weight times (1/R).
    pub shares: Vec<f64>,
}

/// A refined complex.
#[derive(Clone, Debug, PartialEq)]
pub struct Refined {
    /// The children in the colex order of the refined cells.
    pub children: Vec<Child>,
    /// The new vertices in the order of their numbers.
    pub births: Vec<Birth>,
    /// How many vertices there are, coarse and new together: the first birth has the number `vertices - births.len()`.
    pub vertices: u32,
}

/// Refines every cell by r along its sorted vertices.
///
/// ```
/// let refined = planner::refine(2, &[0, 1, 2], 2).unwrap();
/// let words: Vec<&[u32]> = refined.children.iter().map(|child| child.word.as_slice()).collect();
/// assert_eq!(words, [[0, 3, 4], [3, 1, 5], [4, 5, 2], [3, 4, 5]]);
/// assert_eq!(refined.births[0].vertices, [0, 1]);
/// assert_eq!(refined.births[0].shares, [0.5, 0.5]);
/// assert_eq!(refined.vertices, 6);
/// assert_eq!(planner::refine(2, &[0, 1, 2], 0).unwrap_err().number, 11);
/// ```
pub fn refine(d: u32, words: &[u32], r: u32) -> Result<Refined, Refusal> {
    refined(d, words, None, r, false)
}

/// Refines every cell by r along the word that the order has for it. Refused with 16 where the order words are not one for each cell.
///
/// ```
/// let refined = planner::refine_with(1, &[0, 1], &[1, 0], 2).unwrap();
/// assert_eq!(refined.children[0].word, [2, 0]);
/// assert_eq!(refined.children[1].word, [1, 2]);
/// ```
pub fn refine_with(d: u32, words: &[u32], order: &[u32], r: u32) -> Result<Refined, Refusal> {
    refined(d, words, Some(order), r, false)
}

/// [`refine`] with the pattern of a cell made by the stepping rule and never read from the table: equal on every input.
///
/// ```
/// assert_eq!(planner::refine_by_steps(2, &[0, 1, 2], 3), planner::refine(2, &[0, 1, 2], 3));
/// ```
pub fn refine_by_steps(d: u32, words: &[u32], r: u32) -> Result<Refined, Refusal> {
    refined(d, words, None, r, true)
}

/// [`refine_with`] with the pattern of a cell made by the stepping rule and never read from the table: equal on every input.
///
/// ```
/// assert_eq!(planner::refine_with_by_steps(2, &[0, 1, 2], &[1, 0, 2], 2), planner::refine_with(2, &[0, 1, 2], &[1, 0, 2], 2));
/// ```
pub fn refine_with_by_steps(d: u32, words: &[u32], order: &[u32], r: u32) -> Result<Refined, Refusal> {
    refined(d, words, Some(order), r, true)
}

fn refined(d: u32, words: &[u32], order: Option<&[u32]>, r: u32, by_steps: bool) -> Result<Refined, Refusal> {
    let size = d as usize + 1;
    let mut need = [0usize; 18];
    unsafe { raw::planner_need_refine(d, r, words.len(), need.as_mut_ptr()) };
    let [cells, listed, parents, forms, whole_forms, born, weighed, shared, room @ ..] = need;
    let (mut out_cells, mut out_words, mut parents) = (vec![0u32; cells], vec![0u32; listed], vec![0u32; parents]);
    let (mut jacobians, mut wholes) = (vec![0.0f64; forms], vec![0i32; whole_forms]);
    let (mut vertices, mut weights, mut shares) = (vec![0u32; born], vec![0u32; weighed], vec![0.0f64; shared]);
    let mut room = room.map(|n| vec![0u32; n]);
    let [a, b, p, e, o, s, t, u, f, v] = &mut room;
    let mut total = [0u32];
    macro_rules! call {
        ($call:expr, $($argument:expr),*) => {
            unsafe {
                $call(
                    d, r, words.as_ptr(), words.len(), $($argument,)* out_cells.as_mut_ptr(), out_cells.len(), out_words.as_mut_ptr(), out_words.len(), parents.as_mut_ptr(), parents.len(),
                    jacobians.as_mut_ptr(), jacobians.len(), wholes.as_mut_ptr(), wholes.len(), vertices.as_mut_ptr(), vertices.len(), weights.as_mut_ptr(), weights.len(),
                    shares.as_mut_ptr(), shares.len(), a.as_mut_ptr(), a.len(), b.as_mut_ptr(), b.len(), p.as_mut_ptr(), p.len(), e.as_mut_ptr(), e.len(), o.as_mut_ptr(), o.len(),
                    s.as_mut_ptr(), s.len(), t.as_mut_ptr(), t.len(), u.as_mut_ptr(), u.len(), f.as_mut_ptr(), f.len(), v.as_mut_ptr(), v.len(), total.as_mut_ptr(),
                )
            }
        };
    }
    let answer = match (order, by_steps) {
        (None, false) => call!(raw::planner_refine,),
        (None, true) => call!(raw::planner_refine_by_steps,),
        (Some(order), false) => call!(raw::planner_refine_with, order.as_ptr(), order.len()),
        (Some(order), true) => call!(raw::planner_refine_with_by_steps, order.as_ptr(), order.len()),
    };
    let count = said(answer)? as usize;
    let coarse = words.iter().max().map_or(0, |v| v + 1);
    let square = d as usize * d as usize;
    let children = (0..count)
        .map(|i| Child {
            cell: out_cells[size * i..size * (i + 1)].to_vec(),
            word: out_words[size * i..size * (i + 1)].to_vec(),
            parent: parents[i],
            jacobian: jacobians[9 * i..9 * i + square].to_vec(),
            whole: wholes[9 * i..9 * i + square].to_vec(),
        })
        .collect();
    let births = (0..(total[0] - coarse) as usize)
        .map(|i| {
            let row = size * i..size * (i + 1);
            let many = weights[row.clone()].iter().filter(|w| **w > 0).count();
            let row = row.start..row.start + many;
            Birth { vertices: vertices[row.clone()].to_vec(), weights: weights[row.clone()].to_vec(), shares: shares[row].to_vec() }
        })
        .collect();
    Ok(Refined { children, births, vertices: total[0] })
}
