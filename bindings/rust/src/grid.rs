//! Grids with glued axes.
use crate::answer::said;
use crate::complex::{listed, needed, with_room, with_yes};
use crate::{raw, Refusal};

/// A point of the grid before gluing.
#[derive(Clone, Copy, Debug, PartialEq, Eq, Hash, PartialOrd, Ord)]
pub struct GridVertex(pub u32);

/// A vertex after gluing. Only [`Grid::reduce`], [`Grid::crossing`] and [`Grid::swath`] lead from a [`GridVertex`] to it.
#[derive(Clone, Copy, Debug, PartialEq, Eq, Hash, PartialOrd, Ord)]
pub struct GluedVertex(pub u32);

/// How the two ends of an axis are glued.
#[derive(Clone, Copy, Debug, PartialEq, Eq, Hash)]
pub enum Gluing {
    /// Not at all.
    Open,
    /// By a shift.
    Periodic,
    /// By a shift that reflects the axes whose bits are set.
    Twisted(u8),
}

impl Gluing {
    fn code(self) -> u32 {
        match self {
            Gluing::Open => 0,
            Gluing::Periodic => 256,
            Gluing::Twisted(mask) => 512 + u32::from(mask),
        }
    }

    fn from_code(code: u32) -> Gluing {
        match code {
            0..=255 => Gluing::Open,
            256..=511 => Gluing::Periodic,
            512..=767 => Gluing::Twisted((code - 512) as u8),
            // A set that names an axis past the eighth: the library takes it for every axis, and refuses it.
            _ => Gluing::Twisted(u8::MAX),
        }
    }
}

/// An axis: how many cells, and how its ends are glued.
#[derive(Clone, Copy, Debug, PartialEq, Eq, Hash)]
pub struct Axis {
    /// Its cells.
    pub cells: u32,
    /// Its gluing.
    pub gluing: Gluing,
}

/// A grid: plain data, filled in freely and checked by every call. Its dimension is the number of its axes. A side that is missing is refused with 10 by
/// the calls that read sides.
#[derive(Clone, Debug, PartialEq)]
pub struct Grid {
    /// Its axes; the number of a point counts along axis 0 first.
    pub axes: Vec<Axis>,
    /// The length of each axis.
    pub sides: Vec<f64>,
}

/// The cells of a grid, and an order of them where there is one.
#[derive(Clone, Debug, PartialEq, Eq)]
pub struct Triangulated {
    /// d+1 vertices for each cell, the cells in colex order.
    pub cells: Vec<u32>,
    /// To each cell its word, at the cell's place.
    pub order: Option<Vec<u32>>,
}

/// What is known of one edge.
#[derive(Clone, Copy, Debug, PartialEq)]
pub enum EdgeLength {
    /// Its squared length.
    Length(f64),
    /// The two squared lengths that clash first.
    Clash(f64, f64),
    /// There is no such edge.
    NoEdge,
}

impl Grid {
    /// A torus with n cells on every axis, of the dimension that `sides` has.
    ///
    /// ```
    /// let torus = planner::Grid::torus(&[1.0, 2.0], 4).unwrap();
    /// assert_eq!(torus.nvertices(), Ok(16));
    /// assert_eq!(planner::Grid::torus(&[1.0, 2.0], 2).unwrap_err().number, 8);
    /// ```
    pub fn torus(sides: &[f64], n: u32) -> Result<Grid, Refusal> {
        let mut axes = [0; 6];
        said(unsafe { raw::planner_torus(sides.len() as u32, n, sides.as_ptr(), sides.len(), axes.as_mut_ptr()) })?;
        Ok(Grid::made(sides, axes))
    }

    /// A Klein bottle with n cells on both axes; other than two sides are refused with 1.
    ///
    /// ```
    /// let bottle = planner::Grid::klein(&[1.0, 1.0], 3).unwrap();
    /// assert_eq!(bottle.is_orientation_preserving(), Ok(false));
    /// ```
    pub fn klein(sides: &[f64], n: u32) -> Result<Grid, Refusal> {
        let mut axes = [0; 6];
        said(unsafe { raw::planner_klein(sides.len() as u32, n, sides.as_ptr(), sides.len(), axes.as_mut_ptr()) })?;
        Ok(Grid::made(sides, axes))
    }

    /// A Moebius band with counts from its sides, n cells on the longer one.
    ///
    /// ```
    /// let band = planner::Grid::moebius(6.0, 1.0, 12).unwrap();
    /// assert_eq!((band.axes[0].cells, band.axes[1].cells), (12, 2));
    /// ```
    pub fn moebius(circumference: f64, width: f64, n: u32) -> Result<Grid, Refusal> {
        let mut axes = [0; 6];
        said(unsafe { raw::planner_moebius(n, circumference, width, axes.as_mut_ptr()) })?;
        Ok(Grid::made(&[circumference, width], axes))
    }

    /// A grid with these gluings and counts from its sides, n cells on the longest. Its dimension is the number of gluings.
    ///
    /// ```
    /// use planner::{Gluing, Grid};
    /// let grid = Grid::quasi_uniform(&[Gluing::Periodic, Gluing::Open], &[2.0, 1.0], 8).unwrap();
    /// assert_eq!((grid.axes[0].cells, grid.axes[1].cells), (8, 4));
    /// ```
    pub fn quasi_uniform(gluings: &[Gluing], sides: &[f64], n: u32) -> Result<Grid, Refusal> {
        let codes: Vec<u32> = gluings.iter().map(|g| g.code()).collect();
        let mut axes = [0; 6];
        said(unsafe { raw::planner_quasi_uniform(codes.len() as u32, n, codes.as_ptr(), codes.len(), sides.as_ptr(), sides.len(), axes.as_mut_ptr()) })?;
        Ok(Grid::made(&sides[..codes.len()], axes))
    }

    fn made(sides: &[f64], axes: [u32; 6]) -> Grid {
        let axis = |i: usize| Axis { cells: axes[2 * i], gluing: Gluing::from_code(axes[2 * i + 1]) };
        Grid { axes: (0..sides.len()).map(axis).collect(), sides: sides.to_vec() }
    }

    pub(crate) fn codes(&self) -> (u32, Vec<u32>) {
        (self.axes.len() as u32, self.axes.iter().flat_map(|a| [a.cells, a.gluing.code()]).collect())
    }

    /// The vertex of a grid point after gluing, or `None` past the last point.
    pub fn reduce(&self, v: GridVertex) -> Result<Option<GluedVertex>, Refusal> {
        let (d, axes) = self.codes();
        let glued = said(unsafe { raw::planner_reduce(d, v.0, axes.as_ptr(), axes.len()) })?;
        Ok(if glued == u32::MAX { None } else { Some(GluedVertex(glued)) })
    }

    /// How many vertices there are after gluing.
    pub fn nvertices(&self) -> Result<u32, Refusal> {
        let (d, axes) = self.codes();
        said(unsafe { raw::planner_nvertices(d, axes.as_ptr(), axes.len()) })
    }

    /// Whether every axis reflects an even number of axes.
    pub fn is_orientation_preserving(&self) -> Result<bool, Refusal> {
        let (d, axes) = self.codes();
        Ok(said(unsafe { raw::planner_is_orientation_preserving(d, axes.as_ptr(), axes.len()) })? == 1)
    }

    /// The words of the cells, d+1 glued vertices each, in the order of the sorted grid cells.
    ///
    /// ```
    /// use planner::{Axis, Gluing, Grid};
    /// let ring = Grid { axes: vec![Axis { cells: 3, gluing: Gluing::Periodic }], sides: vec![1.0] };
    /// assert_eq!(ring.cell_words().unwrap(), [0, 1, 1, 2, 2, 0]);
    /// ```
    pub fn cell_words(&self) -> Result<Vec<u32>, Refusal> {
        let (d, axes) = self.codes();
        let [most, need @ ..] = needed::<5>(raw::planner_need_cell_words, d, self.corners());
        listed(raw::planner_cell_words, d, &axes, most, d as usize + 1, need)
    }

    /// How many numbers the words have; 0 where the grid is refused.
    pub(crate) fn corners(&self) -> usize {
        let (d, axes) = self.codes();
        said(unsafe { raw::planner_grid_corners(d, axes.as_ptr(), axes.len()) }).map_or(0, |n| n as usize)
    }

    /// The same for honest gluing, which asks 6 of its own classes and later.
    pub(crate) fn chained_corners(&self) -> usize {
        let (d, axes) = self.codes();
        said(unsafe { raw::planner_chained_corners(d, axes.as_ptr(), axes.len()) }).map_or(0, |n| n as usize)
    }

    /// The cells in colex order, and an order of them exactly where no two words sort to one cell and all facets agree.
    ///
    /// ```
    /// use planner::{Axis, Gluing, Grid};
    /// let band = |gluing| Grid { axes: vec![Axis { cells: 3, gluing }, Axis { cells: 1, gluing: Gluing::Open }], sides: vec![3.0, 1.0] };
    /// let ring = band(Gluing::Periodic).triangulate_ordered().unwrap();
    /// assert_eq!(ring.cells, [0, 2, 3, 0, 1, 4, 0, 3, 4, 1, 2, 5, 2, 3, 5, 1, 4, 5]);
    /// assert_eq!(ring.order.unwrap(), [2, 0, 3, 0, 1, 4, 0, 3, 4, 1, 2, 5, 2, 5, 3, 1, 4, 5]);
    /// assert!(band(Gluing::Twisted(0b10)).triangulate_ordered().unwrap().order.is_none());
    /// ```
    pub fn triangulate_ordered(&self) -> Result<Triangulated, Refusal> {
        let (d, axes) = self.codes();
        let [most, most_order, need @ ..] = needed::<6>(raw::planner_need_triangulate_ordered, d, self.corners());
        let (mut cells, mut order) = (vec![0; most], vec![0; most_order]);
        let call = raw::planner_triangulate_ordered;
        let said = with_room!(call, need, d, axes.as_ptr(), axes.len(), cells.as_mut_ptr(), cells.len(), order.as_mut_ptr(), order.len())?;
        let (count, ordered) = with_yes(said);
        cells.truncate(count * (d as usize + 1));
        order.truncate(cells.len());
        Ok(Triangulated { cells, order: ordered.then_some(order) })
    }

    /// The squared length of each edge, in the colex order of the edges. Refused with 15 where an edge gets two lengths.
    ///
    /// ```
    /// use planner::{Axis, Gluing, Grid};
    /// let ring = Grid { axes: vec![Axis { cells: 3, gluing: Gluing::Periodic }], sides: vec![6.0] };
    /// assert_eq!(ring.edge_lengths_sq().unwrap(), [4.0, 4.0, 4.0]);
    /// ```
    pub fn edge_lengths_sq(&self) -> Result<Vec<f64>, Refusal> {
        let (d, axes) = self.codes();
        let [most, need @ ..] = needed::<5>(raw::planner_need_edge_lengths_sq, d, self.corners());
        let mut lengths = vec![0.0; most];
        let call = raw::planner_edge_lengths_sq;
        let sides = &self.sides;
        let count = with_room!(call, need, d, axes.as_ptr(), axes.len(), sides.as_ptr(), sides.len(), lengths.as_mut_ptr(), lengths.len())?;
        lengths.truncate(count as usize);
        Ok(lengths)
    }

    /// The squared length of the edge between two vertices, in either order.
    ///
    /// ```
    /// use planner::{Axis, EdgeLength, GluedVertex, Gluing, Grid};
    /// let ring = Grid { axes: vec![Axis { cells: 3, gluing: Gluing::Periodic }], sides: vec![6.0] };
    /// assert_eq!(ring.edge_length_sq(GluedVertex(2), GluedVertex(0)), Ok(EdgeLength::Length(4.0)));
    /// assert_eq!(ring.edge_length_sq(GluedVertex(1), GluedVertex(1)), Ok(EdgeLength::NoEdge));
    /// ```
    pub fn edge_length_sq(&self, from: GluedVertex, to: GluedVertex) -> Result<EdgeLength, Refusal> {
        let (d, axes) = self.codes();
        let mut squares = [0.0; 2];
        let (s, out) = (&self.sides, squares.as_mut_ptr());
        let said = said(unsafe { raw::planner_edge_length_sq(d, from.0, to.0, axes.as_ptr(), axes.len(), s.as_ptr(), s.len(), out) })?;
        Ok(match said {
            0 => EdgeLength::NoEdge,
            1 => EdgeLength::Length(squares[0]),
            _ => EdgeLength::Clash(squares[0], squares[1]),
        })
    }
}
