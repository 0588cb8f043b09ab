//! Where a grid point crossed the seam.
use crate::answer::said;
use crate::{raw, GluedVertex, Grid, GridVertex, Refusal};

/// How a grid point went across the seam. Bit a of a set is axis a.
#[derive(Clone, Copy, Debug, PartialEq, Eq, Hash)]
pub struct Crossing {
    /// The vertex after gluing.
    pub vertex: GluedVertex,
    /// The closed axes on which the point was wrapped.
    pub wrapped: u8,
    /// The axes that came out reversed: an odd number of the wrapped axes reflects them.
    pub reversed: u8,
}

impl Grid {
    /// The vertex of a grid point with the axes on which it was wrapped and those that came out reversed, or `None` past the last point.
    ///
    /// ```
    /// use planner::{Axis, Gluing, GluedVertex, Grid, GridVertex};
    /// let axis = |cells, gluing| Axis { cells, gluing };
    /// let band = Grid { axes: vec![axis(3, Gluing::Twisted(0b10)), axis(1, Gluing::Open)], sides: vec![3.0, 1.0] };
    /// let seam = band.crossing(GridVertex(7)).unwrap().unwrap();
    /// assert_eq!((seam.vertex, seam.wrapped, seam.reversed), (GluedVertex(0), 0b01, 0b10));
    /// assert_eq!(band.crossing(GridVertex(8)), Ok(None));
    ///
    /// // two axes that reflect a third: together they cancel
    /// let solid = Grid { axes: vec![axis(3, Gluing::Twisted(4)), axis(3, Gluing::Twisted(4)), axis(1, Gluing::Open)], sides: vec![1.0; 3] };
    /// let both = solid.crossing(GridVertex(15)).unwrap().unwrap();
    /// assert_eq!((both.vertex, both.wrapped, both.reversed), (GluedVertex(0), 0b011, 0));
    /// ```
    pub fn crossing(&self, v: GridVertex) -> Result<Option<Crossing>, Refusal> {
        let (d, axes) = self.codes();
        let mut sets = [0; 2];
        let glued = said(unsafe { raw::planner_crossing(d, v.0, axes.as_ptr(), axes.len(), sets.as_mut_ptr()) })?;
        let crossing = Crossing { vertex: GluedVertex(glued), wrapped: sets[0] as u8, reversed: sets[1] as u8 };
        Ok((glued != u32::MAX).then_some(crossing))
    }
}
