//! Many grid points in one call.
use crate::answer::said;
use crate::{raw, GluedVertex, Grid, GridVertex, Refusal};

impl Grid {
    /// The vertex of each grid point, as [`Grid::reduce`] gives it one by one: `None` past the last point. The grid is checked once.
    ///
    /// ```
    /// use planner::{Axis, Gluing, GluedVertex, Grid, GridVertex};
    /// let axes = vec![Axis { cells: 3, gluing: Gluing::Twisted(0b10) }, Axis { cells: 1, gluing: Gluing::Open }];
    /// let band = Grid { axes, sides: vec![3.0, 1.0] };
    /// let glued = band.swath(&[GridVertex(0), GridVertex(7), GridVertex(8), GridVertex(4)]).unwrap();
    /// assert_eq!(glued, [Some(GluedVertex(0)), Some(GluedVertex(0)), None, Some(GluedVertex(3))]);
    /// assert_eq!(band.swath(&[]), Ok(vec![]));
    /// ```
    pub fn swath(&self, points: &[GridVertex]) -> Result<Vec<Option<GluedVertex>>, Refusal> {
        let (d, axes) = self.codes();
        let points: Vec<u32> = points.iter().map(|v| v.0).collect();
        let mut glued = vec![0; points.len()];
        said(unsafe { raw::planner_swath(d, axes.as_ptr(), axes.len(), points.as_ptr(), points.len(), glued.as_mut_ptr(), glued.len()) })?;
        Ok(glued.into_iter().map(|v| (v != u32::MAX).then_some(GluedVertex(v))).collect())
    }
}
