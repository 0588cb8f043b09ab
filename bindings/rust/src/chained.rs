//! Honest gluing: grid points are one class exactly where a chain of gluing steps joins them. A second mode beside [`Grid::reduce`]'s rule, which runs classes
//! together where a twisted axis is itself reflected.
use crate::answer::said;
use crate::complex::{listed, needed};
use crate::{raw, Grid, GridVertex, Refusal};

/// A class of grid points, numbered in the order of the classes' least points: neither a [`GridVertex`] nor a [`crate::GluedVertex`]. Only the calls of this
/// mode lead to it.
#[derive(Clone, Copy, Debug, PartialEq, Eq, Hash, PartialOrd, Ord)]
pub struct ClassVertex(pub u32);

type Classing = unsafe extern "C" fn(u32, *const u32, usize, *mut u32, usize, *mut u32, usize) -> u64;

impl Grid {
    /// The class of a grid point, or `None` past the last point. Each call numbers the whole grid: for many points take [`Grid::chained_classes`].
    ///
    /// ```
    /// use planner::{Axis, ClassVertex, Gluing, Grid, GridVertex};
    /// let axis = |cells, gluing| Axis { cells, gluing };
    /// // a projective plane: opposite points of the border are glued
    /// let plane = Grid { axes: vec![axis(3, Gluing::Twisted(0b10)), axis(3, Gluing::Twisted(0b01))], sides: vec![1.0; 2] };
    /// assert_eq!(plane.chained_reduce(GridVertex(12)), Ok(Some(ClassVertex(3))));
    /// assert_eq!(plane.chained_reduce(GridVertex(15)), Ok(Some(ClassVertex(0))));
    /// assert_eq!(plane.chained_reduce(GridVertex(16)), Ok(None));
    /// // the first mode runs the two corner classes together
    /// assert_eq!(plane.reduce(GridVertex(12)), plane.reduce(GridVertex(15)));
    /// ```
    pub fn chained_reduce(&self, v: GridVertex) -> Result<Option<ClassVertex>, Refusal> {
        let (d, axes) = self.codes();
        let [_, n] = needed(raw::planner_need_chained_classes, d, self.chained_corners());
        let mut room = vec![0; n];
        let class = said(unsafe { raw::planner_chained_reduce(d, v.0, axes.as_ptr(), axes.len(), room.as_mut_ptr(), room.len()) })?;
        Ok((class != u32::MAX).then_some(ClassVertex(class)))
    }

    /// How many classes there are.
    ///
    /// ```
    /// use planner::{Axis, Gluing, Grid};
    /// let axis = |cells, gluing| Axis { cells, gluing };
    /// let plane = |n| Grid { axes: vec![axis(n, Gluing::Twisted(0b10)), axis(n, Gluing::Twisted(0b01))], sides: vec![1.0; 2] };
    /// assert_eq!(plane(3).chained_nvertices(), Ok(10));
    /// assert_eq!(plane(8).chained_nvertices(), Ok(65));
    /// ```
    pub fn chained_nvertices(&self) -> Result<u32, Refusal> {
        let (d, axes) = self.codes();
        let [_, n] = needed(raw::planner_need_chained_classes, d, self.chained_corners());
        let mut room = vec![0; n];
        said(unsafe { raw::planner_chained_nvertices(d, axes.as_ptr(), axes.len(), room.as_mut_ptr(), room.len()) })
    }

    /// The class of each grid point, in the order of the points.
    ///
    /// ```
    /// use planner::{Axis, Gluing, Grid};
    /// let axis = |cells, gluing| Axis { cells, gluing };
    /// let band = Grid { axes: vec![axis(3, Gluing::Twisted(0b10)), axis(2, Gluing::Open)], sides: vec![1.0; 2] };
    /// let classes: Vec<u32> = band.chained_classes().unwrap().iter().map(|c| c.0).collect();
    /// assert_eq!(classes, [0, 1, 2, 3, 4, 5, 6, 4, 3, 7, 8, 0]);
    /// ```
    pub fn chained_classes(&self) -> Result<Vec<ClassVertex>, Refusal> {
        self.classed(raw::planner_chained_classes)
    }

    /// The same list by the plain engine, which closes the relation step by step; the two are proved equal.
    ///
    /// ```
    /// use planner::{Axis, Gluing, Grid};
    /// let axis = |cells, gluing| Axis { cells, gluing };
    /// let plane = Grid { axes: vec![axis(5, Gluing::Twisted(0b10)), axis(5, Gluing::Twisted(0b01))], sides: vec![1.0; 2] };
    /// assert_eq!(plane.chained_closed_classes(), plane.chained_classes());
    /// ```
    pub fn chained_closed_classes(&self) -> Result<Vec<ClassVertex>, Refusal> {
        self.classed(raw::planner_chained_closed_classes)
    }

    /// The words of the cells, d+1 classes each, in the order of the sorted grid cells. A grid may be refused with 4 here: a word names a class twice.
    ///
    /// ```
    /// use planner::{Axis, Gluing, Grid, Refusal};
    /// let axis = |cells, gluing| Axis { cells, gluing };
    /// let band = Grid { axes: vec![axis(3, Gluing::Twisted(0b10)), axis(1, Gluing::Open)], sides: vec![1.0; 2] };
    /// assert_eq!(band.chained_cell_words().unwrap(), [0, 1, 4, 0, 3, 4, 1, 2, 5, 1, 4, 5, 2, 3, 0, 2, 5, 0]);
    /// let solid = Grid { axes: vec![axis(3, Gluing::Twisted(0b100)), axis(1, Gluing::Open), axis(3, Gluing::Twisted(0b011))], sides: vec![1.0; 3] };
    /// assert_eq!(solid.chained_cell_words(), Err(Refusal { number: 4, place: 1 }));
    /// ```
    pub fn chained_cell_words(&self) -> Result<Vec<u32>, Refusal> {
        let (d, axes) = self.codes();
        let [most, need @ ..] = needed::<5>(raw::planner_need_cell_words, d, self.chained_corners());
        listed(raw::planner_chained_cell_words, d, &axes, most, d as usize + 1, need)
    }

    fn classed(&self, call: Classing) -> Result<Vec<ClassVertex>, Refusal> {
        let (d, axes) = self.codes();
        let [mut classes, mut room] = needed(raw::planner_need_chained_classes, d, self.chained_corners()).map(|n| vec![0; n]);
        said(unsafe { call(d, axes.as_ptr(), axes.len(), classes.as_mut_ptr(), classes.len(), room.as_mut_ptr(), room.len()) })?;
        let points = self.axes.iter().map(|a| a.cells as usize + 1).product();
        classes.truncate(points);
        Ok(classes.into_iter().map(ClassVertex).collect())
    }
}
