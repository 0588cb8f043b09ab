//! Safe functions over the proved mesh core: grids with glued axes, cell lists, facets, coherent signs, cell orders, refinement and mesh files.
//!
//! Nothing here checks an input: every call of the core answers every input, and a refusal comes back as a [`Refusal`] with the number and the
//! place that document 01's table gives it. Results are owned; working lists are made and dropped inside a call.
//!
//! ```
//! use planner::{Axis, Gluing, Grid, GridVertex};
//!
//! // a band of 3 cells by 1, its ends glued with a twist
//! let band = Grid { axes: vec![Axis { cells: 3, gluing: Gluing::Twisted(0b10) }, Axis { cells: 1, gluing: Gluing::Open }], sides: vec![3.0, 1.0] };
//! let glued: Vec<u32> = (0..8).map(|v| band.reduce(GridVertex(v)).unwrap().unwrap().0).collect();
//! assert_eq!(glued, [0, 1, 2, 3, 3, 4, 5, 0]);
//! assert!(!band.is_orientation_preserving().unwrap());
//!
//! // its cells have no coherent signs: refusal 13
//! let refusal = planner::orientation(2, &[0, 1, 4, 0, 3, 4, 1, 2, 5, 1, 4, 5, 2, 3, 0, 2, 5, 0]).unwrap_err();
//! assert_eq!((refusal.number, refusal.place), (13, 0));
//! ```
#![warn(missing_docs)]

mod answer;
mod chained;
mod complex;
mod dropped;
mod facet_records;
mod geojson;
mod grid;
mod incidence;
mod mesh_file;
mod orientation;
mod pattern;
mod raw;
mod refinement;
mod seam;
mod swath;

pub use answer::Refusal;
pub use chained::ClassVertex;
pub use complex::{border, cells, edges, facets, induced_orientation, ordering, orient_by, orientation, Facet, Ordered, Side};
pub use dropped::{drop_cells, Kept};
pub use incidence::{boundary, faces, incidence, matrix_market, Entry};
pub use facet_records::{facet_records, facet_records_with, FacetRecord, SignedSide};
pub use orientation::{orientation_looks, Coherence};
pub use grid::{Axis, EdgeLength, Gluing, GluedVertex, Grid, GridVertex, Triangulated};
pub use mesh_file::{read_mesh, write_mesh, BornVertex, Mesh};
pub use pattern::{corners, corners_stepping};
pub use refinement::{refine, refine_by_steps, refine_with, refine_with_by_steps, Birth, Child, Refined};
pub use seam::Crossing;
