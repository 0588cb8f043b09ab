//! A band as a map file.
use crate::complex::{needed, with_room};
use crate::{raw, Grid, Refusal};

impl Grid {
    /// The band between two latitudes in whole degrees as an RFC 7946 GeoJSON file: one polygon for each grid cell, longitudes from -180 to 180, with the cell's number
    /// in the mesh as id. Refused with 18 unless the grid has two axes, the first periodic and the second open, and with 19 for latitudes that do not fit.
    ///
    /// ```
    /// use planner::{Axis, Gluing, Grid};
    /// let axis = |cells, gluing| Axis { cells, gluing };
    /// let band = Grid { axes: vec![axis(3, Gluing::Periodic), axis(1, Gluing::Open)], sides: vec![3.0, 1.0] };
    /// let file = band.geojson(0, 60).unwrap();
    /// assert_eq!(file.len(), 1164);
    /// assert!(file.starts_with(r#"{"type":"FeatureCollection","features":[{"type":"Feature","id":1,"properties":{"cell":1},"geometry":{"type":"Polygon","#));
    /// assert!(file.contains("[[[-180.000000,0.000000],[-60.000000,0.000000],[-60.000000,60.000000],[-180.000000,0.000000]]]"));
    ///
    /// // the ids are the places of the cells in the mesh: the file's first feature is cell 1
    /// let cells = band.triangulate_ordered().unwrap().cells;
    /// assert_eq!(cells[3..6], [0, 1, 4]);
    /// assert_eq!(band.geojson(60, 0).unwrap_err().number, 19);
    /// ```
    pub fn geojson(&self, south: i32, north: i32) -> Result<String, Refusal> {
        let (d, axes) = self.codes();
        let [most, need @ ..] = needed::<5>(raw::planner_need_geojson, d, self.corners());
        let mut bytes = vec![0u8; most];
        let call = raw::planner_geojson;
        let count = with_room!(call, need, d, south, north, axes.as_ptr(), axes.len(), bytes.as_mut_ptr(), bytes.len())?;
        bytes.truncate(count as usize);
        Ok(String::from_utf8(bytes).expect("the file is ASCII"))
    }
}
