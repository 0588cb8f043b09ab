//! How an answer comes back from the core.

/// A refusal: its number in document 01's table, and its place, counted from 0.
///
/// ```
/// let refusal = planner::orientation(2, &[0, 0, 1]).unwrap_err();
/// assert_eq!(refusal, planner::Refusal { number: 4, place: 0 });
/// assert_eq!(refusal.to_string(), "refused 4 at 0: a word names a vertex twice");
/// ```
#[derive(Clone, Copy, Debug, PartialEq, Eq, Hash)]
pub struct Refusal {
    /// As document 01's table and the requests after it number them.
    pub number: u32,
    /// The first word, the least number or the least axis that is refused; 0 where there is no place.
    pub place: u32,
}

impl Refusal {
    /// The table's line for the number.
    pub fn reason(self) -> &'static str {
        match self.number {
            1 => "d outside its range",
            2 => "word list empty or no multiple of d+1",
            3 => "more than 4,096 cells",
            4 => "a word names a vertex twice",
            5 => "some number below the largest is unused",
            6 => "more than 4,096 vertices, or a number above 4,095",
            7 => "a facet in three or more cells",
            8 => "open axis under 1 cell, closed under 3",
            9 => "an axis reflects itself, or one outside the grid",
            10 => "a side not a number or out of range",
            11 => "R outside 1 to 64",
            12 => "a lent list too short",
            13 => "no coherent signs exist",
            14 => "sign list not one +1 or -1 for each cell",
            15 => "some grid edge gets two lengths",
            16 => "order words not one for each cell, no more",
            18 => "another kind of grid than the call takes",
            19 => "south not below north, or either beyond 90 degrees",
            20 => "the mesh file ends inside a record or before its last one",
            21 => "a record of an unknown kind in the mesh file",
            22 => "a wrong length, order, count, field or birth, or bytes after the end",
            _ => "no such number",
        }
    }
}

impl std::fmt::Display for Refusal {
    fn fmt(&self, f: &mut std::fmt::Formatter<'_>) -> std::fmt::Result {
        write!(f, "refused {} at {}: {}", self.number, self.place, self.reason())
    }
}

impl std::error::Error for Refusal {}

/// The lower half where the upper half is 0, else the refusal.
pub(crate) fn said(answer: u64) -> Result<u32, Refusal> {
    let (number, low) = ((answer >> 32) as u32, answer as u32);
    if number == 0 {
        Ok(low)
    } else {
        Err(Refusal { number, place: low })
    }
}
