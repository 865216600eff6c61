//! The box.

use crate::{calls, Point, Refusal};

/// The box, by its center and size or by its edges; y points down, so its top is its least y. By center and size its edges are voronoice's, bit for bit;
/// by its edges it has these numbers bit for bit, so that two boxes that share an edge meet there.
/// Whatever is asked of a box that breaks its rule is refused (3), and so is what is asked about a point that does (6).
#[derive(Clone, Debug, PartialEq)]
pub struct BoundingBox {
    center: Point,
    /// as it was given
    pub(crate) given: Given,
}

/// How a box was given, in the order in which the library takes the four numbers.
#[derive(Clone, Copy, Debug, PartialEq)]
pub(crate) enum Given {
    /// center x and y, width, height
    Sized([f64; 4]),
    /// left, top, right, bottom
    Edges([f64; 4]),
}

impl BoundingBox {
    /// A box by its center and size.
    pub fn new(center: Point, width: f64, height: f64) -> Self {
        Self { center, given: Given::Sized([center.x, center.y, width, height]) }
    }
    /// A box by its edges, left below right and top below bottom (y points down). Map sheets that share an edge are given so: by center and size an
    /// edge can move by a last bit, and two sheets then overlap or leave a gap.
    ///
    /// ```
    /// use yelmuzard::*;
    ///
    /// # fn main() -> Result<(), Refusal> {
    /// let (west, east) = (BoundingBox::from_edges(0.0, 0.1, 0.3, 0.3), BoundingBox::from_edges(0.3, 0.1, 0.6, 0.3));
    /// assert_eq!(west.right()?, east.left()?);
    /// assert_ne!(west.right()?, BoundingBox::new(*east.center(), 0.3, 0.2).left()?);
    /// # Ok(())
    /// # }
    /// ```
    pub fn from_edges(left: f64, top: f64, right: f64, bottom: f64) -> Self {
        // as voronoi_box_by_edges has it
        let center = Point { x: left + (right - left) / 2.0, y: top + (bottom - top) / 2.0 };
        Self { center, given: Given::Edges([left, top, right, bottom]) }
    }
    /// A box round the origin.
    pub fn new_centered(width: f64, height: f64) -> Self {
        Self::new(Point::default(), width, height)
    }
    /// A square round the origin.
    pub fn new_centered_square(width: f64) -> Self {
        Self::new_centered(width, width)
    }
    /// Its center.
    pub fn center(&self) -> &Point {
        &self.center
    }
    /// Its least x.
    pub fn left(&self) -> Result<f64, Refusal> {
        Ok(calls::edges(self)?[0])
    }
    /// Its least y.
    pub fn top(&self) -> Result<f64, Refusal> {
        Ok(calls::edges(self)?[1])
    }
    /// Its greatest x.
    pub fn right(&self) -> Result<f64, Refusal> {
        Ok(calls::edges(self)?[2])
    }
    /// Its greatest y.
    pub fn bottom(&self) -> Result<f64, Refusal> {
        Ok(calls::edges(self)?[3])
    }
    /// Its width: right less left, which can be off the given one by rounding.
    pub fn width(&self) -> Result<f64, Refusal> {
        Ok(calls::edges(self)?[4])
    }
    /// Its height: bottom less top.
    pub fn height(&self) -> Result<f64, Refusal> {
        Ok(calls::edges(self)?[5])
    }
    /// Top left, bottom left, bottom right, top right. (voronoice's `bottom_left()` and `top_right()` are the second and the fourth.)
    pub fn corners(&self) -> Result<[Point; 4], Refusal> {
        calls::corners(self)
    }
    /// Whether a point is inside or on an edge.
    pub fn is_inside(&self, point: &Point) -> Result<bool, Refusal> {
        calls::is_inside(self, point)
    }
    /// Whether a point is inside and on no edge.
    pub fn is_exclusively_inside(&self, point: &Point) -> Result<bool, Refusal> {
        calls::is_exclusively_inside(self, point)
    }
}

impl Default for BoundingBox {
    /// From -1 to 1 both ways.
    fn default() -> Self {
        Self::new_centered_square(2.0)
    }
}
