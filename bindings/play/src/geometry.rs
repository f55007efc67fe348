//! Places in a drawing: rooms on the grid, and ways from one room's border to another's.

use crate::layout::Cell;

/// A room's width and height, and the gaps between rooms.
pub const ROOM: (f32, f32) = (104.0, 84.0);
pub const GAP: (f32, f32) = (86.0, 66.0);
/// How far the marks on a room's upper edge stand out.
const MARKS: f32 = 13.0;

/// A point, or a direction.
#[derive(Clone, Copy, Debug, PartialEq)]
pub struct Point {
    pub x: f32,
    pub y: f32,
}

impl Point {
    /// This point and so many times that direction.
    pub fn plus(self, times: f32, by: Point) -> Point {
        Point { x: self.x + times * by.x, y: self.y + times * by.y }
    }

    /// The direction from another point to this one.
    pub fn from(self, other: Point) -> Point {
        self.plus(-1.0, other)
    }

    /// The same direction, of length 1.
    pub fn unit(self) -> Point {
        let length = self.x.hypot(self.y).max(0.001);
        Point { x: self.x / length, y: self.y / length }
    }

    /// A quarter turn.
    pub fn turned(self) -> Point {
        Point { x: -self.y, y: self.x }
    }

    /// Whether this direction is across, with little up or down.
    pub fn is_level(self) -> bool {
        self.x.abs() > 2.0 * self.y.abs()
    }
}

/// The middle of a cell's room.
pub fn middle((x, y): Cell) -> Point {
    Point { x: x as f32 * (ROOM.0 + GAP.0) + ROOM.0 / 2.0, y: y as f32 * (ROOM.1 + GAP.1) + ROOM.1 / 2.0 }
}

/// Where the ray from a room's middle towards a point leaves the room.
fn border(middle: Point, towards: Point) -> Point {
    let way = towards.from(middle);
    let part = |size: f32, along: f32| if along == 0.0 { f32::INFINITY } else { size / 2.0 / along.abs() };
    middle.plus(part(ROOM.0, way.x).min(part(ROOM.1, way.y)).min(1.0), way)
}

/// A way from a room to another: straight between neighbouring cells, else bent around what lies between.
#[derive(Clone, Copy, Debug)]
pub struct Way {
    pub start: Point,
    pub bend: Point,
    pub end: Point,
}

/// How far apart ways in this direction are that join the same rooms, so that each has room for its amount.
fn apart(along: Point, near: bool) -> f32 {
    match (near, along.is_level(), along.turned().is_level()) {
        (true, _, true) => 15.0,
        (true, _, false) => 24.0,
        (false, true, _) => 36.0,
        (false, false, _) => 75.0,
    }
}

/// The way between two cells, so many places beside the usual one. There and back run over the same points.
pub fn way(from: Cell, to: Cell, aside: f32) -> Way {
    if to < from {
        let Way { start, bend, end } = way(to, from, aside);
        return Way { start: end, bend, end: start };
    }
    let (a, b) = (middle(from), middle(to));
    let side = b.from(a).unit().turned();
    let near = (from.0 - to.0).abs() <= 1 && (from.1 - to.1).abs() <= 1;
    let bow = if near { 0.0 } else { 0.3 * b.from(a).x.hypot(b.from(a).y) };
    let bend = a.plus(0.5, b.from(a)).plus(bow + 2.0 * aside * apart(b.from(a), near), side);
    Way { start: border(a, bend), bend, end: border(b, bend) }
}

impl Way {
    /// The point after this part of the way.
    pub fn at(&self, part: f32) -> Point {
        let (a, b) = (self.start.plus(part, self.bend.from(self.start)), self.bend.plus(part, self.end.from(self.bend)));
        a.plus(part, b.from(a))
    }

    /// The direction at the end.
    pub fn arrival(&self) -> Point {
        self.end.from(self.bend).unit()
    }

    /// The direction on the whole.
    pub fn along(&self) -> Point {
        self.end.from(self.start).unit()
    }

    /// Whether it bends to the left of the straight way.
    pub fn bends_left(&self) -> bool {
        self.bend.x < self.start.x.midpoint(self.end.x) - 0.1
    }

    /// The same, but that it keeps off the marks on the upper edges of the rooms that it joins.
    pub fn off_marks(self, from: Cell, to: Cell) -> Way {
        let off = |end: Point, cell: Cell| {
            let upper = middle(cell).y - end.y > ROOM.1 / 2.0 - 0.1;
            end.plus(if upper { MARKS } else { 0.0 }, self.bend.from(end).unit())
        };
        Way { start: off(self.start, from), bend: self.bend, end: off(self.end, to) }
    }

    /// As an SVG path that ends so many points early.
    pub fn path(&self, early: f32) -> String {
        let end = self.end.plus(-early, self.arrival());
        format!("M{:.1} {:.1}Q{:.1} {:.1} {:.1} {:.1}", self.start.x, self.start.y, self.bend.x, self.bend.y, end.x, end.y)
    }
}
