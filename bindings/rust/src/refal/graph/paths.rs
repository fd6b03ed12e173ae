//! How edges run between boxes that are laid out.

use std::cmp::Ordering;
use std::fmt::Write;

use super::layout::{Layout, Wire};

/// Where the columns are, from left to right.
pub struct Columns {
    pub left: Vec<f64>,
    pub right: Vec<f64>,
}

#[derive(Clone, Copy)]
struct Point {
    x: f64,
    y: f64,
}

pub struct Router<'a> {
    pub layout: &'a Layout,
    pub columns: &'a Columns,
    /// The right side of each box.
    pub right: &'a [f64],
}

/// Tracks beside a column, for edges between its own boxes.
const TRACKS: usize = 9;
const TRACK: f64 = 8.0;
const CORNER: f64 = 6.0;

impl Router<'_> {
    /// The path of the edge of that number, as SVG writes it.
    pub fn path(&self, wire: &Wire, number: usize) -> String {
        match self.column(wire.from).cmp(&self.column(wire.to)) {
            Ordering::Equal => self.beside(wire, number),
            Ordering::Less => self.across(wire, true),
            Ordering::Greater => self.across(wire, false),
        }
    }

    fn column(&self, item: usize) -> usize {
        self.layout.items[item].column
    }

    fn y(&self, item: usize, at: f64) -> f64 {
        self.layout.items[item].top + at
    }

    /// Between rows of one column: out to a track on its right, along it, and back.
    fn beside(&self, wire: &Wire, number: usize) -> String {
        let (from, to) = (self.y(wire.from, wire.from_at), self.y(wire.to, wire.to_at));
        let first =
            if wire.from == wire.to { self.right[wire.from] } else { self.columns.right[self.column(wire.from)] };
        let track = first + CORNER + TRACK * (number % TRACKS + 1) as f64;
        let turn = if from < to { CORNER } else { -CORNER };
        let out = format!(
            "M{:.1} {from:.1}H{:.1}Q{track:.1} {from:.1} {track:.1} {:.1}",
            self.right[wire.from],
            track - CORNER,
            from + turn
        );
        let back =
            format!("V{:.1}Q{track:.1} {to:.1} {:.1} {to:.1}H{:.1}", to - turn, track - CORNER, self.right[wire.to]);
        out + &back
    }

    /// From one side of a box to the facing side of another, through its lanes.
    fn across(&self, wire: &Wire, forth: bool) -> String {
        let facing = |column: usize, on_right: bool| match on_right {
            true => self.columns.right[column],
            false => self.columns.left[column],
        };
        // Level to the column's side first, so that no box of the column is crossed.
        let mut here = Point { x: facing(self.column(wire.from), forth), y: self.y(wire.from, wire.from_at) };
        let start = if forth { self.right[wire.from] } else { here.x };
        let mut path = format!("M{start:.1} {:.1}H{:.1}", here.y, here.x);
        for &lane in self.layout.lanes.get(&(wire.from, wire.to)).into_iter().flatten() {
            let y = self.y(lane, self.layout.items[lane].height / 2.0);
            curve(&mut path, here, Point { x: facing(self.column(lane), !forth), y });
            here = Point { x: facing(self.column(lane), forth), y };
            let _ = write!(path, "H{:.1}", here.x);
        }
        let end = Point { x: facing(self.column(wire.to), !forth), y: self.y(wire.to, wire.to_at) };
        curve(&mut path, here, end);
        if !forth {
            let _ = write!(path, "H{:.1}", self.right[wire.to]);
        }
        path
    }
}

/// A curve that leaves and arrives level.
fn curve(path: &mut String, from: Point, to: Point) {
    let middle = (from.x + to.x) / 2.0;
    let _ = write!(path, "C{middle:.1} {:.1} {middle:.1} {:.1} {:.1} {:.1}", from.y, to.y, to.x, to.y);
}

#[cfg(test)]
mod tests {
    use super::*;

    #[test]
    fn an_edge_runs_level_out_of_its_box_and_into_the_other() {
        let wire = Wire { from: 0, to: 1, from_at: 10.0, to_at: 20.0 };
        let layout = Layout::of(&[40.0, 40.0], &[wire], 0);
        let columns = Columns { left: vec![0.0, 200.0], right: vec![100.0, 300.0] };
        let router = Router { layout: &layout, columns: &columns, right: &[60.0, 300.0] };
        let back = Wire { from: 1, to: 0, from_at: 10.0, to_at: 20.0 };
        let forth = router.path(&Wire { from: 0, to: 1, from_at: 10.0, to_at: 20.0 }, 0);
        assert!(forth.starts_with("M60.0 ") && forth.contains("H100.0C150.0 "), "{forth}");
        assert!(router.path(&back, 0).ends_with("H60.0"));
    }
}
