//! Where boxes stand: columns from left to right along the calls, and lanes for edges that pass columns by.

use std::collections::{HashMap, VecDeque};

/// Sweeps over the columns, for their order and then for their places.
const SWEEPS: usize = 12;
const GAP: f64 = 22.0;
const LANE: f64 = 10.0;

/// A box or a lane in a column.
#[derive(Clone, Debug)]
pub struct Item {
    pub column: usize,
    pub top: f64,
    pub height: f64,
}

/// A piece of an edge between two neighbouring columns: items, and where on them, from their tops.
#[derive(Clone, Copy)]
struct Link {
    left: usize,
    right: usize,
    left_at: f64,
    right_at: f64,
}

pub struct Layout {
    /// The boxes first, in their order, then lanes.
    pub items: Vec<Item>,
    /// For a pair of boxes in columns that are no neighbours, its lanes from the first box to the second.
    pub lanes: HashMap<(usize, usize), Vec<usize>>,
    order: Vec<Vec<usize>>,
    links: Vec<Link>,
}

/// An edge between boxes, and where on them it ends, from their tops.
pub struct Wire {
    pub from: usize,
    pub to: usize,
    pub from_at: f64,
    pub to_at: f64,
}

impl Layout {
    /// Lays boxes out by their heights; the one numbered `root` is where calls begin.
    pub fn of(heights: &[f64], wires: &[Wire], root: usize) -> Layout {
        let columns = columns_of(heights.len(), wires, root);
        let items = heights.iter().zip(&columns).map(|(&height, &column)| Item { column, top: 0.0, height }).collect();
        let count = columns.iter().max().map_or(0, |last| last + 1);
        let mut layout = Layout { items, lanes: HashMap::new(), order: vec![Vec::new(); count], links: Vec::new() };
        for wire in wires {
            layout.link(wire);
        }
        for (number, item) in layout.items.iter().enumerate() {
            layout.order[item.column].push(number);
        }
        layout.sort();
        layout.place();
        layout
    }

    pub fn columns(&self) -> usize {
        self.order.len()
    }

    pub fn height(&self) -> f64 {
        self.items.iter().map(|item| item.top + item.height).fold(0.0, f64::max)
    }

    /// Adds an edge's pieces, and its lanes if no edge between the same boxes has them yet.
    fn link(&mut self, wire: &Wire) {
        let (from, to) = (self.items[wire.from].column, self.items[wire.to].column);
        if from == to {
            return;
        }
        let mut passed: Vec<usize> = (from.min(to) + 1..from.max(to)).collect();
        if to < from {
            passed.reverse();
        }
        let items = &mut self.items;
        let lanes = self.lanes.entry((wire.from, wire.to)).or_insert_with(|| {
            let lane = |column| Item { column, top: 0.0, height: LANE };
            items.extend(passed.iter().map(|&column| lane(column)));
            (items.len() - passed.len()..items.len()).collect()
        });
        let mut stops = vec![(wire.from, wire.from_at)];
        stops.extend(lanes.iter().map(|&lane| (lane, LANE / 2.0)));
        stops.push((wire.to, wire.to_at));
        for pair in stops.windows(2) {
            let (mut left, mut right) = (pair[0], pair[1]);
            if to < from {
                (left, right) = (right, left);
            }
            self.links.push(Link { left: left.0, right: right.0, left_at: left.1, right_at: right.1 });
        }
    }

    /// Orders each column by the mean places of what its items are linked with, to and fro.
    fn sort(&mut self) {
        for sweep in 0..SWEEPS {
            let forth = sweep % 2 == 0;
            for column in sweep_order(self.order.len(), forth) {
                let places = self.places_in_order();
                let mut keyed: Vec<(f64, usize)> = self.order[column]
                    .iter()
                    .map(|&item| (self.wanted(item, forth, &places).unwrap_or(places[item]), item))
                    .collect();
                keyed.sort_by(|left, right| left.0.total_cmp(&right.0));
                self.order[column] = keyed.into_iter().map(|(_, item)| item).collect();
            }
        }
    }

    /// Tops as if each column were stacked from 0.
    fn places_in_order(&self) -> Vec<f64> {
        let mut places = vec![0.0; self.items.len()];
        for column in &self.order {
            let mut top = 0.0;
            for &item in column {
                places[item] = top;
                top += self.items[item].height + GAP;
            }
        }
        places
    }

    /// The top at which an item's links to one side would be level in the mean.
    fn wanted(&self, item: usize, from_left: bool, tops: &[f64]) -> Option<f64> {
        let level = |link: &Link| match from_left {
            true => (link.right == item).then(|| tops[link.left] + link.left_at - link.right_at),
            false => (link.left == item).then(|| tops[link.right] + link.right_at - link.left_at),
        };
        let tops: Vec<f64> = self.links.iter().filter_map(level).collect();
        (!tops.is_empty()).then(|| tops.iter().sum::<f64>() / tops.len() as f64)
    }

    /// Places the items of each column near where their links want them, in the column's order.
    fn place(&mut self) {
        let mut tops = self.places_in_order();
        for sweep in 0..SWEEPS {
            let forth = sweep % 2 == 0;
            for column in sweep_order(self.order.len(), forth) {
                let items = &self.order[column];
                let wanted: Vec<f64> =
                    items.iter().map(|&item| self.wanted(item, forth, &tops).unwrap_or(tops[item])).collect();
                let heights: Vec<f64> = items.iter().map(|&item| self.items[item].height + GAP).collect();
                for (&item, top) in items.iter().zip(apart(&wanted, &heights)) {
                    tops[item] = top;
                }
            }
        }
        let first = tops.iter().copied().fold(f64::INFINITY, f64::min);
        for (item, top) in self.items.iter_mut().zip(tops) {
            item.top = top - first;
        }
    }
}

fn sweep_order(count: usize, forth: bool) -> Vec<usize> {
    match forth {
        true => (0..count).collect(),
        false => (0..count).rev().collect(),
    }
}

/// Tops in the given order, none nearer to the next than its height, as near to the wanted ones as can be.
fn apart(wanted: &[f64], heights: &[f64]) -> Vec<f64> {
    // Groups that touch: the sum of what their items want for the group's top, how many items, and their heights.
    let mut groups: Vec<(f64, usize, f64)> = Vec::new();
    for (&want, &height) in wanted.iter().zip(heights) {
        groups.push((want, 1, height));
        while let [.., (above, count, tall), (below, more, taller)] = groups[..] {
            if above / count as f64 + tall <= below / more as f64 {
                break;
            }
            groups.truncate(groups.len() - 2);
            groups.push((above + below - tall * more as f64, count + more, tall + taller));
        }
    }
    let mut heights = heights.iter();
    let mut tops = Vec::new();
    for (sum, count, _) in groups {
        let mut top = sum / count as f64;
        for height in heights.by_ref().take(count) {
            tops.push(top);
            top += height;
        }
    }
    tops
}

// -------------------------------------------------------------------- columns

/// A box's column is how many calls it is away from where calls begin: the root, then boxes that nothing reached.
fn columns_of(count: usize, wires: &[Wire], root: usize) -> Vec<usize> {
    let mut called: Vec<Vec<usize>> = vec![Vec::new(); count];
    let mut is_called = vec![false; count];
    for wire in wires.iter().filter(|wire| wire.from != wire.to) {
        called[wire.from].push(wire.to);
        is_called[wire.to] = true;
    }
    let uncalled = (0..count).filter(|&number| !is_called[number]);
    // What is left when all others are reached calls itself in a circle.
    let firsts = (root..count).take(1).chain(uncalled).chain(0..count);
    let mut columns = vec![None; count];
    for first in firsts {
        if columns[first].is_none() {
            reach(first, &called, &mut columns);
        }
    }
    columns.into_iter().map(Option::unwrap_or_default).collect()
}

/// Gives a column to each box that calls reach from the first and that has none yet.
fn reach(first: usize, called: &[Vec<usize>], columns: &mut [Option<usize>]) {
    columns[first] = Some(0);
    let mut waiting = VecDeque::from([(first, 0)]);
    while let Some((number, column)) = waiting.pop_front() {
        for &callee in &called[number] {
            if columns[callee].is_none() {
                columns[callee] = Some(column + 1);
                waiting.push_back((callee, column + 1));
            }
        }
    }
}

#[cfg(test)]
mod tests {
    use super::*;

    fn wires(pairs: &[(usize, usize)]) -> Vec<Wire> {
        pairs.iter().map(|&(from, to)| Wire { from, to, from_at: 10.0, to_at: 10.0 }).collect()
    }

    #[test]
    fn columns_count_calls_from_the_root() {
        assert_eq!(columns_of(4, &wires(&[(0, 1), (1, 2), (2, 1), (1, 0), (2, 2)]), 0), [0, 1, 2, 0]);
        assert_eq!(columns_of(4, &wires(&[(1, 0), (0, 3), (3, 0)]), 1), [1, 0, 0, 2]);
        assert_eq!(columns_of(5, &wires(&[(2, 1), (3, 4), (4, 3)]), 0), [0, 1, 0, 0, 1]);
        assert_eq!(columns_of(0, &[], 0), Vec::<usize>::new());
    }

    #[test]
    fn boxes_of_one_column_do_not_meet() {
        let layout = Layout::of(&[40.0; 6], &wires(&[(0, 1), (0, 2), (0, 3), (0, 4), (4, 5), (5, 0)]), 0);
        for (one, first) in layout.items.iter().enumerate() {
            for second in layout.items[one + 1..].iter().filter(|item| item.column == first.column) {
                let apart = first.top + first.height <= second.top || second.top + second.height <= first.top;
                assert!(apart, "{first:?} {second:?}");
            }
        }
        assert_eq!(layout.lanes[&(5, 0)].len(), 1);
    }

    #[test]
    fn tops_are_as_wanted_where_there_is_room() {
        assert_eq!(apart(&[0.0, 50.0], &[10.0, 10.0]), [0.0, 50.0]);
        assert_eq!(apart(&[10.0, 10.0], &[10.0, 10.0]), [5.0, 15.0]);
    }
}
