//! Nodes in columns, and the lanes by which arrows pass a column.

use super::part::Part;

/// With more lanes than this per column, arrows run straight, behind nodes.
const MOST_LANES: usize = 60;

/// Something that takes a place in a column.
pub struct Spot {
    /// Its column.
    pub column: usize,
    /// Spots of the column to the left that arrows join it with.
    pub left: Vec<usize>,
    /// Spots of the column to the right that arrows join it with.
    pub right: Vec<usize>,
    /// Spots of the same column that arrows join it with.
    pub same: Vec<usize>,
}

impl Spot {
    /// A spot of that column that no arrow joins yet.
    fn new(column: usize) -> Spot {
        Spot {
            column,
            left: Vec::new(),
            right: Vec::new(),
            same: Vec::new(),
        }
    }
}

/// What stands in the columns.
pub struct Chart {
    /// First a spot for each node, then one for each lane: the place in a
    /// column where an arrow passes.
    pub spots: Vec<Spot>,
    /// How many of the spots are nodes.
    pub nodes: usize,
    /// The spots of each column, from above.
    pub columns: Vec<Vec<usize>>,
    /// The spots along each arrow, from the holder to what it holds.
    pub routes: Vec<Vec<usize>>,
}

impl Chart {
    /// Puts the nodes of a part in these columns, in an order with few
    /// crossings.
    pub fn new(part: &Part, columns: Vec<Vec<usize>>) -> Chart {
        let mut column_of = vec![0; part.nodes.len()];
        for (place, column) in columns.iter().enumerate() {
            for &node in column {
                column_of[node] = place;
            }
        }
        let mut chart = Chart {
            spots: column_of.iter().map(|&column| Spot::new(column)).collect(),
            nodes: part.nodes.len(),
            columns,
            routes: Vec::new(),
        };
        let lanes: usize = part
            .arrows
            .iter()
            .map(|&(from, to)| column_of[from].abs_diff(column_of[to]).saturating_sub(1))
            .sum();
        for &(from, to) in &part.arrows {
            chart.route(from, to, lanes <= MOST_LANES * chart.columns.len());
        }
        if chart.spots.iter().all(|spot| spot.same.is_empty()) {
            chart.start();
        }
        chart.untangle();
        chart
    }

    /// Orders nodes by their numbers, and lanes by where they lead to the
    /// right.
    fn start(&mut self) {
        let mut keys: Vec<usize> = (0..self.spots.len()).collect();
        for route in &self.routes {
            let ends = [route.first(), route.last()];
            let ends = ends.into_iter().flatten();
            let end = ends.max_by_key(|&&node| self.spots[node].column);
            for &spot in route.iter().filter(|&&spot| self.is_lane(spot)) {
                keys[spot] = end.copied().unwrap_or(spot);
            }
        }
        for column in &mut self.columns {
            column.sort_by_key(|&spot| keys[spot]);
        }
    }

    /// Whether a spot is a lane.
    pub fn is_lane(&self, spot: usize) -> bool {
        spot >= self.nodes
    }

    /// Adds a lane to a column.
    fn add(&mut self, column: usize) -> usize {
        let spot = self.spots.len();
        self.columns[column].push(spot);
        self.spots.push(Spot::new(column));
        spot
    }

    /// Leads an arrow from a node to another, by lanes or straight.
    fn route(&mut self, from: usize, to: usize, by_lanes: bool) {
        let (start, end) = (self.spots[from].column, self.spots[to].column);
        let mut route = vec![from];
        if by_lanes && start < end {
            route.extend((start + 1..end).map(|column| self.add(column)));
        } else if by_lanes {
            route.extend((end + 1..start).rev().map(|column| self.add(column)));
        }
        route.push(to);
        for pair in route.windows(2) {
            self.link(pair[0], pair[1]);
        }
        self.routes.push(route);
    }

    /// Links two spots if they are in the same column or in neighbours.
    fn link(&mut self, one: usize, other: usize) {
        let (first, second) = (self.spots[one].column, self.spots[other].column);
        if first + 1 == second {
            self.spots[one].right.push(other);
            self.spots[other].left.push(one);
        } else if second + 1 == first {
            self.spots[one].left.push(other);
            self.spots[other].right.push(one);
        } else if first == second {
            self.spots[one].same.push(other);
            self.spots[other].same.push(one);
        }
    }
}
