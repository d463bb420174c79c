//! The order of nodes and lanes in each column, with few crossings.

use super::chart::{Chart, Spot};
use std::cmp::Ordering;

/// From how many starts an order is looked for, if the chart is not large.
const STARTS: usize = 12;
/// More spots and arrows than this make a chart large.
const LARGE: usize = 1500;
/// How often the columns are put in order.
const SWEEPS: usize = 16;
/// How often neighbours are exchanged after each of these.
const EXCHANGES: usize = 8;

impl Chart {
    /// Looks for an order with few crossings, from several starts.
    pub fn untangle(&mut self) {
        let mut best = self.columns.clone();
        let mut least = self.cost();
        let large = self.spots.len() + self.routes.len() > LARGE;
        let (starts, sweeps) = if large { (1, 4) } else { (STARTS, SWEEPS) };
        for start in 0..starts {
            if start > 0 {
                self.shuffle(start);
            }
            for sweep in 0..sweeps {
                if least == 0 {
                    break;
                }
                self.sweep(sweep % 2 == start % 2);
                if !large {
                    self.exchange();
                }
                let cost = self.cost();
                if cost < least {
                    least = cost;
                    best.clone_from(&self.columns);
                }
            }
        }
        self.columns = best;
    }

    /// Mixes the columns, each time in another way.
    fn shuffle(&mut self, start: usize) {
        for column in &mut self.columns {
            column.sort_by_key(|&spot| (spot + 1) * (7919 * start + 104_729) % 10_007);
        }
    }

    /// The place of each spot in its column.
    fn places(&self) -> Vec<usize> {
        let mut places = vec![0; self.spots.len()];
        for column in &self.columns {
            for (place, &spot) in column.iter().enumerate() {
                places[spot] = place;
            }
        }
        places
    }

    /// Sorts each column by the mean places of the spots in the one before.
    fn sweep(&mut self, to_right: bool) {
        let mut places = self.places();
        let count = self.columns.len();
        for step in 1..count {
            let column = if to_right { step } else { count - 1 - step };
            let mean = |spot: usize| {
                let (near, own) = (&self.spots[spot], places[spot] as f64);
                let side = if to_right { &near.left } else { &near.right };
                let links = side.iter().chain(&near.same);
                let sum: usize = links.map(|&link| places[link]).sum();
                let count = side.len() + near.same.len();
                if count == 0 {
                    own
                } else {
                    sum as f64 / count as f64
                }
            };
            let mut sorted: Vec<(f64, usize)> = self.columns[column]
                .iter()
                .map(|&spot| (mean(spot), spot))
                .collect();
            sorted.sort_by(|one, other| one.0.total_cmp(&other.0));
            self.columns[column] = sorted.into_iter().map(|(_, spot)| spot).collect();
            for (place, &spot) in self.columns[column].iter().enumerate() {
                places[spot] = place;
            }
        }
    }

    /// Exchanges neighbours where that saves crossings.
    fn exchange(&mut self) {
        let mut places = self.places();
        for _ in 0..EXCHANGES {
            let mut changed = false;
            for column in &mut self.columns {
                for upper in 1..column.len() {
                    let (one, other) = (column[upper - 1], column[upper]);
                    if gain(&self.spots, &places, (one, other)) > 0 {
                        column.swap(upper - 1, upper);
                        places.swap(one, other);
                        changed = true;
                    }
                }
            }
            if !changed {
                break;
            }
        }
    }

    /// How bad an order is: how many pairs of arrows cross, and how many spots
    /// the arrows within a column pass by.
    fn cost(&self) -> usize {
        let places = self.places();
        let columns = self.columns.iter();
        let crossings: usize = columns.map(|column| self.crossings(column, &places)).sum();
        let mut passed = 0;
        for (spot, near) in self.spots.iter().enumerate() {
            let same = near.same.iter();
            passed += same
                .map(|&link| places[link].abs_diff(places[spot]).saturating_sub(1))
                .sum::<usize>();
        }
        crossings + passed / 2
    }

    /// How many pairs of arrows cross between a column and the next.
    fn crossings(&self, column: &[usize], places: &[usize]) -> usize {
        let mut ends: Vec<usize> = Vec::new();
        let mut crossings = 0;
        for &spot in column {
            let links = self.spots[spot].right.iter();
            let mut own: Vec<usize> = links.map(|&link| places[link]).collect();
            own.sort_unstable();
            for &end in &own {
                crossings += ends.len() - ends.partition_point(|&other| other <= end);
            }
            ends.extend(own);
            ends.sort_unstable();
        }
        crossings
    }
}

/// How many crossings it saves to exchange two neighbours.
fn gain(spots: &[Spot], places: &[usize], (upper, lower): (usize, usize)) -> i64 {
    let sign = |one: usize, other: usize| match places[one].cmp(&places[other]) {
        Ordering::Less => -1,
        Ordering::Equal => 0,
        Ordering::Greater => 1,
    };
    let (above, below) = (&spots[upper], &spots[lower]);
    let mut gain = 0;
    for (above, below) in [(&above.left, &below.left), (&above.right, &below.right)] {
        for &one in above {
            gain += below.iter().map(|&other| sign(one, other)).sum::<i64>();
        }
    }
    let down = above.same.iter().filter(|&&link| link != lower);
    let up = below.same.iter().filter(|&&link| link != upper);
    gain += down.map(|&link| sign(link, upper)).sum::<i64>();
    gain + up.map(|&link| sign(lower, link)).sum::<i64>()
}
