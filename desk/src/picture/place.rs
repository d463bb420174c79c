//! How high and how far to the right the spots of a chart stand.

use super::chart::Chart;

/// How often the heights are balanced.
const ROUNDS: usize = 40;
/// Room between two nodes, a node and a lane, and two lanes.
const ROOM: [f64; 3] = [24.0, 16.0, 9.0];
/// Room on a node's side for each arrow.
const PORT: f64 = 9.0;
/// Part of a node's side, above and below, that no arrow ends at.
pub const CORNER: f64 = 13.0;
/// Arrows make a node no higher than this.
const HIGHEST: f64 = 300.0;
/// The least and the greatest room between two columns.
const GAP: (f64, f64) = (64.0, 190.0);

/// Width and height of a node.
#[derive(Clone, Copy, Debug)]
pub struct Size {
    /// From left to right.
    pub width: f64,
    /// From above to below.
    pub height: f64,
}

/// The places of a chart's spots.
pub struct Places {
    /// The middle of each spot, from above.
    pub middles: Vec<f64>,
    /// The height of each spot; none for a lane.
    pub heights: Vec<f64>,
    /// Left end and width of each column.
    pub columns: Vec<(f64, f64)>,
}

impl Places {
    /// Places the spots of a chart whose nodes have these sizes.
    pub fn new(chart: &Chart, sizes: &[Size]) -> Places {
        let mut places = Places {
            middles: vec![0.0; chart.spots.len()],
            heights: heights(chart, sizes),
            columns: Vec::new(),
        };
        for column in &chart.columns {
            let wishes = vec![(0.0, 1.0); column.len()];
            places.settle(chart, column, &wishes);
        }
        for round in 0..ROUNDS {
            places.balance(chart, round);
        }
        let top = (0..chart.spots.len())
            .map(|spot| places.middles[spot] - places.heights[spot] / 2.0)
            .fold(f64::INFINITY, f64::min);
        for middle in &mut places.middles {
            *middle -= top;
        }
        places.set_columns(chart, sizes);
        places
    }

    /// The height of all.
    pub fn bottom(&self) -> f64 {
        let lower = self.middles.iter().zip(&self.heights);
        lower
            .map(|(middle, height)| middle + height / 2.0)
            .fold(0.0, f64::max)
    }

    /// The right end of a column.
    pub fn right(&self, column: usize) -> f64 {
        let (left, width) = self.columns[column];
        left + width
    }

    /// Moves the spots of all columns towards those they are joined with: to
    /// the left, to the right, in the end to both.
    fn balance(&mut self, chart: &Chart, round: usize) {
        let count = chart.columns.len();
        for step in 0..count {
            let to_right = round % 2 != 1;
            let column = if to_right { step } else { count - 1 - step };
            let last = round >= ROUNDS / 2;
            let spots = &chart.columns[column];
            let wishes: Vec<(f64, f64)> = spots
                .iter()
                .map(|&spot| self.wish(chart, spot, (last || to_right, last || !to_right)))
                .collect();
            self.settle(chart, spots, &wishes);
        }
    }

    /// Where a spot would stand by what it is joined with on the sides asked
    /// for, and how much that counts.
    fn wish(&self, chart: &Chart, spot: usize, (left, right): (bool, bool)) -> (f64, f64) {
        let mut links = chart.spots[spot].same.clone();
        if left {
            links.extend(&chart.spots[spot].left);
        }
        if right {
            links.extend(&chart.spots[spot].right);
        }
        let mut sum = 0.0;
        let mut weights = 0.0;
        for link in links {
            let weight = match (chart.is_lane(spot), chart.is_lane(link)) {
                (true, true) => 6.0,
                (true, false) | (false, true) => 2.0,
                (false, false) => 1.0,
            };
            sum += weight * self.middles[link];
            weights += weight;
        }
        if weights == 0.0 {
            return (self.middles[spot], 0.1);
        }
        (sum / weights, weights)
    }

    /// Places the spots of a column as near to their wishes as their order and
    /// the room between them allow.
    fn settle(&mut self, chart: &Chart, column: &[usize], wishes: &[(f64, f64)]) {
        let mut offsets = Vec::new();
        let mut offset = 0.0;
        for (place, &spot) in column.iter().enumerate() {
            if place > 0 {
                offset += self.distance(chart, column[place - 1], spot);
            }
            offsets.push(offset);
        }
        // Runs of spots that touch: the sum of wishes, the weight, how many.
        let mut runs: Vec<(f64, f64, usize)> = Vec::new();
        for (&(wish, weight), offset) in wishes.iter().zip(&offsets) {
            let mut run = ((wish - offset) * weight, weight, 1);
            while let Some(&above) = runs.last() {
                if above.0 / above.1 <= run.0 / run.1 {
                    break;
                }
                runs.pop();
                run = (above.0 + run.0, above.1 + run.1, above.2 + run.2);
            }
            runs.push(run);
        }
        let settled = runs
            .iter()
            .flat_map(|run| std::iter::repeat_n(run.0 / run.1, run.2));
        for ((&spot, offset), start) in column.iter().zip(offsets).zip(settled) {
            self.middles[spot] = start + offset;
        }
    }

    /// The least distance between the middles of two neighbours.
    fn distance(&self, chart: &Chart, upper: usize, lower: usize) -> f64 {
        let lanes = usize::from(chart.is_lane(upper)) + usize::from(chart.is_lane(lower));
        (self.heights[upper] + self.heights[lower]) / 2.0 + ROOM[lanes]
    }

    /// Sets the columns side by side, with more room where arrows are steep.
    fn set_columns(&mut self, chart: &Chart, sizes: &[Size]) {
        let mut left = 0.0;
        for column in &chart.columns {
            let nodes = column.iter().filter_map(|&spot| sizes.get(spot));
            let width = nodes.map(|size| size.width).fold(0.0, f64::max);
            self.columns.push((left, width));
            let steepest = column
                .iter()
                .flat_map(|&spot| {
                    chart.spots[spot]
                        .right
                        .iter()
                        .map(move |&link| (spot, link))
                })
                .map(|(spot, link)| (self.middles[spot] - self.middles[link]).abs())
                .fold(0.0, f64::max);
            left += width + (GAP.0 + steepest * 0.25).min(GAP.1);
        }
    }
}

/// The height of each spot: nodes with many arrows on a side are higher.
fn heights(chart: &Chart, sizes: &[Size]) -> Vec<f64> {
    let mut heights = vec![0.0; chart.spots.len()];
    for ((height, size), spot) in heights.iter_mut().zip(sizes).zip(&chart.spots) {
        let most = spot.left.len().max(spot.right.len() + spot.same.len());
        let side = most.saturating_sub(1) as f64 * PORT + 2.0 * CORNER;
        *height = size.height.max(side.min(HIGHEST));
    }
    heights
}
