//! The column of each node: holders to the left of what they hold.

use super::part::Part;

/// More layers than this are folded, several into a column.
const MOST_LAYERS: usize = 14;
/// A column of up to this many nodes is never split.
const LEAST_ROWS: usize = 10;

/// The nodes of each column of a part; no column is empty.
pub fn columns(part: &Part) -> Vec<Vec<usize>> {
    let links = Links::of(part);
    let order = sequence(part, &links);
    let forward = Links::forward(part, &order);
    let layers = compact(&layers(part, &forward, &order));
    let count = layers.iter().max().map_or(0, |last| last + 1);
    let together = count.div_ceil(MOST_LAYERS).max(1);
    let mut columns = vec![Vec::new(); count.div_ceil(together)];
    let mut nodes: Vec<usize> = (0..layers.len()).collect();
    nodes.sort_by_key(|&node| layers[node]);
    for node in nodes {
        columns[layers[node] / together].push(node);
    }
    let mut columns = split(columns, &forward);
    if together > 1 {
        // A long chain goes down one column and up the next.
        for column in columns.iter_mut().skip(1).step_by(2) {
            column.reverse();
        }
    }
    columns
}

/// What each node is linked with.
struct Links {
    /// The nodes that arrows come from.
    before: Vec<Vec<usize>>,
    /// The nodes that arrows go to.
    after: Vec<Vec<usize>>,
}

impl Links {
    /// The links of a part, as its arrows go.
    fn of(part: &Part) -> Links {
        Links::new(part.nodes.len(), part.arrows.iter().copied())
    }

    /// The links of a part, those against the order turned around.
    fn forward(part: &Part, order: &[usize]) -> Links {
        let mut places = vec![0; order.len()];
        for (place, &node) in order.iter().enumerate() {
            places[node] = place;
        }
        let turned = part.arrows.iter().map(|&(from, to)| {
            if places[from] < places[to] {
                (from, to)
            } else {
                (to, from)
            }
        });
        Links::new(order.len(), turned)
    }

    /// The links of that many nodes.
    fn new(nodes: usize, arrows: impl Iterator<Item = (usize, usize)>) -> Links {
        let mut links = Links {
            before: vec![Vec::new(); nodes],
            after: vec![Vec::new(); nodes],
        };
        for (from, to) in arrows {
            links.after[from].push(to);
            links.before[to].push(from);
        }
        links
    }
}

/// The nodes in an order that few arrows go against, main and groups first.
fn sequence(part: &Part, links: &Links) -> Vec<usize> {
    let mut rest: Vec<usize> = (0..part.nodes.len()).collect();
    let mut before: Vec<usize> = links.before.iter().map(Vec::len).collect();
    let mut after: Vec<usize> = links.after.iter().map(Vec::len).collect();
    let mut head = Vec::new();
    let mut tail = Vec::new();
    while !rest.is_empty() {
        let sink = rest
            .iter()
            .position(|&node| after[node] == 0 && !part.first[node]);
        let place = sink.unwrap_or_else(|| {
            let score = |node: usize| {
                let gone = links.before[node].len() - before[node];
                let more = after[node] as i64 - before[node] as i64;
                (part.first[node], before[node] == 0, more, gone)
            };
            best(&rest, score)
        });
        let node = rest.remove(place);
        for &next in &links.after[node] {
            before[next] -= 1;
        }
        for &previous in &links.before[node] {
            after[previous] -= 1;
        }
        if sink.is_some() {
            tail.push(node);
        } else {
            head.push(node);
        }
    }
    head.extend(tail.into_iter().rev());
    head
}

/// The place of the first node with the highest score.
fn best<Score: Ord>(nodes: &[usize], score: impl Fn(usize) -> Score) -> usize {
    let mut best = 0;
    for place in 1..nodes.len() {
        if score(nodes[place]) > score(nodes[best]) {
            best = place;
        }
    }
    best
}

/// The layer of each node: beyond all its holders, but near what it holds if
/// that makes arrows shorter.
fn layers(part: &Part, forward: &Links, order: &[usize]) -> Vec<usize> {
    let mut layers = vec![0; order.len()];
    for &node in order {
        let least = usize::from(!part.first[node]);
        let holders = forward.before[node].iter();
        let beyond = holders.map(|&holder| layers[holder] + 1).max();
        layers[node] = least.max(beyond.unwrap_or(0));
    }
    for &node in order.iter().rev() {
        let held = forward.after[node].iter();
        if let Some(nearest) = held.map(|&held| layers[held]).min() {
            let shorter = forward.after[node].len() > forward.before[node].len();
            if shorter && !part.first[node] {
                layers[node] = layers[node].max(nearest.saturating_sub(1));
            }
        }
    }
    layers
}

/// The same layers, numbered from zero without a gap.
fn compact(layers: &[usize]) -> Vec<usize> {
    let mut used = layers.to_vec();
    used.sort_unstable();
    used.dedup();
    layers
        .iter()
        .map(|layer| used.partition_point(|other| other < layer))
        .collect()
}

/// Splits the columns that are too tall into several; nodes that hold others
/// go to the right ones.
fn split(columns: Vec<Vec<usize>>, forward: &Links) -> Vec<Vec<usize>> {
    let nodes: usize = columns.iter().map(Vec::len).sum();
    let rows = ((nodes as f64).sqrt() * 1.6).ceil() as usize;
    let rows = rows.max(LEAST_ROWS);
    let mut split = Vec::new();
    for column in columns {
        if column.len() <= rows {
            split.push(column);
            continue;
        }
        let (held, holders): (Vec<usize>, Vec<usize>) = column
            .into_iter()
            .partition(|&node| forward.after[node].is_empty());
        for nodes in [held, holders] {
            let pieces = nodes.len().div_ceil(rows);
            for piece in 0..pieces {
                let own = nodes.iter().copied().skip(piece);
                split.push(own.step_by(pieces).collect());
            }
        }
    }
    split
}
