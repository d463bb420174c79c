//! Towers: layers of objects that call the layer below several times, for
//! long runs, full stores and pure receivers that make objects.

use crate::devices::with_some;
use crate::draft::{line, Draft};
use crate::rng::Rng;

/// A sheet whose main builds a tower and calls its top. The lower layers
/// are pure, the upper ones resources that keep a resource or a pure layer.
pub fn tower(rng: &mut Rng) -> Draft {
    let depth = rng.between(1, 27);
    let width = rng.between(1, 4);
    let pure = rng.between(0, depth);
    let making = rng.chance(50);
    let mut draft = vec![
        line("types", &[4]),
        line("type", &[0, 0]),
        line("type", &[1, 0]),
        line("type", &[1, 1]),
        line("def", &[7, 0, 0]),
        line("type", &[0, 1]),
        line("def", &[7, 0, 0]),
        line("forms", &[depth as u32 + 2]),
        line("form", &[0, 0]),
        line("form", &[1, 0]),
    ];
    for layer in 0..depth {
        let row = if layer < pure { 3 } else { 2 };
        draft.extend(layer_lines(rng, layer, row, width, making));
    }
    draft.push(line("main", &[depth as u32 + 3]));
    draft.extend([line("new", &[0]), line("new", &[1]), line("new", &[2])]);
    for layer in 1..depth as u32 {
        draft.push(line("new", &[layer + 2, layer + 1]));
    }
    draft.push(line("call", &[depth as u32 + 1, 7, 0]));
    with_some(rng, draft)
}

/// The form of one layer. Layer 0 keeps nothing and calls nothing.
fn layer_lines(rng: &mut Rng, layer: usize, row: u32, width: usize, making: bool) -> Draft {
    let mut code = Vec::new();
    if making && rng.chance(70) {
        code.push(line("new", &[1]));
    }
    let mut head = vec![line("form", &[row, u32::from(layer > 0)])];
    if layer > 0 {
        // A pure layer stands on pure ones, so their row is known.
        let keep = if row == 3 { 3 } else { 2 };
        head.push(line("keep", &[keep]));
        for _ in 0..width {
            code.push(line("call", &[2, 7, 1]));
        }
    } else {
        code.push(line("copy", &[1]));
    }
    head.push(line("body", &[code.len() as u32]));
    head.extend(code);
    head
}
