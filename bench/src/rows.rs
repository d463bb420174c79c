//! Rows that are slow to fit, and rows that are not.

/// A row's member lines, from the row's number and the member's place.
pub type Member = fn(usize, usize) -> String;

/// Rows that may be the slowest for the fit question; the table says which
/// are. No two rows fit each other both ways, or they would be equal. So the
/// most that a sheet can do is to let one direction hold up to the last member
/// of each pair, and both for as long as the members are the same.
pub const SLOW: [(&str, Member); 4] = [
    ("alike but for the last method", last_method),
    ("alike but for the last result", last_result),
    ("alike but for the first result", first_result),
    ("each result the row before", each_result),
];

/// 64 rows: row 0 is pure and empty, the others are pure with eight members.
pub fn rows(member: Member) -> String {
    let mut text = String::from("types=64\ntype=0,0\n");
    for row in 1..64 {
        text += "type=0,8\n";
        for place in 0..8 {
            text += &member(row, place);
        }
    }
    text
}

/// Rows with as little else as a sheet may have.
pub fn alone(member: Member) -> String {
    rows(member) + "forms=1\nform=0,0\nmain=1\nnew=0\n"
}

/// What is alike in all rows.
fn alike(place: usize) -> String {
    format!("def={place},0,0\n")
}

/// Arguments in no order, so that nothing foretells which pairs fit.
pub fn last_method(row: usize, place: usize) -> String {
    let mixed = ((row * 2_654_435_761) >> 13) % 4 % row;
    match place {
        7 => format!("def=7,{mixed},{}\n", row - 1),
        _ => alike(place),
    }
}

fn last_result(row: usize, place: usize) -> String {
    match place {
        7 => format!("def=7,0,{}\n", row - 1),
        _ => alike(place),
    }
}

fn first_result(row: usize, place: usize) -> String {
    match place {
        0 => format!("def=0,0,{}\n", row - 1),
        _ => alike(place),
    }
}

fn each_result(row: usize, place: usize) -> String {
    format!("def={place},0,{}\n", row - 1)
}

/// Names that no other row has all of, so that no row fits another.
pub fn own_names(row: usize, place: usize) -> String {
    let name = 2 * place + (row >> place) % 2;
    let result = if place == 7 { row - 1 } else { 0 };
    format!("def={name},0,{result}\n")
}
