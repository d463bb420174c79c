//! Times of the proved library beside other programs, in one run: tables with
//! the best of several rounds, and instructions counted by callgrind.

mod agree;
mod answer;
mod bounds;
mod calls;
mod counts;
mod fits;
mod forms;
mod holders;
mod lua;
mod pairs;
mod peers;
mod plain;
mod plain_sheet;
mod programs;
mod rows;
mod run_sheets;
mod runs;
mod sheets;
mod table;
#[cfg(test)]
mod tests;
mod threaded;
mod timing;
mod tools;
mod wasm;

fn main() {
    if counts::is_counted() {
        return;
    }
    calls::table();
    forms::table();
    bounds::table();
    fits::table();
    holders::table();
    agree::check();
    runs::table();
    peers::table();
}
