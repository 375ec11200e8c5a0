//! The example writes what the README shows.

mod common;

#[allow(dead_code)]
#[path = "../examples/create_table.rs"]
mod create_table;

use kinyandoma::{render_to_string, Kind, Node};

/// The text in the README: the line that begins so, and the next.
const BEGINS: &str = "    CREATE TABLE IF NOT EXISTS readings (";

#[test]
fn the_table_is_that_of_the_readme() {
    let readme = common::lines("README.md").into_iter();
    let shown = readme.skip_while(|line| !line.starts_with(BEGINS)).take(2);
    let shown: Vec<String> = shown.map(|line| line[4..].to_string()).collect();
    let table = Node::new(Kind::Cmd).child(create_table::readings());
    let (tree, text) = table.finish().unwrap();
    let written = render_to_string(&tree, &text).unwrap();
    assert_eq!(written, shown.join("\n"));
}
