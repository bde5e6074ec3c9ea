//! The example tells the same story every time.

#[path = "../examples/rent.rs"]
mod rent;

#[test]
fn the_story_is_as_expected() {
    assert_eq!(rent::story(), include_str!("../examples/rent.txt"));
}
