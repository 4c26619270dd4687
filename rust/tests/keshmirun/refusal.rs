//! Each refusal of the paper in words.

use keshmirun::{EdgeId, EndId, NodeId, Place, Refusal};
use std::collections::BTreeSet;

#[test]
fn eighteen_meanings() {
    let meanings: BTreeSet<&str> = (0..=18).map(|number| Refusal { number, place: 0 }.meaning()).collect();
    assert_eq!(meanings.len(), 19, "{meanings:?}");
    let none = Refusal { number: 0, place: 0 }.meaning();
    assert!((19..=255).all(|number| Refusal { number, place: 0 }.meaning() == none));
}

/// The paper's eighteen, and one for all other numbers, of which the crate's own for what is no sheet is one.
#[test]
fn nineteen_meanings() {
    let meaning = |number: u8| Refusal { number, place: 0 }.meaning();
    let meanings: BTreeSet<&str> = (0..=18).chain([Refusal::NOT_A_SHEET.number]).map(meaning).collect();
    assert_eq!(meanings.len(), 19, "{meanings:?}");
    assert_eq!(Refusal::NOT_A_SHEET.number, 255);
    assert!((19..=255).all(|number| meaning(number) == meaning(0)));
}

/// By each number's row in the paper; the crate's own has no place.
#[test]
fn places_of_every_number() {
    for number in 0..=255 {
        let at = |place: u8| Refusal { number, place }.at();
        for place in [0, 1, 119, 199, 255] {
            let expected = match number {
                2 | 4 | 11 | 12 | 13 => Place::Node(NodeId::new(place)),
                3 => Place::Edge(EdgeId::new(place)),
                10 => Place::End(EndId::new(place)),
                _ => Place::None,
            };
            assert_eq!(at(place), expected, "{number}");
        }
    }
    let shown = [4, 3, 10, 17].map(|number| Refusal { number, place: 7 }.at().to_string());
    assert_eq!(shown, ["node 7", "edge 7", "end 7", "no place"]);
}

#[test]
fn number_place_and_meaning_are_shown() {
    let table = [0, 15, 1, 2, 1, 1, 255, 0, 0, 2, 255, 0, 0, 0, 0, 7, 0];
    let refusal = keshmirun::check(&table).unwrap_err();
    assert_eq!(refusal.to_string(), "refused 3 0: an edge's fields or ends, at the lowest such edge");
    let error: Box<dyn std::error::Error> = Box::new(refusal);
    assert_eq!(error.to_string(), refusal.to_string());
}
