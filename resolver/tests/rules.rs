//! Worked paragraphs, and orders and columns reckoned by hand.

mod common;

use common::items;
use resolver::made::Generator;
use resolver::rules::Direction::{FirstStrong, Left, Right};
use resolver::rules::{self, Class, Direction, Item, Resolution};

fn resolve(direction: Direction, letters: &str) -> Resolution {
    rules::resolve(direction, &rules::classes(&items(letters)))
}

fn levels(direction: Direction, letters: &str) -> Vec<u8> {
    resolve(direction, letters).levels
}

#[test]
fn a_paragraph_without_items_is_written_to_the_right() {
    assert_eq!(resolve(FirstStrong, ""), Resolution { base: 0, levels: vec![] });
}

#[test]
fn the_first_strong_item_sets_the_base_level() {
    assert_eq!(resolve(FirstStrong, "RWL"), Resolution { base: 1, levels: vec![1, 1, 2] });
    assert_eq!(resolve(Left, "RWL"), Resolution { base: 0, levels: vec![1, 0, 0] });
    assert_eq!(resolve(FirstStrong, "EWNOA").base, 1);
    assert_eq!(resolve(FirstStrong, "EWNOLA").base, 0);
    assert_eq!(resolve(FirstStrong, "EWNO").base, 0);
    assert_eq!(resolve(Right, "L").base, 1);
}

#[test]
fn worked_paragraphs() {
    assert_eq!(levels(Left, "LWE"), [0, 0, 0]);
    assert_eq!(levels(Left, "AECE"), [1, 2, 2, 2]);
    assert_eq!(levels(Left, "RECCE"), [1, 2, 1, 1, 2]);
    assert_eq!(levels(Left, "AESE"), [1, 2, 1, 2]);
    assert_eq!(levels(Left, "RTTE"), [1, 2, 2, 2]);
    assert_eq!(levels(Left, "ATE"), [1, 1, 2]);
    assert_eq!(levels(Left, "RECME"), [1, 2, 1, 1, 2]);
    assert_eq!(levels(Left, "MR"), [0, 1]);
    assert_eq!(levels(Left, "LNE"), [0, 2, 0]);
}

#[test]
fn every_unbroken_sequence_is_reversed_from_the_highest_level_down() {
    assert_eq!(rules::l2(&[]), [0usize; 0]);
    assert_eq!(rules::l2(&[0, 1, 2, 3, 2, 1, 0]), [0, 5, 2, 3, 4, 1, 6]);
    assert_eq!(rules::l2(&[1, 1, 2, 2]), [2, 3, 1, 0]);
    assert_eq!(rules::l2(&[2, 2, 0, 2, 1]), [0, 1, 2, 4, 3]);
    assert_eq!(rules::l2(&[4, 5, 5, 2]), [0, 2, 1, 3]);
}

#[test]
fn a_column_counts_the_widths_visually_before() {
    let widths = [1, 0, 2, 1];
    let items: Vec<Item> = widths.map(|width| Item { class: Class::R, width }).to_vec();
    assert_eq!(rules::columns(&items, &[0, 0, 0, 0]), [0, 1, 1, 3]);
    assert_eq!(rules::columns(&items, &[1, 1, 1, 1]), [3, 3, 1, 0]);
    assert_eq!(rules::columns(&items, &[1, 1, 2, 2]), [3, 3, 0, 2]);
}

#[test]
fn made_paragraphs_lie_on_the_screen_without_gap_or_overlap() {
    let mut made = Generator::new(7);
    for _ in 0..2000 {
        let count = made.up_to(60);
        let items = made.items(count);
        let levels = rules::resolve(made.direction(), &rules::classes(&items)).levels;
        let order = rules::l2(&levels);
        let mut places = order.clone();
        places.sort_unstable();
        assert!(places.into_iter().eq(0..count), "every place stands once in the order");
        let columns = rules::columns(&items, &levels);
        let mut next = 0;
        for place in order {
            assert_eq!(columns[place], next);
            next += u32::from(items[place].width);
        }
    }
}
