//! Worked edits, turns, spans and refusals.

mod common;

use common::items;
use resolver::list;
use resolver::made::Generator;
use resolver::paragraph::{Change, Fault, Paragraph, Run, Span};
use resolver::rules::Direction::{self, FirstStrong, Left, Right};
use resolver::rules::{Class, Item};

fn paragraph(direction: Direction, letters: &str) -> Paragraph {
    let mut paragraph = Paragraph::open(256, direction);
    paragraph.edit(0, 0, &items(letters)).expect("a paragraph that fits");
    paragraph
}

fn span(start: usize, end: usize) -> Option<Span> {
    Some(Span { start, end })
}

#[test]
fn an_arabic_letter_changes_every_number_behind_it() {
    let mut paragraph = paragraph(Left, "EWEWE");
    let change = paragraph.edit(0, 0, &items("A"));
    assert_eq!(change, Ok(Change { count: 6, base: 0, span: span(0, 6) }));
    assert_eq!(paragraph.resolution().levels, [1, 2, 1, 2, 1, 2]);
}

#[test]
fn a_new_first_strong_item_changes_all_levels() {
    let mut paragraph = paragraph(FirstStrong, "RL");
    let change = paragraph.edit(0, 0, &items("L"));
    assert_eq!(change, Ok(Change { count: 3, base: 0, span: span(0, 3) }));
    assert_eq!(paragraph.resolution().levels, [0, 1, 0]);
}

#[test]
fn a_removal_that_changes_no_level_has_no_span() {
    let mut paragraph = paragraph(Left, "LL");
    assert_eq!(paragraph.edit(1, 1, &[]), Ok(Change { count: 1, base: 0, span: None }));
}

#[test]
fn items_given_again_are_new() {
    let mut paragraph = paragraph(Left, "LRL");
    let change = paragraph.edit(1, 1, &items("R"));
    assert_eq!(change, Ok(Change { count: 3, base: 0, span: span(1, 2) }));
    let change = paragraph.edit(1, 0, &[]);
    assert_eq!(change, Ok(Change { count: 3, base: 0, span: None }));
}

#[test]
fn a_change_of_base_level_reaches_past_the_next_strong_item() {
    let mut paragraph = paragraph(FirstStrong, "LRWRWL");
    let change = paragraph.edit(0, 1, &[]);
    assert_eq!(change, Ok(Change { count: 5, base: 1, span: span(3, 5) }));
    assert_eq!(paragraph.resolution().levels, [1, 1, 1, 1, 2]);
}

#[test]
fn a_turn_tells_what_changed_level() {
    let mut paragraph = paragraph(Left, "RWL");
    assert_eq!(paragraph.turn(Left), Change { count: 3, base: 0, span: None });
    assert_eq!(paragraph.turn(Right), Change { count: 3, base: 1, span: span(1, 3) });
    assert_eq!(paragraph.turn(FirstStrong), Change { count: 3, base: 1, span: None });
    assert_eq!(paragraph.direction(), FirstStrong);
    let mut empty = Paragraph::open(0, Left);
    assert_eq!(empty.turn(Right), Change { count: 0, base: 1, span: None });
}

#[test]
fn four_rows_hold_four_items() {
    let mut paragraph = Paragraph::open(4, Left);
    for place in 0..4 {
        assert!(paragraph.edit(place, 0, &items("L")).is_ok());
    }
    let full = Err(Fault::List(list::Fault::Full));
    assert_eq!(paragraph.edit(4, 0, &items("L")), full);
    assert_eq!(paragraph.edit(0, 4, &items("LLLLL")), full);
    assert!(paragraph.edit(0, 4, &items("RRRR")).is_ok());
}

#[test]
fn a_paragraph_never_holds_more_than_4096_items() {
    let mut paragraph = Paragraph::open(5000, Left);
    let many = vec![items("L")[0]; 4096];
    assert_eq!(paragraph.edit(0, 0, &many).map(|change| change.count), Ok(4096));
    assert_eq!(paragraph.edit(0, 0, &many[..1]), Err(Fault::List(list::Fault::Full)));
}

#[test]
fn refusals_come_in_their_order_and_change_nothing() {
    let mut paragraph = Paragraph::open(3, Left);
    paragraph.edit(0, 0, &items("LR")).expect("two items fit into three rows");
    let before = paragraph.clone();
    let mut new = items("LLLL");
    assert_eq!(paragraph.edit(2, 0, &new), Err(Fault::List(list::Fault::Full)));
    new[3].width = 3;
    new[2].width = 9;
    assert_eq!(paragraph.edit(2, 0, &new), Err(Fault::Width { position: 2 }));
    assert_eq!(paragraph.edit(1, 2, &new), Err(Fault::Removed));
    assert_eq!(paragraph.edit(3, 2, &new), Err(Fault::Place));
    assert_eq!(paragraph.edit(usize::MAX, usize::MAX, &new), Err(Fault::Place));
    assert_eq!(paragraph, before);
}

#[test]
fn faults_have_their_numbers() {
    let numbers: Vec<u32> = [
        Fault::Place,
        Fault::Removed,
        Fault::Width { position: 5 },
        Fault::Order,
        Fault::Scratch,
        Fault::List(list::Fault::Full),
    ]
    .map(Fault::number)
    .to_vec();
    assert_eq!(numbers, [11, 12, 13, 15, 16, 2]);
    assert_eq!(Fault::Width { position: 5 }.position(), Some(5));
    assert_eq!(Fault::Place.position(), None);
}

#[test]
fn levels_and_columns_are_asked_by_place() {
    let mut paragraph = Paragraph::open(8, Right);
    let wide = Item { class: Class::EN, width: 2 };
    paragraph.edit(0, 0, &[items("R")[0], wide, wide]).expect("three items fit");
    assert_eq!([0, 1, 2].map(|place| paragraph.level(place)), [Ok(1), Ok(2), Ok(2)]);
    let columns = [0, 1, 2].map(|place| paragraph.column(place));
    assert_eq!(columns, [Ok((4, 1)), Ok((0, 2)), Ok((2, 2))]);
    assert_eq!(paragraph.level(3), Err(Fault::Place));
    assert_eq!(paragraph.column(3), Err(Fault::Place));
}

#[test]
fn the_order_needs_room_and_leaves_the_rest_alone() {
    let paragraph = paragraph(FirstStrong, "RWEE");
    let (mut order, mut scratch) = ([9; 5], [9; 5]);
    assert_eq!(paragraph.order(&mut order[..3], &mut scratch[..3]), Err(Fault::Order));
    assert_eq!(paragraph.order(&mut order, &mut scratch[..3]), Err(Fault::Scratch));
    assert_eq!((order, scratch), ([9; 5], [9; 5]));
    assert_eq!(paragraph.order(&mut order, &mut scratch), Ok(()));
    assert_eq!((order, scratch), ([2, 3, 1, 0, 9], [1, 1, 2, 2, 9]));
}

#[test]
fn runs_are_told_whole_where_they_touch_a_span() {
    let paragraph = paragraph(Left, "LLRRRLL");
    let runs =
        [(0, 2, 0), (2, 5, 1), (5, 7, 0)].map(|(start, end, level)| Run { start, end, level });
    assert_eq!(paragraph.runs(), runs);
    assert_eq!(paragraph.runs_in(Span { start: 3, end: 4 }), runs[1..2]);
    assert_eq!(paragraph.runs_in(Span { start: 4, end: 6 }), runs[1..]);
    assert_eq!(paragraph.runs_in(Span { start: 1, end: 2 }), runs[..1]);
}

/// A span is right if nothing outside it is new or changed, and its first and last item are.
#[test]
fn made_edits_have_the_smallest_span_that_covers_what_changed() {
    let mut made = Generator::new(11);
    let mut paragraph = Paragraph::open(64, FirstStrong);
    for _ in 0..3000 {
        let before = paragraph.resolution().levels;
        let place = made.up_to(before.len());
        let removed = made.up_to((before.len() - place).min(5));
        let room = 64 - (before.len() - removed);
        let new = made.up_to(room.min(4));
        let new = made.items(new);
        let change = paragraph.edit(place, removed, &new).expect("an edit that fits");
        let after = paragraph.resolution().levels;
        let is_news = |now: usize| match now {
            _ if now < place => before[now] != after[now],
            _ if now < place + new.len() => true,
            _ => before[now - new.len() + removed] != after[now],
        };
        let news: Vec<usize> = (0..after.len()).filter(|&now| is_news(now)).collect();
        assert_eq!(change.span.map(|span| span.start), news.first().copied());
        assert_eq!(change.span.map(|span| span.end - 1), news.last().copied());
        assert_eq!((change.count, change.base), (after.len(), paragraph.resolution().base));
    }
}
