//! The plain list and the page: what they answer and what they refuse.

mod common;

use common::items;
use resolver::list::{Columns, Entry, Fault, List, Page, PageFault, Sums};
use resolver::rules::Item;

fn list(widths: &[u8]) -> List<Columns> {
    let mut list = List::open(8);
    for (place, &width) in widths.iter().enumerate() {
        list.insert(place, item(width)).expect("a list that fits");
    }
    list
}

fn item(width: u8) -> Item {
    Item { width, ..items("L")[0] }
}

#[test]
fn elements_go_in_before_a_place_and_come_out_of_it() {
    let mut list = list(&[1, 2]);
    assert_eq!(list.insert(1, item(0)), Ok(()));
    assert_eq!(list.elements(), [item(1), item(0), item(2)]);
    assert_eq!(list.remove(0), Ok(item(1)));
    assert_eq!(list.elements(), [item(0), item(2)]);
    assert_eq!(list.read(1), Ok(&item(2)));
    assert_eq!(list.read(2), Err(Fault::Place));
    assert_eq!(list.remove(2), Err(Fault::Place));
}

#[test]
fn a_bad_place_is_refused_before_a_full_list() {
    let mut list: List<Columns> = List::open(1);
    assert_eq!(list.insert(1, item(1)), Err(Fault::Place));
    assert_eq!(list.insert(0, item(1)), Ok(()));
    assert_eq!(list.insert(2, item(1)), Err(Fault::Place));
    assert_eq!(list.insert(1, item(1)), Err(Fault::Full));
    assert_eq!(list.remove(0), Ok(item(1)));
    assert_eq!(list.insert(0, item(2)), Ok(()));
}

#[test]
fn a_list_never_holds_more_than_4096_elements() {
    let mut list: List<Columns> = List::open(10_000);
    assert!((0..4096).all(|place| list.insert(place, item(1)).is_ok()));
    assert_eq!(list.insert(0, item(1)), Err(Fault::Full));
}

#[test]
fn totals_join_a_stretch() {
    let list = list(&[1, 0, 2, 2]);
    assert_eq!(list.total(0, 4), Ok(5));
    assert_eq!(list.total(1, 3), Ok(2));
    assert_eq!(list.total(4, 4), Ok(0));
    assert_eq!(list.total(3, 2), Err(Fault::Stretch));
    assert_eq!(list.total(0, 5), Err(Fault::Stretch));
}

#[test]
fn a_weight_is_sought_past_weightless_elements() {
    let list = list(&[0, 1, 0, 2]);
    assert_eq!([0, 1, 2].map(|weight| list.seek(weight)), [Ok(1), Ok(3), Ok(3)]);
    assert_eq!(list.seek(3), Err(Fault::Weight));
    assert_eq!(List::<Columns>::open(4).seek(0), Err(Fault::Weight));
}

#[test]
fn faults_have_their_numbers() {
    let faults = [Fault::Place, Fault::Full, Fault::Stretch, Fault::Weight];
    assert_eq!(faults.map(Fault::number), [1, 2, 3, 4]);
    assert_eq!(faults.map(|fault| PageFault::from(fault).number()), [1, 2, 3, 4]);
    assert_eq!(PageFault::Lines.number(), 31);
}

#[test]
fn a_page_finds_the_entry_on_a_screen_line() {
    let entry = |key, lines| Entry { key, lines, hits: 65_535 };
    let mut page = Page::open(3);
    assert_eq!(page.put(9, entry(1, 0)), Err(PageFault::Lines));
    assert_eq!(page.put(0, entry(1, 65_536)), Err(PageFault::Lines));
    assert_eq!(page.put(1, entry(1, 3)), Err(PageFault::List(Fault::Place)));
    assert_eq!(page.put(0, entry(1, 3)), Ok(()));
    assert_eq!(page.put(1, entry(2, 65_535)), Ok(()));
    assert_eq!(page.put(0, entry(3, 1)), Ok(()));
    assert_eq!(page.put(0, entry(4, 1)), Err(PageFault::List(Fault::Full)));
    let keys = [0, 1, 3, 4, 65_538].map(|line| page.find(line).map(|entry| entry.key));
    assert_eq!(keys, [Ok(3), Ok(1), Ok(1), Ok(2), Ok(2)]);
    assert_eq!(page.find(65_539), Err(PageFault::List(Fault::Weight)));
    assert_eq!(page.list().total(0, 3), Ok(Sums { lines: 65_539, hits: 196_605 }));
    assert_eq!(page.take(1).map(|entry| entry.key), Ok(1));
    assert_eq!(page.take(2), Err(PageFault::List(Fault::Place)));
    assert_eq!(page.find(1).map(|entry| entry.key), Ok(2));
}
