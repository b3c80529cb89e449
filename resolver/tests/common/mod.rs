//! What several tests share.

use resolver::rules::Item;
use resolver::script;

/// Items of width 1 from their class letters.
pub fn items(letters: &str) -> Vec<Item> {
    letters.chars().map(item).collect()
}

fn item(letter: char) -> Item {
    Item { class: script::class(letter).expect("a class letter"), width: 1 }
}
