//! Made-up paragraphs and scripts, the same for the same seed.

use crate::paragraph::WIDEST;
use crate::rules::{Class, Direction, Item};
use crate::script::{self, Answer, Replay, class_letter, direction_letter};

/// A small generator of numbers (SplitMix64).
#[derive(Clone, Debug)]
pub struct Generator {
    state: u64,
}

impl Generator {
    /// A generator whose numbers the seed decides.
    pub fn new(seed: u64) -> Self {
        Generator { state: seed }
    }

    /// The next number.
    pub fn number(&mut self) -> u64 {
        self.state = self.state.wrapping_add(0x9e37_79b9_7f4a_7c15);
        let mixed = (self.state ^ (self.state >> 30)).wrapping_mul(0xbf58_476d_1ce4_e5b9);
        let mixed = (mixed ^ (mixed >> 27)).wrapping_mul(0x94d0_49bb_1331_11eb);
        mixed ^ (mixed >> 31)
    }

    /// A number from 0 to `most`, both included.
    pub fn up_to(&mut self, most: usize) -> usize {
        (self.number() % (most as u64 + 1)) as usize
    }

    /// True once in so many times.
    pub fn once_in(&mut self, times: usize) -> bool {
        self.up_to(times - 1) == 0
    }

    /// One of some things.
    pub fn one_of<T: Copy>(&mut self, all: &[T]) -> T {
        all[self.up_to(all.len() - 1)]
    }

    /// A direction.
    pub fn direction(&mut self) -> Direction {
        self.one_of(&[Direction::Left, Direction::Right, Direction::FirstStrong])
    }

    /// So many items, of a few classes only or of many.
    pub fn items(&mut self, count: usize) -> Vec<Item> {
        let kinds = 1 + self.up_to(Class::ALL.len() - 1);
        let mix: Vec<Class> = (0..kinds).map(|_| self.one_of(&Class::ALL)).collect();
        let width = |made: &mut Self| made.up_to(usize::from(WIDEST)) as u8;
        (0..count).map(|_| Item { class: self.one_of(&mix), width: width(self) }).collect()
    }

    /// A paragraph as a line for [`crate::levels`]: half of them short, some long.
    pub fn paragraph(&mut self) -> String {
        let longest = self.one_of(&[6, 6, 24, 160]);
        let count = self.up_to(longest);
        format!("{}\t{}\n", direction_letter(self.direction()), item_field(&self.items(count)))
    }

    /// A script of so many lines, most of them in order and some not.
    pub fn script(&mut self, lines: usize) -> Vec<u8> {
        let mut replay = Replay::new(script::ROWS, script::ITEMS);
        let mut count = 0;
        let mut text = Vec::new();
        for line in 1..=lines {
            let mut bytes = match line {
                1 => format!("P\t{}", direction_letter(self.direction())),
                _ if line == lines => "Z".to_owned(),
                _ => self.command(count),
            }
            .into_bytes();
            if self.once_in(12) {
                self.spoil(&mut bytes);
            }
            for (_, line) in script::lines(&bytes) {
                if let Ok(Answer::Edited { change, .. }) = replay.step(line) {
                    count = change.count;
                }
            }
            text.extend(bytes);
            text.push(b'\n');
        }
        text
    }

    /// A command for a paragraph of so many items.
    fn command(&mut self, count: usize) -> String {
        match self.up_to(9) {
            0 => format!("D\t{}", direction_letter(self.direction())),
            1 | 2 => format!("Q\t{}", self.place(count)),
            _ => self.edit(count),
        }
    }

    /// An edit of a paragraph of so many items, now and then too large in one way or another.
    fn edit(&mut self, count: usize) -> String {
        let place = self.place(count);
        let follow = count.saturating_sub(place);
        let most_removed = if self.once_in(8) { follow + 1 } else { follow.min(4) };
        let removed = self.up_to(most_removed);
        let most_new = self.one_of(&[0, 2, 2, 4, 4, 8, 8, 40, 300]);
        let new = self.up_to(most_new);
        let mut items = self.items(new);
        if !items.is_empty() && self.once_in(16) {
            let wide = self.up_to(items.len() - 1);
            items[wide].width = self.up_to(9) as u8;
        }
        format!("E\t{place}\t{removed}\t{}", item_field(&items))
    }

    /// A place in or right behind so many items, seldom past that.
    fn place(&mut self, count: usize) -> usize {
        if self.once_in(16) { count + self.up_to(2) } else { self.up_to(count) }
    }

    /// Changes, drops or adds one byte of a line.
    fn spoil(&mut self, line: &mut Vec<u8>) {
        let byte = self.one_of(b"PEDQZLRFA0199\t\t\n\r -\xff");
        let place = self.up_to(line.len() - 1);
        match self.up_to(2) {
            0 => line[place] = byte,
            1 => drop(line.remove(place)),
            _ => line.insert(place, byte),
        }
    }
}

/// Items as scripts write them.
pub fn item_field(items: &[Item]) -> String {
    items.iter().map(|item| format!("{}{}", class_letter(item.class), item.width)).collect()
}
