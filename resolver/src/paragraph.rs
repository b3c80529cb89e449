//! A whole paragraph: its items, what edits and turns change, and what the screen must redraw.

use crate::list::{self, capacity_of};
use crate::rules::{self, Direction, Item, Level, Resolution};

/// The widest that an item may be.
pub const WIDEST: u8 = 2;

/// Why a paragraph refuses a call.
#[derive(Clone, Copy, Debug, PartialEq, Eq)]
pub enum Fault {
    /// The place does not exist.
    Place,
    /// More is to be removed than follows the place.
    Removed,
    /// A new item is too wide.
    Width {
        /// Which of the new items, the first such one.
        position: usize,
    },
    /// The list for the visual order is too short.
    Order,
    /// The scratch buffer for the levels is too short.
    Scratch,
    /// The list of items refuses.
    List(list::Fault),
}

impl Fault {
    /// The number that tells the fault.
    pub fn number(self) -> u32 {
        match self {
            Fault::Place => 11,
            Fault::Removed => 12,
            Fault::Width { .. } => 13,
            Fault::Order => 15,
            Fault::Scratch => 16,
            Fault::List(fault) => fault.number(),
        }
    }

    /// The position of the item at fault, if it is an item's.
    pub fn position(self) -> Option<usize> {
        match self {
            Fault::Width { position } => Some(position),
            _ => None,
        }
    }
}

impl From<list::Fault> for Fault {
    fn from(fault: list::Fault) -> Self {
        Fault::List(fault)
    }
}

/// A stretch of places, from `start` up to the place before `end`.
#[derive(Clone, Copy, Debug, PartialEq, Eq)]
pub struct Span {
    /// The first place.
    pub start: usize,
    /// The place after the last.
    pub end: usize,
}

/// What an edit or a turn answers.
#[derive(Clone, Copy, Debug, PartialEq, Eq)]
pub struct Change {
    /// The number of items now.
    pub count: usize,
    /// The base level now.
    pub base: Level,
    /// From the first to the last item that is new or has another level than before.
    pub span: Option<Span>,
}

/// A longest stretch of one level.
#[derive(Clone, Copy, Debug, PartialEq, Eq)]
pub struct Run {
    /// The first place.
    pub start: usize,
    /// The place after the last.
    pub end: usize,
    /// The level of all places between.
    pub level: Level,
}

/// A paragraph in no more rows than it was opened with.
#[derive(Clone, Debug, PartialEq, Eq)]
pub struct Paragraph {
    capacity: usize,
    direction: Direction,
    items: Vec<Item>,
}

impl Paragraph {
    /// A paragraph without items over a table of so many rows.
    pub fn open(rows: usize, direction: Direction) -> Self {
        Paragraph { capacity: capacity_of(rows), direction, items: Vec::new() }
    }

    /// The items, in paragraph order.
    pub fn items(&self) -> &[Item] {
        &self.items
    }

    /// The direction set last.
    pub fn direction(&self) -> Direction {
        self.direction
    }

    /// What the rules say of the paragraph as it stands.
    pub fn resolution(&self) -> Resolution {
        rules::resolve(self.direction, &rules::classes(&self.items))
    }

    /// Replaces the `removed` items from a place on by new ones.
    pub fn edit(&mut self, place: usize, removed: usize, new: &[Item]) -> Result<Change, Fault> {
        let count = self.items.len();
        if place > count {
            return Err(Fault::Place);
        }
        if removed > count - place {
            return Err(Fault::Removed);
        }
        if let Some(position) = new.iter().position(|item| item.width > WIDEST) {
            return Err(Fault::Width { position });
        }
        if count - removed + new.len() > self.capacity {
            return Err(list::Fault::Full.into());
        }
        let stretch = place..place + removed;
        let mut former = self.former_levels();
        former.splice(stretch.clone(), new.iter().map(|_| None));
        self.items.splice(stretch, new.iter().copied());
        Ok(self.change_since(&former))
    }

    /// Sets the direction.
    pub fn turn(&mut self, direction: Direction) -> Change {
        let former = self.former_levels();
        self.direction = direction;
        self.change_since(&former)
    }

    /// The level of the item at a place.
    pub fn level(&self, place: usize) -> Result<Level, Fault> {
        self.resolution().levels.get(place).copied().ok_or(Fault::Place)
    }

    /// The column and the width of the item at a place.
    pub fn column(&self, place: usize) -> Result<(u32, u8), Fault> {
        let item = self.items.get(place).ok_or(Fault::Place)?;
        let columns = rules::columns(&self.items, &self.resolution().levels);
        Ok((columns[place], item.width))
    }

    /// Writes all places in visual order into `order`, and the levels into `scratch`.
    pub fn order(&self, order: &mut [usize], scratch: &mut [Level]) -> Result<(), Fault> {
        let count = self.items.len();
        let order = order.get_mut(..count).ok_or(Fault::Order)?;
        let scratch = scratch.get_mut(..count).ok_or(Fault::Scratch)?;
        let levels = self.resolution().levels;
        order.copy_from_slice(&rules::l2(&levels));
        scratch.copy_from_slice(&levels);
        Ok(())
    }

    /// The runs, in paragraph order.
    pub fn runs(&self) -> Vec<Run> {
        let mut runs = Vec::new();
        let mut start = 0;
        for run in self.resolution().levels.chunk_by(|one, next| one == next) {
            let end = start + run.len();
            runs.push(Run { start, end, level: run[0] });
            start = end;
        }
        runs
    }

    /// The runs that share a place with a span, in paragraph order.
    pub fn runs_in(&self, span: Span) -> Vec<Run> {
        let mut runs = self.runs();
        runs.retain(|run| run.start < span.end && span.start < run.end);
        runs
    }

    /// The level of each item as something to compare later ones with.
    fn former_levels(&self) -> Vec<Option<Level>> {
        self.resolution().levels.into_iter().map(Some).collect()
    }

    /// What to answer when these were the levels before, none for a new item.
    fn change_since(&self, former: &[Option<Level>]) -> Change {
        let Resolution { base, levels } = self.resolution();
        let count = levels.len();
        let differs = |place: &usize| former[*place] != Some(levels[*place]);
        let first = (0..count).find(differs);
        let last = (0..count).rfind(differs);
        let span = first.zip(last).map(|(first, last)| Span { start: first, end: last + 1 });
        Change { count, base, span }
    }
}
