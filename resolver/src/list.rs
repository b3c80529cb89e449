//! A plain list with a capacity and the totals of a measure, and the page of entries over it.

use crate::rules::Item;

/// The most elements that any table of rows holds.
pub const MOST_ROWS: usize = 4096;

/// Why a list refuses a call.
#[derive(Clone, Copy, Debug, PartialEq, Eq)]
pub enum Fault {
    /// The place does not exist.
    Place,
    /// All rows are in use.
    Full,
    /// The stretch is turned round or reaches past the end.
    Stretch,
    /// The weight is not below that of the whole list.
    Weight,
}

impl Fault {
    /// The number that tells the fault.
    pub fn number(self) -> u32 {
        match self {
            Fault::Place => 1,
            Fault::Full => 2,
            Fault::Stretch => 3,
            Fault::Weight => 4,
        }
    }
}

/// A measure of elements: totals that join, and a weight for each total.
pub trait Measure {
    /// What is measured.
    type Element;
    /// What a stretch of elements measures.
    type Total;
    /// The total of no elements.
    fn unit() -> Self::Total;
    /// The total of one element.
    fn one(element: &Self::Element) -> Self::Total;
    /// The total of two stretches, the first before the second.
    fn join(first: Self::Total, second: Self::Total) -> Self::Total;
    /// The weight of a total.
    fn weight(total: &Self::Total) -> u32;
}

/// The total of some elements, joined from the first to the last.
pub fn total_of<M: Measure>(elements: &[M::Element]) -> M::Total {
    elements.iter().map(M::one).fold(M::unit(), M::join)
}

/// The number of elements that a table of so many rows holds.
pub fn capacity_of(rows: usize) -> usize {
    rows.min(MOST_ROWS)
}

/// A list under a measure, in no more rows than it was opened with.
#[derive(Clone, Debug)]
pub struct List<M: Measure> {
    capacity: usize,
    elements: Vec<M::Element>,
}

impl<M: Measure> List<M> {
    /// An empty list over a table of so many rows.
    pub fn open(rows: usize) -> Self {
        List { capacity: capacity_of(rows), elements: Vec::new() }
    }

    /// The elements, in order.
    pub fn elements(&self) -> &[M::Element] {
        &self.elements
    }

    /// Puts an element before a place.
    pub fn insert(&mut self, place: usize, element: M::Element) -> Result<(), Fault> {
        if place > self.elements.len() {
            return Err(Fault::Place);
        }
        if self.elements.len() == self.capacity {
            return Err(Fault::Full);
        }
        self.elements.insert(place, element);
        Ok(())
    }

    /// Takes out the element at a place.
    pub fn remove(&mut self, place: usize) -> Result<M::Element, Fault> {
        if place >= self.elements.len() {
            return Err(Fault::Place);
        }
        Ok(self.elements.remove(place))
    }

    /// The element at a place.
    pub fn read(&self, place: usize) -> Result<&M::Element, Fault> {
        self.elements.get(place).ok_or(Fault::Place)
    }

    /// The total from the place `first` up to the place before `end`.
    pub fn total(&self, first: usize, end: usize) -> Result<M::Total, Fault> {
        if first > end || end > self.elements.len() {
            return Err(Fault::Stretch);
        }
        Ok(total_of::<M>(&self.elements[first..end]))
    }

    /// The first place whose element and all before it weigh more than a weight.
    pub fn seek(&self, weight: u32) -> Result<usize, Fault> {
        let weight_through = |place| M::weight(&total_of::<M>(&self.elements[..=place]));
        (0..self.elements.len()).find(|&place| weight_through(place) > weight).ok_or(Fault::Weight)
    }
}

/// The sum of item widths, which is also the weight.
#[derive(Clone, Copy, Debug)]
pub struct Columns;

impl Measure for Columns {
    type Element = Item;
    type Total = u32;

    fn unit() -> u32 {
        0
    }

    fn one(item: &Item) -> u32 {
        u32::from(item.width)
    }

    fn join(first: u32, second: u32) -> u32 {
        first.saturating_add(second)
    }

    fn weight(total: &u32) -> u32 {
        *total
    }
}

/// One entry of a page.
#[derive(Clone, Copy, Debug, PartialEq, Eq)]
pub struct Entry {
    /// What the entry stands for.
    pub key: u32,
    /// The screen lines it takes; a page admits 1 to 65,535.
    pub lines: u32,
    /// The hits in it.
    pub hits: u16,
}

/// The lines and hits of some entries.
#[derive(Clone, Copy, Debug, PartialEq, Eq)]
pub struct Sums {
    /// The sum of their lines.
    pub lines: u32,
    /// The sum of their hits.
    pub hits: u32,
}

/// The measure of pages: lines and hits added up, each held at its greatest value; the lines weigh.
#[derive(Clone, Copy, Debug)]
pub struct PageSums;

impl Measure for PageSums {
    type Element = Entry;
    type Total = Sums;

    fn unit() -> Sums {
        Sums { lines: 0, hits: 0 }
    }

    fn one(entry: &Entry) -> Sums {
        Sums { lines: entry.lines, hits: u32::from(entry.hits) }
    }

    fn join(first: Sums, second: Sums) -> Sums {
        Sums {
            lines: first.lines.saturating_add(second.lines),
            hits: first.hits.saturating_add(second.hits),
        }
    }

    fn weight(total: &Sums) -> u32 {
        total.lines
    }
}

/// Why a page refuses a call.
#[derive(Clone, Copy, Debug, PartialEq, Eq)]
pub enum PageFault {
    /// An entry takes no line, or more than 65,535.
    Lines,
    /// The list below refuses.
    List(Fault),
}

impl PageFault {
    /// The number that tells the fault.
    pub fn number(self) -> u32 {
        match self {
            PageFault::Lines => 31,
            PageFault::List(fault) => fault.number(),
        }
    }
}

impl From<Fault> for PageFault {
    fn from(fault: Fault) -> Self {
        PageFault::List(fault)
    }
}

/// A page: a list of entries, found by screen line.
#[derive(Clone, Debug)]
pub struct Page {
    list: List<PageSums>,
}

impl Page {
    /// An empty page over a table of so many rows.
    pub fn open(rows: usize) -> Self {
        Page { list: List::open(rows) }
    }

    /// The list of the entries, for the questions that any list answers.
    pub fn list(&self) -> &List<PageSums> {
        &self.list
    }

    /// Puts an entry before a place.
    pub fn put(&mut self, place: usize, entry: Entry) -> Result<(), PageFault> {
        if !(1..=65_535).contains(&entry.lines) {
            return Err(PageFault::Lines);
        }
        Ok(self.list.insert(place, entry)?)
    }

    /// Takes out the entry at a place.
    pub fn take(&mut self, place: usize) -> Result<Entry, PageFault> {
        Ok(self.list.remove(place)?)
    }

    /// The entry that a screen line shows.
    pub fn find(&self, line: u32) -> Result<Entry, PageFault> {
        let place = self.list.seek(line)?;
        Ok(*self.list.read(place)?)
    }
}
