//! Scripts of calls to a paragraph, and what the replay program prints for them.
//!
//! A script is lines of fields parted by tabs: `P` direction opens, `E` place removed items
//! edits, `D` direction turns, `Q` place asks, and `Z` ends.

use std::fmt::{self, Display, Formatter};

use crate::paragraph::{self, Change, Paragraph, Run, Span};
use crate::rules::{Class, Direction, Item, Level};

/// The rows of the replay program's paragraph.
pub const ROWS: usize = 256;
/// The most items that the replay program takes in one edit.
pub const ITEMS: usize = 256;
/// The most bytes that the replay program reads.
pub const BYTES: usize = 16_384;

/// Why a script or a line of it is refused.
#[derive(Clone, Copy, Debug, PartialEq, Eq)]
pub enum Fault {
    /// An unknown command, or too few or too many fields.
    Command,
    /// A bad number.
    Number,
    /// A bad direction.
    Direction,
    /// A bad or halved item.
    Item {
        /// Which of the items, the first such one.
        position: usize,
    },
    /// More items than the item list holds.
    Items,
    /// A command that must not come now.
    State,
    /// The outcome does not fit into the buffer.
    Buffer,
    /// The script is too long.
    Input,
    /// The paragraph refuses.
    Paragraph(paragraph::Fault),
}

impl Fault {
    /// The letter of the layer that refuses: script, paragraph or tree.
    pub fn layer(self) -> char {
        match self {
            Fault::Paragraph(paragraph::Fault::List(_)) => 'T',
            Fault::Paragraph(_) => 'P',
            _ => 'S',
        }
    }

    /// The number that tells the fault.
    pub fn number(self) -> u32 {
        match self {
            Fault::Command => 21,
            Fault::Number => 22,
            Fault::Direction => 23,
            Fault::Item { .. } => 24,
            Fault::Items => 25,
            Fault::State => 26,
            Fault::Buffer => 27,
            Fault::Input => 28,
            Fault::Paragraph(fault) => fault.number(),
        }
    }

    /// The position of the item at fault, if it is an item's.
    pub fn position(self) -> Option<usize> {
        match self {
            Fault::Item { position } => Some(position),
            Fault::Paragraph(fault) => fault.position(),
            _ => None,
        }
    }
}

impl From<paragraph::Fault> for Fault {
    fn from(fault: paragraph::Fault) -> Self {
        Fault::Paragraph(fault)
    }
}

/// The lines of a text, counted from 1, without their line feeds.
pub fn lines(text: &[u8]) -> impl Iterator<Item = (usize, &[u8])> {
    let lines = text.split_inclusive(|&byte| byte == b'\n');
    (1..).zip(lines.map(|line| line.strip_suffix(b"\n").unwrap_or(line)))
}

/// The fields of a line.
pub fn fields(line: &[u8]) -> Vec<&[u8]> {
    line.split(|&byte| byte == b'\t').collect()
}

/// A line with a known command and as many fields as that takes, none of them read yet.
#[derive(Clone, Copy, Debug, PartialEq, Eq)]
pub enum Command<'line> {
    /// `P`: open.
    Open {
        /// The direction to open with.
        direction: &'line [u8],
    },
    /// `E`: edit.
    Edit {
        /// Where.
        place: &'line [u8],
        /// How many items go.
        removed: &'line [u8],
        /// The items that come.
        items: &'line [u8],
    },
    /// `D`: turn.
    Turn {
        /// The direction to set.
        direction: &'line [u8],
    },
    /// `Q`: ask.
    Ask {
        /// Of which item.
        place: &'line [u8],
    },
    /// `Z`: end.
    End,
}

/// The command of a line.
pub fn command(line: &[u8]) -> Result<Command<'_>, Fault> {
    match *fields(line).as_slice() {
        [b"P", direction] => Ok(Command::Open { direction }),
        [b"E", place, removed, items] => Ok(Command::Edit { place, removed, items }),
        [b"D", direction] => Ok(Command::Turn { direction }),
        [b"Q", place] => Ok(Command::Ask { place }),
        [b"Z"] => Ok(Command::End),
        _ => Err(Fault::Command),
    }
}

/// A number: one to nine digits, and no zero before others.
pub fn number(field: &[u8]) -> Result<usize, Fault> {
    let is_number = (1..=9).contains(&field.len())
        && field.iter().all(u8::is_ascii_digit)
        && (field[0] != b'0' || field.len() == 1);
    if !is_number {
        return Err(Fault::Number);
    }
    Ok(field.iter().fold(0, |value, &digit| value * 10 + usize::from(digit - b'0')))
}

/// A direction: `L`, `R` or `F`.
pub fn direction(field: &[u8]) -> Result<Direction, Fault> {
    match field {
        b"L" => Ok(Direction::Left),
        b"R" => Ok(Direction::Right),
        b"F" => Ok(Direction::FirstStrong),
        _ => Err(Fault::Direction),
    }
}

/// Items: for each a class letter and one digit, its width.
pub fn items(field: &[u8]) -> Result<Vec<Item>, Fault> {
    let pairs = field.chunks(2).enumerate();
    pairs.map(|(position, pair)| item(pair).ok_or(Fault::Item { position })).collect()
}

/// One item.
fn item(pair: &[u8]) -> Option<Item> {
    match *pair {
        [letter, digit @ b'0'..=b'9'] => {
            Some(Item { class: class(char::from(letter))?, width: digit - b'0' })
        }
        _ => None,
    }
}

/// The class that a letter stands for.
pub fn class(letter: char) -> Option<Class> {
    Class::ALL.into_iter().find(|&class| class_letter(class) == letter)
}

/// The letter that stands for a class.
pub fn class_letter(class: Class) -> char {
    match class {
        Class::L => 'L',
        Class::R => 'R',
        Class::AL => 'A',
        Class::EN => 'E',
        Class::ES => 'S',
        Class::ET => 'T',
        Class::AN => 'N',
        Class::CS => 'C',
        Class::NSM => 'M',
        Class::S => 'G',
        Class::WS => 'W',
        Class::ON => 'O',
    }
}

/// The letter that stands for a direction.
pub fn direction_letter(direction: Direction) -> char {
    match direction {
        Direction::Left => 'L',
        Direction::Right => 'R',
        Direction::FirstStrong => 'F',
    }
}

/// How far a replay has come.
#[derive(Clone, Debug, PartialEq, Eq)]
enum State {
    Waiting,
    Open(Paragraph),
    Ended,
}

/// A replay of a script, line by line.
#[derive(Clone, Debug, PartialEq, Eq)]
pub struct Replay {
    rows: usize,
    most_items: usize,
    state: State,
    refused: u32,
}

/// What a line that was not refused brought about.
#[derive(Clone, Debug, PartialEq, Eq)]
pub enum Answer {
    /// The paragraph is open.
    Opened {
        /// Its base level.
        base: Level,
    },
    /// The items were edited.
    Edited {
        /// What changed.
        change: Change,
        /// The runs to redraw.
        runs: Vec<Run>,
    },
    /// The direction was set.
    Turned {
        /// What changed.
        change: Change,
        /// The runs to redraw.
        runs: Vec<Run>,
    },
    /// An item was asked for.
    Asked {
        /// Its level.
        level: Level,
        /// Its column.
        column: u32,
    },
    /// The replay is over.
    Ended {
        /// The number of lines refused before.
        refused: u32,
    },
}

impl Replay {
    /// A replay that waits for its opening, with so many rows, and so many items to an edit.
    pub fn new(rows: usize, most_items: usize) -> Self {
        Replay { rows, most_items, state: State::Waiting, refused: 0 }
    }

    /// Does what a line says, and counts it if it is refused.
    pub fn step(&mut self, line: &[u8]) -> Result<Answer, Fault> {
        let outcome = self.obey(line);
        if outcome.is_err() {
            self.refused = self.refused.saturating_add(1);
        }
        outcome
    }

    /// Does what a line says.
    fn obey(&mut self, line: &[u8]) -> Result<Answer, Fault> {
        match (command(line)?, &mut self.state) {
            (Command::Open { direction: field }, State::Waiting) => {
                let paragraph = Paragraph::open(self.rows, direction(field)?);
                let base = paragraph.resolution().base;
                self.state = State::Open(paragraph);
                Ok(Answer::Opened { base })
            }
            (Command::Edit { place, removed, items: field }, State::Open(paragraph)) => {
                let place = number(place)?;
                let removed = number(removed)?;
                let new = items(field)?;
                if new.len() > self.most_items {
                    return Err(Fault::Items);
                }
                let change = paragraph.edit(place, removed, &new)?;
                Ok(Answer::Edited { change, runs: runs_to_redraw(paragraph, change) })
            }
            (Command::Turn { direction: field }, State::Open(paragraph)) => {
                let change = paragraph.turn(direction(field)?);
                Ok(Answer::Turned { change, runs: runs_to_redraw(paragraph, change) })
            }
            (Command::Ask { place }, State::Open(paragraph)) => {
                let place = number(place)?;
                let level = paragraph.level(place)?;
                let (column, _) = paragraph.column(place)?;
                Ok(Answer::Asked { level, column })
            }
            (Command::End, State::Open(_)) => {
                self.state = State::Ended;
                Ok(Answer::Ended { refused: self.refused })
            }
            _ => Err(Fault::State),
        }
    }
}

/// The runs that share a place with a change's span.
fn runs_to_redraw(paragraph: &Paragraph, change: Change) -> Vec<Run> {
    change.span.map_or_else(Vec::new, |span| paragraph.runs_in(span))
}

/// A line's outcome, which displays as the lines that tell it.
#[derive(Clone, Debug, PartialEq, Eq)]
pub struct Outcome {
    /// The line, counted from 1; 0 stands for the whole script.
    pub line: usize,
    /// What came of it.
    pub result: Result<Answer, Fault>,
}

impl Display for Outcome {
    fn fmt(&self, out: &mut Formatter) -> fmt::Result {
        match &self.result {
            Ok(Answer::Opened { base }) => writeln!(out, "P\t{base}"),
            Ok(Answer::Edited { change, runs }) => display_change(out, 'E', change, runs),
            Ok(Answer::Turned { change, runs }) => display_change(out, 'D', change, runs),
            Ok(Answer::Asked { level, column }) => writeln!(out, "Q\t{level}\t{column}"),
            Ok(Answer::Ended { refused }) => writeln!(out, "Z\t{refused}"),
            Err(fault) => display_fault(out, self.line, *fault),
        }
    }
}

/// The line of a change, and one for each run to redraw.
fn display_change(out: &mut Formatter, letter: char, change: &Change, runs: &[Run]) -> fmt::Result {
    let Change { count, base, span } = change;
    match span {
        Some(Span { start, end }) => writeln!(out, "{letter}\t{count}\t{base}\t{start}\t{end}")?,
        None => writeln!(out, "{letter}\t{count}\t{base}\t-\t-")?,
    }
    for Run { start, end, level } in runs {
        writeln!(out, "R\t{start}\t{end}\t{level}")?;
    }
    Ok(())
}

/// The line of a refusal.
fn display_fault(out: &mut Formatter, line: usize, fault: Fault) -> fmt::Result {
    write!(out, "!\t{line}\t{}\t{}\t", fault.layer(), fault.number())?;
    match fault.position() {
        Some(position) => writeln!(out, "{position}"),
        None => writeln!(out, "-"),
    }
}

/// Writes an outcome's lines into a buffer, and answers how many bytes they take.
pub fn print(outcome: &Outcome, buffer: &mut [u8]) -> Result<usize, Fault> {
    let text = outcome.to_string();
    let part = buffer.get_mut(..text.len()).ok_or(Fault::Buffer)?;
    part.copy_from_slice(text.as_bytes());
    Ok(text.len())
}

/// All that the replay program prints for a script.
pub fn replay(script: &[u8]) -> String {
    if script.len() > BYTES {
        return Outcome { line: 0, result: Err(Fault::Input) }.to_string();
    }
    let mut replay = Replay::new(ROWS, ITEMS);
    lines(script)
        .map(|(line, text)| Outcome { line, result: replay.step(text) }.to_string())
        .collect()
}
