//! One paragraph a line in, what the rules say of it out.
//!
//! A line in is a direction and items in the letters of scripts, parted by a tab. The line out
//! is the base level, the levels, the places in visual order and the columns, parted by tabs;
//! each of these is a name and then its numbers, each behind a space.

use std::fmt::Display;

use crate::list::MOST_ROWS;
use crate::paragraph::Paragraph;
use crate::rules::{self, Level};
use crate::script::{self, Fault, Outcome};

/// A line for each line of a text; a refused one gets the line that a replay would print.
pub fn report(text: &[u8]) -> String {
    script::lines(text)
        .map(|(line, fields)| match answer(fields) {
            Ok(answer) => answer,
            Err(fault) => Outcome { line, result: Err(fault) }.to_string(),
        })
        .collect()
}

/// The line out for one line in.
pub fn answer(line: &[u8]) -> Result<String, Fault> {
    let [direction, items] = *script::fields(line).as_slice() else {
        return Err(Fault::Command);
    };
    let mut paragraph = Paragraph::open(MOST_ROWS, script::direction(direction)?);
    paragraph.edit(0, 0, &script::items(items)?)?;
    let resolution = paragraph.resolution();
    let order = rules::l2(&resolution.levels);
    let columns = rules::columns(paragraph.items(), &resolution.levels);
    Ok(print(resolution.base, &resolution.levels, &order, &columns))
}

/// The line out.
fn print(base: Level, levels: &[Level], order: &[usize], columns: &[u32]) -> String {
    format!("base {base}\tlevels{}\torder{}\tcolumns{}\n", spaced(levels), spaced(order), spaced(columns))
}

/// Numbers, each behind a space.
fn spaced<T: Display>(numbers: &[T]) -> String {
    numbers.iter().map(|n| format!(" {n}")).collect()
}
