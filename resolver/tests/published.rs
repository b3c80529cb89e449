//! The published conformance lines (BidiTest.txt of the Unicode Character Database) over the
//! twelve classes known here.
//!
//! The published levels and orders are those after rule L1, which gives separators, and the
//! white space before them or at the end, the base level. The resolver leaves that rule out, so
//! the lines are compared twice: those that L1 cannot touch as they stand, and all of them after
//! an L1 made here.

use std::collections::HashSet;
use std::fs;

use resolver::rules::Direction::{FirstStrong, Left, Right};
use resolver::rules::{Class, Direction, Level, l2, resolve};

/// Where Debian's package `unicode-data` puts the file.
const FILE: &str = "/usr/share/unicode/BidiTest.txt";

/// A published line over the twelve classes, with what must come out of it.
struct Line {
    classes: Vec<Class>,
    directions: Vec<Direction>,
    levels: Vec<Level>,
    order: Vec<usize>,
}

#[test]
fn published_lines() {
    let Ok(text) = fs::read_to_string(FILE) else {
        println!("published lines: NOT RUN, there is no {FILE}");
        return;
    };
    let lines = lines_over_known_classes(&text);
    assert_all_short_paragraphs_are_there(&lines);
    let untouched: Vec<&Line> = lines.iter().filter(|line| is_beyond_l1(&line.classes)).collect();
    let plain = compare(&untouched, |_, _, levels| levels);
    let all: Vec<&Line> = lines.iter().collect();
    let with_l1 = compare(&all, l1);
    let name = text.lines().next().unwrap_or_default();
    println!("published lines: {FILE} ({})", name.trim_start_matches(['#', ' ']));
    println!("published lines: that L1 cannot affect, as they stand: {plain}");
    println!("published lines: all over the twelve classes, with L1: {with_l1}");
}

/// Compares levels and orders under each direction of each line; answers how many those were.
fn compare(lines: &[&Line], finish: fn(&[Class], Level, Vec<Level>) -> Vec<Level>) -> String {
    let mut cases = 0;
    for line in lines {
        for &direction in &line.directions {
            let resolution = resolve(direction, &line.classes);
            let levels = finish(&line.classes, resolution.base, resolution.levels);
            let case = (direction, &line.classes);
            assert_eq!(levels, line.levels, "levels of {case:?}");
            assert_eq!(l2(&levels), line.order, "order of {case:?}");
            cases += 1;
        }
    }
    format!("{} lines, {cases} cases, levels and order of each the same", lines.len())
}

/// Whether L1 finds nothing to do: no separator, and no white space at the end.
fn is_beyond_l1(classes: &[Class]) -> bool {
    !classes.contains(&Class::S) && classes.last() != Some(&Class::WS)
}

/// L1: separators get the base level, as does white space before them and at the end.
fn l1(classes: &[Class], base: Level, mut levels: Vec<Level>) -> Vec<Level> {
    let mut resets = true;
    for (place, class) in classes.iter().enumerate().rev() {
        resets = *class == Class::S || (resets && *class == Class::WS);
        if resets {
            levels[place] = base;
        }
    }
    levels
}

/// The file promises all paragraphs of up to four classes, each under all three directions.
fn assert_all_short_paragraphs_are_there(lines: &[Line]) {
    let short = lines.iter().filter(|line| line.classes.len() <= 4);
    let cases: HashSet<String> = short
        .flat_map(|line| line.directions.iter().map(|way| format!("{way:?} {:?}", line.classes)))
        .collect();
    assert_eq!(cases.len(), 3 * (12 + 12 * 12 + 12 * 12 * 12 + 12 * 12 * 12 * 12));
}

/// Reads the file: `@Levels:` and `@Reorder:` hold for the lines below them.
fn lines_over_known_classes(text: &str) -> Vec<Line> {
    let (mut levels, mut order) = ("", "");
    let mut lines = Vec::new();
    for line in text.lines() {
        let line = line.split('#').next().unwrap_or_default().trim();
        if let Some(rest) = line.strip_prefix("@Levels:") {
            levels = rest;
        } else if let Some(rest) = line.strip_prefix("@Reorder:") {
            order = rest;
        } else if let Some((input, bits)) = line.split_once(';') {
            let Some(classes) = input.split_whitespace().map(class).collect() else { continue };
            let directions = directions(bits.trim());
            lines.push(Line {
                classes,
                directions,
                levels: numbers(levels),
                order: numbers(order),
            });
        }
    }
    lines
}

/// One of the twelve classes by its name.
fn class(name: &str) -> Option<Class> {
    Class::ALL.into_iter().find(|class| format!("{class:?}") == name)
}

/// The directions that a set of bits names.
fn directions(bits: &str) -> Vec<Direction> {
    let bits = u32::from_str_radix(bits, 16).expect("a set of bits");
    let named = [(1, FirstStrong), (2, Left), (4, Right)].into_iter();
    named.filter(|(bit, _)| bits & bit != 0).map(|(_, direction)| direction).collect()
}

/// Numbers parted by white space.
fn numbers<T: std::str::FromStr>(text: &str) -> Vec<T> {
    let number = |word: &str| word.parse().ok().expect("a number");
    text.split_whitespace().map(number).collect()
}
