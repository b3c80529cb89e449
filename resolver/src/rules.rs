//! The rules of the Unicode Bidirectional Algorithm for one paragraph without embeddings.
//!
//! Each rule is a function under the standard's name, from the classes that the rules before it
//! left to the classes that it leaves. The whole paragraph is one level run, so the classes
//! taken to stand before its start (sor) and behind its end (eor) are both that of the base
//! level.

/// An embedding level: even levels run to the right, odd ones to the left.
pub type Level = u8;

/// The class of an item.
#[derive(Clone, Copy, Debug, PartialEq, Eq)]
pub enum Class {
    /// Strong, written to the right: Latin letters.
    L,
    /// Strong, written to the left: Hebrew letters.
    R,
    /// Strong, written to the left: Arabic letters.
    AL,
    /// European digit.
    EN,
    /// Sign between European digits: plus, minus.
    ES,
    /// Sign beside European digits: percent, currency.
    ET,
    /// Arabic digit.
    AN,
    /// Sign between digits of either kind: comma, colon.
    CS,
    /// Mark on the item before it.
    NSM,
    /// Separator of segments: tab.
    S,
    /// White space.
    WS,
    /// Anything else that has no direction of its own.
    ON,
}

use Class::{AL, AN, CS, EN, ES, ET, L, NSM, ON, R, S, WS};

impl Class {
    /// All twelve, in the order of the standard's table.
    pub const ALL: [Class; 12] = [L, R, AL, EN, ES, ET, AN, CS, NSM, S, WS, ON];

    /// Whether the class has a direction of its own.
    pub fn is_strong(self) -> bool {
        matches!(self, L | R | AL)
    }

    /// Whether N1 and N2 still have to give the class a direction.
    pub fn is_neutral(self) -> bool {
        matches!(self, S | WS | ON)
    }
}

/// One item of a paragraph: its class, and how many columns of the screen it takes.
#[derive(Clone, Copy, Debug, PartialEq, Eq)]
pub struct Item {
    /// The class that the rules see.
    pub class: Class,
    /// The columns it takes; a paragraph admits 0, 1 and 2.
    pub width: u8,
}

/// How a paragraph's base level is chosen.
#[derive(Clone, Copy, Debug, PartialEq, Eq)]
pub enum Direction {
    /// Base level 0.
    Left,
    /// Base level 1.
    Right,
    /// As the first strong item says.
    FirstStrong,
}

/// What the rules say of a paragraph.
#[derive(Clone, Debug, PartialEq, Eq)]
pub struct Resolution {
    /// The base level.
    pub base: Level,
    /// The level of each item, in paragraph order.
    pub levels: Vec<Level>,
}

/// Runs all rules up to I2, in their order.
pub fn resolve(direction: Direction, classes: &[Class]) -> Resolution {
    let base = base_level(direction, classes);
    let sor = direction_of(base);
    let eor = sor;
    let classes = w1(classes, sor);
    let classes = w2(&classes, sor);
    let classes = w3(&classes);
    let classes = w4(&classes);
    let classes = w5(&classes);
    let classes = w6(&classes);
    let classes = w7(&classes, sor);
    let classes = n1(&classes, sor, eor);
    let classes = n2(&classes, base);
    let levels = if base == 0 { i1(&classes) } else { i2(&classes) };
    Resolution { base, levels }
}

/// The base level under a direction; P2 and P3 are asked only when the first strong item decides.
pub fn base_level(direction: Direction, classes: &[Class]) -> Level {
    match direction {
        Direction::Left => 0,
        Direction::Right => 1,
        Direction::FirstStrong => p3(p2(classes)),
    }
}

/// P2: find the first strong class.
pub fn p2(classes: &[Class]) -> Option<Class> {
    classes.iter().copied().find(|class| class.is_strong())
}

/// P3: the base level is 1 if that class is R or AL, and 0 if it is L or there is none.
pub fn p3(first_strong: Option<Class>) -> Level {
    match first_strong {
        Some(R | AL) => 1,
        _ => 0,
    }
}

/// W1: a mark takes the class that the item before it has by now, or sor at the start.
pub fn w1(classes: &[Class], sor: Class) -> Vec<Class> {
    let mut previous = sor;
    let mut outcome = Vec::new();
    for &class in classes {
        if class != NSM {
            previous = class;
        }
        outcome.push(previous);
    }
    outcome
}

/// W2: a European digit is an Arabic one where the last strong class before it is AL.
pub fn w2(classes: &[Class], sor: Class) -> Vec<Class> {
    each_place(classes, |place| {
        let strong = last_before(classes, place, Class::is_strong).unwrap_or(sor);
        if classes[place] == EN && strong == AL { AN } else { classes[place] }
    })
}

/// W3: AL is R from here on.
pub fn w3(classes: &[Class]) -> Vec<Class> {
    each_place(classes, |place| if classes[place] == AL { R } else { classes[place] })
}

/// W4: a single sign between two digits of one kind joins them: ES two EN, CS two EN or two AN.
pub fn w4(classes: &[Class]) -> Vec<Class> {
    each_place(classes, |place| {
        let before = place.checked_sub(1).map(|place| classes[place]);
        let after = classes.get(place + 1).copied();
        match (before, classes[place], after) {
            (Some(EN), ES | CS, Some(EN)) => EN,
            (Some(AN), CS, Some(AN)) => AN,
            (_, class, _) => class,
        }
    })
}

/// W5: an unbroken sequence of ET is EN if an EN touches it on either side.
pub fn w5(classes: &[Class]) -> Vec<Class> {
    let is_other = |class| class != ET;
    each_place(classes, |place| {
        let touches_digit = last_before(classes, place, is_other) == Some(EN)
            || first_after(classes, place, is_other) == Some(EN);
        if classes[place] == ET && touches_digit { EN } else { classes[place] }
    })
}

/// W6: signs that joined no digits are like any other neutral.
pub fn w6(classes: &[Class]) -> Vec<Class> {
    each_place(classes, |place| match classes[place] {
        ES | ET | CS => ON,
        class => class,
    })
}

/// W7: a European digit is L where the last strong class before it is L.
pub fn w7(classes: &[Class], sor: Class) -> Vec<Class> {
    each_place(classes, |place| {
        let strong = last_before(classes, place, Class::is_strong).unwrap_or(sor);
        if classes[place] == EN && strong == L { L } else { classes[place] }
    })
}

/// N1: neutrals take the direction on both their sides where those agree; digits count as R.
pub fn n1(classes: &[Class], sor: Class, eor: Class) -> Vec<Class> {
    let has_direction = |class: Class| !class.is_neutral();
    let side = |class| if matches!(class, EN | AN) { R } else { class };
    each_place(classes, |place| {
        let before = side(last_before(classes, place, has_direction).unwrap_or(sor));
        let after = side(first_after(classes, place, has_direction).unwrap_or(eor));
        if classes[place].is_neutral() && before == after { before } else { classes[place] }
    })
}

/// N2: any neutral left over takes the base direction.
pub fn n2(classes: &[Class], base: Level) -> Vec<Class> {
    each_place(classes, |place| {
        if classes[place].is_neutral() { direction_of(base) } else { classes[place] }
    })
}

/// I1: at base level 0, R goes up by one level and digits by two.
pub fn i1(classes: &[Class]) -> Vec<Level> {
    each_place(classes, |place| match classes[place] {
        R => 1,
        EN | AN => 2,
        _ => 0,
    })
}

/// I2: at base level 1, L and digits go up by one level.
pub fn i2(classes: &[Class]) -> Vec<Level> {
    each_place(classes, |place| match classes[place] {
        L | EN | AN => 2,
        _ => 1,
    })
}

/// L2: the places in visual order. From the highest level down to 1, each unbroken sequence at
/// that level or above is reversed.
pub fn l2(levels: &[Level]) -> Vec<usize> {
    let mut order: Vec<usize> = (0..levels.len()).collect();
    let highest = levels.iter().copied().max().unwrap_or(0);
    for level in (1..=highest).rev() {
        let reaches = |place: usize| levels[place] >= level;
        for sequence in order.chunk_by_mut(|&one, &next| reaches(one) == reaches(next)) {
            if reaches(sequence[0]) {
                sequence.reverse();
            }
        }
    }
    order
}

/// The column of each item, in paragraph order: the widths of all items visually before it.
pub fn columns(items: &[Item], levels: &[Level]) -> Vec<u32> {
    let order = l2(levels);
    each_place(items, |place| {
        let before = order.iter().take_while(|&&other| other != place);
        before.map(|&other| u32::from(items[other].width)).sum()
    })
}

/// The classes of some items.
pub fn classes(items: &[Item]) -> Vec<Class> {
    items.iter().map(|item| item.class).collect()
}

/// The strong class of a level's direction.
fn direction_of(level: Level) -> Class {
    if level.is_multiple_of(2) { L } else { R }
}

/// What a rule gives at every place.
fn each_place<T, U>(all: &[T], rule: impl FnMut(usize) -> U) -> Vec<U> {
    (0..all.len()).map(rule).collect()
}

/// The nearest class before a place that passes a test.
fn last_before(classes: &[Class], place: usize, test: impl Fn(Class) -> bool) -> Option<Class> {
    classes[..place].iter().copied().rev().find(|&class| test(class))
}

/// The nearest class behind a place that passes a test.
fn first_after(classes: &[Class], place: usize, test: impl Fn(Class) -> bool) -> Option<Class> {
    classes[place + 1..].iter().copied().find(|&class| test(class))
}
