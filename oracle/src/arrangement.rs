//! The arrangement of a layout in 32-bit words, as
//! crates/layouts/specs/LayoutWords.antt gives it. The groups of all levels
//! are numbered from 0: those of the top, then those of their entries, then
//! those one deeper, and so on. Level 0 is the top, and level `number + 1` is
//! the entry level of group `number`. With `groups` for how many there are:
//!
//! | from word | words |
//! |---|---|
//! | 0 | `groups` |
//! | 1 | `groups + 2` places: where the members of each level begin, and where the last level's end |
//! | 3 + `groups` | the same for the required tags |
//! | 5 + 2 `groups` | the same for the count tags of the groups that stand in a level |
//! | 7 + 3 `groups` | the count tag of each group |
//! | 7 + 4 `groups` | the delimiter of each group |
//! | 7 + 5 `groups` | 1 for each required group, else 0 |
//! | 7 + 6 `groups` | the members of all levels, then the required tags of all levels |

use crate::layouts::{PlainGroup, PlainLevel};

/// The words of a layout.
pub fn words(layout: &PlainLevel) -> Vec<u32> {
    let mut levels = vec![layout];
    let mut groups = Vec::new();
    let mut next = 0;
    while let Some(level) = levels.get(next) {
        let inside: Vec<&PlainGroup> = level.groups.iter().collect();
        levels.extend(inside.iter().map(|group| &group.entry));
        groups.extend(inside);
        next += 1;
    }
    let members: Vec<usize> = levels.iter().map(|level| level.members.len()).collect();
    let required: Vec<usize> = levels.iter().map(|level| level.required.len()).collect();
    let inside: Vec<usize> = levels.iter().map(|level| level.groups.len()).collect();
    let first_member = 7 + 6 * groups.len();
    let first_required = first_member + members.iter().sum::<usize>();

    let mut words = vec![groups.len() as u32];
    words.extend(places(first_member, &members));
    words.extend(places(first_required, &required));
    words.extend(places(7 + 3 * groups.len(), &inside));
    words.extend(groups.iter().map(|group| group.count_tag));
    words.extend(groups.iter().map(|group| group.delimiter_tag));
    words.extend(groups.iter().map(|group| u32::from(group.required)));
    words.extend(levels.iter().flat_map(|level| &level.members));
    words.extend(levels.iter().flat_map(|level| &level.required));
    words
}

/// Where lists of these lengths begin when they stand one behind the other
/// from `first` on, and where the last ends.
fn places(first: usize, lengths: &[usize]) -> Vec<u32> {
    let mut place = first;
    let mut places = vec![place as u32];
    for length in lengths {
        place += length;
        places.push(place as u32);
    }
    places
}

/// The layout whose words these are, if they are the words of one.
pub fn layout(words: &[u32]) -> Option<PlainLevel> {
    layout_at_start(words).filter(|top| self::words(top) == words)
}

/// The layout whose words these begin with, if they begin with those of one.
pub fn layout_at_start(words: &[u32]) -> Option<PlainLevel> {
    let groups = usize::try_from(*words.first()?).ok()?;
    if words.len() < 7 || groups > (words.len() - 7) / 6 {
        return None;
    }
    let top = Arranged { words, groups }.level(0)?;
    words.starts_with(&self::words(&top)).then_some(top)
}

struct Arranged<'w> {
    words: &'w [u32],
    groups: usize,
}

impl Arranged<'_> {
    fn word(&self, place: usize) -> Option<usize> {
        self.words.get(place).map(|word| *word as usize)
    }

    /// The stretch whose ends stand at `place` and behind it.
    fn stretch(&self, place: usize) -> Option<Vec<u32>> {
        let (first, past) = (self.word(place)?, self.word(place + 1)?);
        self.words.get(first..past).map(<[u32]>::to_vec)
    }

    fn level(&self, number: usize) -> Option<PlainLevel> {
        let first_group = |level: usize| {
            let place = self.word(5 + 2 * self.groups + level)?;
            place.checked_sub(7 + 3 * self.groups)
        };
        let (first, past) = (first_group(number)?, first_group(number + 1)?);
        // Groups are numbered behind the group in whose entry they stand.
        if first < number {
            return None;
        }
        Some(PlainLevel {
            members: self.stretch(1 + number)?,
            required: self.stretch(3 + self.groups + number)?,
            groups: (first..past)
                .map(|group| self.group(group))
                .collect::<Option<_>>()?,
        })
    }

    fn group(&self, number: usize) -> Option<PlainGroup> {
        let row = |row: usize| self.words.get(7 + row * self.groups + number).copied();
        Some(PlainGroup {
            count_tag: row(3)?,
            delimiter_tag: row(4)?,
            required: row(5)? == 1,
            entry: self.level(number + 1)?,
        })
    }
}

#[cfg(test)]
mod tests {
    use super::*;
    use crate::texts;

    fn layout_of(text: &str) -> PlainLevel {
        let lines: String = text.split(' ').map(|line| format!("{line}\n")).collect();
        texts::layout(lines.as_bytes()).expect("an accepted layout text")
    }

    #[test]
    fn the_layout_of_the_worked_example() {
        let layout = layout_of(
            "member=35 member=453 required=35 group=453,448,1 member=447 member=448 required=447 end=453",
        );
        assert_eq!(
            words(&layout),
            [
                1, 13, 15, 17, 17, 18, 19, 10, 11, 11, 453, 448, 1, 35, 453, 447, 448, 35, 447
            ]
        );
        assert_eq!(self::layout(&words(&layout)), Some(layout));
    }

    #[test]
    fn groups_are_numbered_level_by_level() {
        let layout = layout_of(
            "member=1 member=4 group=1,9,1 member=2 member=3 member=9 \
             group=2,9,0 member=9 end=2 group=3,8,0 member=8 required=8 end=3 end=1 \
             group=4,7,0 member=7 end=4"
                .replace("             ", "")
                .as_str(),
        );
        let words = words(&layout);
        let groups = 4;
        assert_eq!(words[0], groups as u32);
        assert_eq!(words[7 + 3 * groups..7 + 4 * groups], [1, 4, 2, 3]);
        assert_eq!(words[7 + 4 * groups..7 + 5 * groups], [9, 7, 9, 8]);
        assert_eq!(words[7 + 5 * groups..7 + 6 * groups], [1, 0, 0, 0]);
        assert_eq!(words[7 + 6 * groups..], [1, 4, 2, 3, 9, 7, 9, 8, 8]);
        assert_eq!(self::layout(&words), Some(layout));
    }

    #[test]
    fn an_empty_top_has_seven_words() {
        let words = words(&PlainLevel::default());
        assert_eq!(words, [0, 7, 7, 7, 7, 7, 7]);
        assert_eq!(layout(&words), Some(PlainLevel::default()));
    }

    #[test]
    fn other_words_are_no_layout() {
        let good = [
            1, 13, 15, 17, 17, 18, 19, 10, 11, 11, 453, 448, 1, 35, 453, 447, 448, 35, 447,
        ];
        assert!(layout(&good).is_some());
        assert_eq!(layout(&[]), None);
        assert_eq!(layout(&good[..18]), None);
        for place in 0..10 {
            for word in [0, 9, 20, u32::MAX] {
                let mut words = good;
                words[place] = word;
                assert_eq!(layout(&words), None, "{place} {word}");
            }
        }
    }
}
