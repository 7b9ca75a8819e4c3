//! "Positions and placements": floaters, the positions they may take, the
//! allowed placements in order, and the listing in hand.

use crate::line::{Bracket, Kind, Line, Refusal};

/// "Position 0 is the N-terminus, 1 to n the residues, n+1 the C-terminus."
pub type Position = u16;

/// "A placement has 8 entries, unused ones 0, ordered as number lists."
pub type Placement = [Position; Line::MOST_FLOATERS];

/// The placement of a line without floaters.
const ALL_ZEROS: Placement = [0; Line::MOST_FLOATERS];

/// The words of 64 bits that have a bit for each position of a line.
const WORDS: usize = (Line::MOST_RESIDUES + 2).div_ceil(64);

/// A set of positions that a line can have.
#[derive(Clone, Copy, Debug, PartialEq, Eq, Default)]
pub struct Positions {
    words: [u64; WORDS],
}

impl Positions {
    pub const EMPTY: Self = Self { words: [0; WORDS] };

    /// A number that is no position of any line is left out.
    pub fn insert(&mut self, position: Position) {
        if let Some(word) = self.words.get_mut(usize::from(position / 64)) {
            *word |= 1 << (position % 64);
        }
    }

    pub fn remove(&mut self, position: Position) {
        if let Some(word) = self.words.get_mut(usize::from(position / 64)) {
            *word &= !(1 << (position % 64));
        }
    }

    pub fn contains(&self, position: Position) -> bool {
        let word = self.words.get(usize::from(position / 64));
        word.is_some_and(|word| word >> (position % 64) & 1 == 1)
    }

    pub fn len(&self) -> usize {
        self.words
            .iter()
            .map(|word| word.count_ones() as usize)
            .sum()
    }

    pub fn is_empty(&self) -> bool {
        *self == Self::EMPTY
    }

    pub fn union(self, other: Self) -> Self {
        self.combine(other, |one, two| one | two)
    }

    pub fn without(self, other: Self) -> Self {
        self.combine(other, |one, two| one & !two)
    }

    fn combine(self, other: Self, with: impl Fn(u64, u64) -> u64) -> Self {
        let mut words = self.words;
        for (word, &second) in words.iter_mut().zip(&other.words) {
            *word = with(*word, second);
        }
        Self { words }
    }

    /// The members above a position.
    pub fn above(self, position: Position) -> Self {
        let mut words = self.words;
        for (index, word) in words.iter_mut().enumerate() {
            let not_above = (usize::from(position) + 1).saturating_sub(index * 64);
            *word &= u64::MAX.checked_shl(not_above as u32).unwrap_or(0);
        }
        Self { words }
    }

    /// The least member that is this position or above it.
    pub fn at_or_above(&self, position: Position) -> Option<Position> {
        let first_word = usize::from(position / 64);
        let mut mask = u64::MAX << (position % 64);
        for (index, word) in self.words.iter().enumerate().skip(first_word) {
            let left = word & mask;
            if left != 0 {
                return Some((index * 64) as Position + left.trailing_zeros() as Position);
            }
            mask = u64::MAX;
        }
        None
    }

    /// The members that are this position or above it, ascending.
    pub fn starting_at(&self, position: Position) -> impl Iterator<Item = Position> + '_ {
        std::iter::successors(self.at_or_above(position), |&member| {
            self.at_or_above(member.checked_add(1)?)
        })
    }

    /// The members, ascending.
    pub fn iter(&self) -> impl Iterator<Item = Position> + '_ {
        self.starting_at(0)
    }
}

/// One floating copy.
#[derive(Clone, Copy, Debug, PartialEq, Eq)]
pub struct Floater {
    /// The index of its bracket: copies of one bracket are told by it.
    pub bracket: usize,
    /// Its permitted positions that are not struck out.
    pub permitted: Positions,
}

/// The floating copies, "in order of their brackets".
pub fn floaters(line: &Line) -> Vec<Floater> {
    let struck_out = struck_out(line);
    let mut floaters = Vec::new();
    for (index, bracket) in line.brackets.iter().enumerate() {
        let copies = line.floating_copies(bracket);
        if copies > 0 {
            let floater = Floater {
                bracket: index,
                permitted: permitted(line, bracket).without(struck_out),
            };
            floaters.extend(std::iter::repeat_n(floater, copies));
        }
    }
    floaters
}

/// "A position with a placed modification is struck out".
fn struck_out(line: &Line) -> Positions {
    let each = line.brackets.iter().map(|bracket| placed_on(line, bracket));
    each.fold(Positions::EMPTY, Positions::union)
}

/// The positions where a bracket's modification is placed: its residue or
/// terminus; of a declaration, "each matching position receives the
/// modification as a placed one", once, however often it is named.
pub fn placed_on(line: &Line, bracket: &Bracket) -> Positions {
    let mut placed_on = Positions::EMPTY;
    if line.is_placed(bracket) {
        placed_on.insert(bracket.first as Position);
    }
    if bracket.kind == Kind::Declared && line.is_modification(bracket) {
        let named = line.places_of(bracket);
        for position in 0..=line.c_terminus() {
            if line.site_at(position).is_some_and(|site| named.contains(&site)) {
                placed_on.insert(position as Position);
            }
        }
    }
    placed_on
}

/// "Permitted positions: residues 1 to n for an unlabelled unknown one; the
/// residues of its range; for a label, the position or range of its
/// definition, if it has one in the sequence or at a terminus, and those of
/// its references, each once."
fn permitted(line: &Line, bracket: &Bracket) -> Positions {
    let mut permitted = Positions::EMPTY;
    let mut insert = |first: usize, last: usize| {
        (first..=last).for_each(|position| permitted.insert(position as Position));
    };
    let label = line.label_of(bracket).map(|label| label.name);
    if bracket.kind != Kind::Unknown {
        insert(bracket.first, bracket.last);
    } else if label.is_none() {
        insert(1, line.residues.len());
    }
    if label.is_some() {
        let references = line.brackets.iter().filter(|one| line.is_reference(one));
        for reference in references {
            if line.label_of(reference).map(|label| label.name) == label {
                insert(reference.first, reference.last);
            }
        }
    }
    permitted
}

/// One of the "rows of floater and position, [..] floaters counted from 1".
#[derive(Clone, Copy, Debug, PartialEq, Eq, PartialOrd, Ord)]
pub struct Row {
    pub floater: u8,
    pub position: Position,
}

/// "room is 2,048 rows"
pub const MOST_ROWS: usize = 2048;

/// The permitted positions as rows, ascending.
pub fn rows(floaters: &[Floater]) -> Vec<Row> {
    let mut rows = Vec::new();
    for (number, floater) in (1..).zip(floaters) {
        rows.extend(floater.permitted.iter().map(|position| Row {
            floater: number,
            position,
        }));
    }
    rows
}

/// "A lookup in any rows, ordered or not, gives the index (from 0) and the
/// position of a floater's first row among the first so many; a number above
/// 2,048 is read as 2,048." Refusal 13 where the lent rows are fewer than
/// 2,048, and 17: "in the row lookup, no such row".
pub fn first_row(rows: &[Row], so_many: usize, floater: u8) -> Result<(usize, Position), Refusal> {
    if rows.len() < MOST_ROWS {
        return Err(Refusal::new(13, 0));
    }
    rows[..so_many.min(MOST_ROWS)]
        .iter()
        .position(|row| row.floater == floater)
        .map(|index| (index, rows[index].position))
        .ok_or(Refusal::new(17, 0))
}

/// Whether a placement is an allowed one: every floater at a permitted
/// position, "no two floaters share one", unused entries 0; and "positions of
/// one bracket's copies ascend" (02, L4).
pub fn is_allowed(floaters: &[Floater], placement: &Placement) -> bool {
    let (used, unused) = placement.split_at(floaters.len());
    let mut taken = Positions::EMPTY;
    unused.iter().all(|&entry| entry == 0)
        && floaters.iter().zip(used).all(|(floater, &position)| {
            let free = !taken.contains(position);
            taken.insert(position);
            free && floater.permitted.contains(position)
        })
        && copies_ascend(floaters, used)
}

/// Whether each copy stands above every copy of its bracket before it.
fn copies_ascend(floaters: &[Floater], used: &[Position]) -> bool {
    (0..floaters.len()).all(|at| {
        let own = |before: &usize| floaters[*before].bracket == floaters[at].bracket;
        (0..at).filter(own).all(|before| used[before] < used[at])
    })
}

/// The positions that floaters which stand already leave to another one: not
/// their own, and above the copies of its bracket that stand before it.
fn left_to(floater: &Floater, standing: &[Floater], at: &Placement) -> Positions {
    let mut left = floater.permitted;
    for (other, &position) in standing.iter().zip(at) {
        left.remove(position);
        if other.bracket == floater.bracket {
            left = left.above(position);
        }
    }
    left
}

/// Whether the floaters behind the first so many can all be put somewhere,
/// when these stand. By Hall's theorem they can, each at a position of its
/// own, exactly when any so many of them have at least so many positions left
/// between them; often each has enough by itself. That they ascend is no
/// matter then: copies of one bracket have the same positions left, so that
/// those which stand the wrong way round can change places.
fn can_all_be_put(floaters: &[Floater], level: usize, placement: &Placement) -> bool {
    let (standing, rest) = floaters.split_at(level);
    let mut left = [Positions::EMPTY; Line::MOST_FLOATERS];
    for (left, floater) in left.iter_mut().zip(rest) {
        *left = left_to(floater, standing, placement);
    }
    if left[..rest.len()].iter().all(|one| one.len() >= rest.len()) {
        return true;
    }
    let mut left_for = [Positions::EMPTY; 1 << Line::MOST_FLOATERS];
    (1_usize..1 << rest.len()).all(|some| {
        let last = some.ilog2() as usize;
        let others = some & !(1 << last);
        left_for[some] = left_for[others].union(left[last]);
        left_for[some].len() >= some.count_ones() as usize
    })
}

/// The allowed placements, ascending, up to a cap, and whether these are all.
pub fn all_placements(floaters: &[Floater], cap: usize) -> (Vec<Placement>, bool) {
    let mut found = Vec::new();
    let complete = extend(floaters, 0, ALL_ZEROS, cap, &mut found);
    (found, complete)
}

/// Adds the allowed placements that begin as this one does, `level` entries
/// long; whether the cap left room for all.
fn extend(
    floaters: &[Floater],
    level: usize,
    mut placement: Placement,
    cap: usize,
    found: &mut Vec<Placement>,
) -> bool {
    let Some(floater) = floaters.get(level) else {
        if found.len() == cap {
            return false;
        }
        found.push(placement);
        return true;
    };
    for position in left_to(floater, &floaters[..level], &placement).iter() {
        placement[level] = position;
        let fits = can_all_be_put(floaters, level + 1, &placement);
        if fits && !extend(floaters, level + 1, placement, cap, found) {
            return false;
        }
    }
    true
}

/// The first allowed placement.
pub fn first_placement(floaters: &[Floater]) -> Option<Placement> {
    can_all_be_put(floaters, 0, &ALL_ZEROS).then(|| fill(floaters, 0, ALL_ZEROS))
}

/// The allowed placement after an allowed one.
pub fn next_placement(floaters: &[Floater], after: &Placement) -> Option<Placement> {
    for level in (0..floaters.len()).rev() {
        let mut placement = ALL_ZEROS;
        placement[..level].copy_from_slice(&after[..level]);
        if let Some(above) = after[level].checked_add(1) {
            if let Some(position) = least_position(floaters, level, &placement, above) {
                placement[level] = position;
                return Some(fill(floaters, level + 1, placement));
            }
        }
    }
    None
}

/// The least placement that begins as this one does, `level` entries long;
/// the floaters left can all be put.
fn fill(floaters: &[Floater], level: usize, mut placement: Placement) -> Placement {
    for level in level..floaters.len() {
        match least_position(floaters, level, &placement, 0) {
            Some(position) => placement[level] = position,
            None => unreachable!("the floaters left can all be put"),
        }
    }
    placement
}

/// The least position at or above one for the floater at this level, so that
/// the floaters behind it can all be put.
fn least_position(
    floaters: &[Floater],
    level: usize,
    placement: &Placement,
    at_or_above: Position,
) -> Option<Position> {
    let left = left_to(&floaters[level], &floaters[..level], placement);
    let mut tried = *placement;
    let fitting = left.starting_at(at_or_above).find(|&position| {
        tried[level] = position;
        can_all_be_put(floaters, level + 1, &tried)
    });
    fitting
}

/// What a search with a budget came to.
#[derive(Clone, Copy, Debug, PartialEq, Eq)]
pub enum Search {
    Found(Placement),
    NoneLeft,
    OutOfBudget,
}

/// The first placement, or the next one after an allowed one, by plain
/// backtracking and nothing else: the reference for the quicker ways. Each
/// position tried takes one from the budget.
pub fn plain_next(floaters: &[Floater], after: Option<&Placement>, budget: u64) -> Search {
    let mut backtracking = Backtracking {
        floaters,
        after: after.copied().unwrap_or(ALL_ZEROS),
        placement: ALL_ZEROS,
        budget,
    };
    let answer = backtracking.descend(0, after.is_none());
    answer.unwrap_or(Search::NoneLeft)
}

struct Backtracking<'f> {
    floaters: &'f [Floater],
    after: Placement,
    placement: Placement,
    budget: u64,
}

impl Backtracking<'_> {
    /// Whether a copy would stand below the copy of its bracket before it.
    fn descends(&self, level: usize, position: Position) -> bool {
        level > 0
            && self.floaters[level - 1].bracket == self.floaters[level].bracket
            && position < self.placement[level - 1]
    }

    /// `above` tells that the entries so far are already above `after`.
    fn descend(&mut self, level: usize, above: bool) -> Option<Search> {
        if level == self.floaters.len() {
            return above.then_some(Search::Found(self.placement));
        }
        let least = if above { 0 } else { self.after[level] };
        let permitted = self.floaters[level].permitted;
        for position in permitted.starting_at(least) {
            if self.budget == 0 {
                return Some(Search::OutOfBudget);
            }
            self.budget -= 1;
            if self.placement[..level].contains(&position) || self.descends(level, position) {
                continue;
            }
            self.placement[level] = position;
            let now_above = above || position > self.after[level];
            let answer = self.descend(level + 1, now_above);
            if answer.is_some() {
                return answer;
            }
        }
        self.placement[level] = 0;
        None
    }
}

/// "The listing in hand is a small record that each request moves on: fresh
/// (marked so, with eight zeros), or unmarked with the placement last handed
/// out, any allowed one being taken as that."
#[derive(Clone, Copy, Debug, PartialEq, Eq)]
pub struct Listing {
    pub fresh: bool,
    pub placement: Placement,
}

impl Listing {
    pub const FRESH: Self = Self {
        fresh: true,
        placement: ALL_ZEROS,
    };

    /// Hands out the next placement and moves on. "At the last placement it
    /// stays there and answers 17; any other content gets 18."
    pub fn request(&mut self, floaters: &[Floater]) -> Result<Placement, Refusal> {
        let next = if self.fresh {
            if self.placement != ALL_ZEROS {
                return Err(Refusal::new(18, 0));
            }
            first_placement(floaters)
        } else {
            if !is_allowed(floaters, &self.placement) {
                return Err(Refusal::new(18, 0));
            }
            next_placement(floaters, &self.placement)
        };
        let placement = next.ok_or(Refusal::new(17, 0))?;
        *self = Self {
            fresh: false,
            placement,
        };
        Ok(placement)
    }
}
