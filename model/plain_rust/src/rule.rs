//! Failure rules. A set of boards is a number to which board i adds 2 to the power i.

pub const MOST_BOARDS: usize = 16;
pub const MOST_SETS: usize = 8;

pub struct Rule {
    everyone: u16,
    family: Family,
}

enum Family {
    /// Every set of at most so many boards of the crew.
    Count(u32),
    /// The empty set and each part of one of the first so many sets.
    Listed([u16; MOST_SETS], usize),
}

/// The crew as a set.
fn everyone(crew: usize) -> u16 {
    u16::MAX >> (MOST_BOARDS - crew)
}

impl Rule {
    /// The count rule of a crew of 1 to 16, or `None` where `cover` sets can hold the crew.
    pub fn count(crew: usize, cover: u32, most: u16) -> Option<Rule> {
        let most = u32::from(most);
        let family = Family::Count(most);
        (cover * most < crew as u32).then_some(Rule {
            everyone: everyone(crew),
            family,
        })
    }

    /// Whether a listed set has a board outside the crew.
    pub fn outside(crew: usize, sets: &[u16]) -> bool {
        sets.iter().any(|set| set & !everyone(crew) != 0)
    }

    /// The listed rule of a crew of 1 to 16, or `None` where `cover` sets can hold the crew.
    pub fn listed(crew: usize, cover: u32, sets: [u16; MOST_SETS], count: usize) -> Option<Rule> {
        let everyone = everyone(crew);
        let family = Family::Listed(sets, count);
        (!can_hold(everyone, cover, &sets[..count])).then_some(Rule { everyone, family })
    }

    pub fn may_fail(&self, boards: u16) -> bool {
        match &self.family {
            Family::Count(most) => boards & !self.everyone == 0 && boards.count_ones() <= *most,
            Family::Listed(sets, count) => {
                boards == 0 || sets[..*count].iter().any(|set| boards & !set == 0)
            }
        }
    }

    pub fn strong(&self, boards: u16) -> bool {
        !self.may_fail(boards)
    }

    pub fn ample(&self, boards: u16) -> bool {
        self.may_fail(self.everyone & !boards)
    }
}

/// Whether `choices` of the sets, repeats allowed, hold these boards between them.
fn can_hold(boards: u16, choices: u32, sets: &[u16]) -> bool {
    boards == 0
        || choices > 0
            && sets
                .iter()
                .any(|set| can_hold(boards & !set, choices - 1, sets))
}
