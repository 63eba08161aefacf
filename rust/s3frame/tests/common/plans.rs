//! Plans as the calls take them, right or wrong.
use super::Random;
use reference::plan::{plan, Group};
use s3frame::{Plan, MOST_GROUPS};

/// Modulation, rate and slots of a group.
pub type Three = [u16; 3];

/// A plan's count, its groups, and what stands in the places behind them.
#[derive(Clone, Debug)]
pub struct Handed {
    pub count: u16,
    pub groups: Vec<Three>,
    behind: [Three; MOST_GROUPS],
}

/// The groups of a plan by their numbers.
pub fn threes(plan: &Plan) -> Vec<Three> {
    plan.groups().map(|group| [group.modulation as u16, group.rate as u16, group.slots]).collect()
}

/// The same as the second implementation has them.
pub fn groups_of(threes: &[Three]) -> Vec<Group> {
    let group = |three: &Three| (three[0].into(), three[1].into(), three[2].into());
    plan(&threes.iter().map(group).collect::<Vec<_>>())
}

impl Handed {
    /// A plan with numbers of chance behind its groups: any, those of groups, or zeros.
    pub fn new(random: &mut Random, plan: &Plan) -> Handed {
        let groups = threes(plan);
        let behind = match random.below(3) {
            0 => [[0; 3]; MOST_GROUPS],
            1 => [groups[0]; MOST_GROUPS],
            _ => [(); MOST_GROUPS].map(|()| [(); 3].map(|()| random.next() as u16)),
        };
        Handed { count: groups.len() as u16, groups, behind }
    }

    /// What stands in each place of a group, whatever the count.
    pub fn places(&self) -> [Three; MOST_GROUPS] {
        let mut places = self.behind;
        places[..self.groups.len()].copy_from_slice(&self.groups);
        places
    }

    /// The plan as the second implementation has it: more groups than there are places for are nine.
    pub fn twin(&self) -> Vec<Group> {
        let count = usize::from(self.count).min(MOST_GROUPS + 1);
        groups_of(&self.places().into_iter().cycle().take(count).collect::<Vec<_>>())
    }
}
