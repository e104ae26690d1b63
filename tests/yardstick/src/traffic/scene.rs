use crate::random::Random;

/// What a list of messages is mostly about.
#[derive(Clone, Copy, Debug, PartialEq, Eq)]
pub enum Scene {
    /// Few ports, which are joined, driven and pulled apart.
    Pairs,
    /// More ports than places.
    Crowd,
    /// Few ports, which are set up and send values.
    Values,
    /// Few ports, which are asked again and again, some of it in vain, and are pulled and attached again.
    Experiments,
    /// Few ports, which are combined and made single again, and whose lists are replaced.
    Combined,
    /// All of it.
    Mixed,
}

/// The sorts of messages in a list.
#[derive(Clone, Copy)]
pub(super) enum Sort {
    Attach,
    AttachVirtual,
    Detach,
    Format,
    Ask,
    RefusedAsk,
    Answer,
    Value,
    Setup,
    Command,
    Feedback,
    List,
    RefusedList,
    CombinedSetup,
    CombinedAnswer,
    CombinedValue,
    Information,
    Notice,
    Any,
}

impl Scene {
    /// Every scene.
    pub const ALL: [Scene; 6] = [
        Scene::Pairs,
        Scene::Crowd,
        Scene::Values,
        Scene::Experiments,
        Scene::Combined,
        Scene::Mixed,
    ];

    /// How many ports the messages name, as a rule.
    pub(super) fn ports(self) -> usize {
        match self {
            Scene::Pairs => 6,
            Scene::Crowd => 22,
            Scene::Values | Scene::Experiments => 3,
            Scene::Combined => 2,
            Scene::Mixed => 10,
        }
    }

    /// The sort of the next message.
    pub(super) fn sort(self, random: &mut Random) -> Sort {
        let shares = self.shares();
        let mut number = random.below(shares.iter().map(|&(_, share)| share).sum());
        for (sort, share) in shares {
            if number < share {
                return sort;
            }
            number -= share;
        }
        unreachable!("the number is below the sum of the shares")
    }

    /// How often each sort comes.
    fn shares(self) -> [(Sort, usize); 19] {
        use Sort::*;
        let shares = match self {
            Scene::Pairs => [30, 30, 12, 6, 6, 1, 6, 14, 12, 16, 8, 1, 0, 1, 1, 1, 4, 1, 4],
            Scene::Crowd => [60, 16, 8, 4, 4, 1, 4, 8, 6, 6, 4, 1, 0, 0, 1, 1, 4, 0, 4],
            Scene::Values => [8, 2, 1, 20, 16, 2, 20, 60, 2, 4, 2, 1, 0, 0, 1, 2, 4, 0, 4],
            Scene::Experiments => [16, 3, 5, 24, 24, 12, 24, 50, 1, 4, 2, 8, 4, 2, 6, 10, 8, 1, 2],
            Scene::Combined => [24, 1, 4, 30, 8, 1, 8, 8, 1, 1, 1, 18, 3, 3, 26, 56, 3, 0, 3],
            Scene::Mixed => [20, 12, 6, 16, 14, 3, 16, 40, 8, 10, 6, 6, 1, 2, 8, 16, 8, 1, 8],
        };
        let sorts = [
            Attach,
            AttachVirtual,
            Detach,
            Format,
            Ask,
            RefusedAsk,
            Answer,
            Value,
            Setup,
            Command,
            Feedback,
            List,
            RefusedList,
            CombinedSetup,
            CombinedAnswer,
            CombinedValue,
            Information,
            Notice,
            Any,
        ];
        std::array::from_fn(|index| (sorts[index], shares[index]))
    }
}
