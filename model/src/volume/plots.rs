//! The ways in which a rule-breaker's LOGs of one view can be told: which story, to whom, at which beat of the window.
use crate::rolls::random::Random;

#[derive(Clone, Copy, PartialEq, Eq, Debug)]
pub enum Plot {
    /// One vote, to everyone, in time.
    Joins,
    /// A vote for a log of nobody, in time: it draws the common log back.
    DrawsBack,
    /// One log to one camp and another to the other, in one beat.
    TwoCamps,
    /// One log to everyone in time; the second story to some at the last beats of the window.
    LateSecond,
    /// A vote withheld until snapshot one is taken.
    AfterSnapshot,
    /// A vote that some alone have in their snapshot one, the second story to everyone a beat later.
    OneSnapshot,
    /// Any stories to anyone at any beats of the window.
    Any,
    Silent,
}

pub const PLOTS: [Plot; 8] = [
    Plot::Joins,
    Plot::DrawsBack,
    Plot::TwoCamps,
    Plot::LateSecond,
    Plot::AfterSnapshot,
    Plot::OneSnapshot,
    Plot::Any,
    Plot::Silent,
];

#[derive(Clone, Copy, PartialEq, Eq, Debug)]
pub enum Whom {
    Everyone,
    FirstCamp,
    SecondCamp,
    /// One bench or one camp, chosen among those that gather then.
    Victims,
}

#[derive(Clone, Copy, PartialEq, Eq, Debug)]
pub enum Story {
    One,
    Other,
    /// A log that no rule-keeper voted for.
    OfNobody,
}

/// One story told at beat 4v + offset.
pub struct Step {
    pub offset: u32,
    pub whom: Whom,
    pub story: Story,
}

fn step(offset: usize, whom: Whom, story: Story) -> Step {
    Step {
        offset: offset as u32,
        whom,
        story,
    }
}

/// The steps of a plot, its free beats drawn at random.
pub fn steps(plot: Plot, random: &mut Random) -> Vec<Step> {
    match plot {
        Plot::Joins => vec![step(2, Whom::Everyone, Story::One)],
        Plot::DrawsBack => vec![step(2, Whom::Everyone, Story::OfNobody)],
        Plot::TwoCamps => {
            let offset = 2 + random.below(4);
            vec![
                step(offset, Whom::FirstCamp, Story::One),
                step(offset, Whom::SecondCamp, Story::Other),
            ]
        }
        Plot::LateSecond => {
            let (first, second) = (2 + random.below(2), 5 + random.below(2));
            vec![
                step(first, Whom::Everyone, Story::One),
                step(second, Whom::Victims, Story::Other),
            ]
        }
        Plot::AfterSnapshot => {
            let whom = random.pick(&[Whom::Everyone, Whom::Victims]);
            vec![step(3 + random.below(2), whom, Story::One)]
        }
        Plot::OneSnapshot => vec![step(2, Whom::Victims, Story::One), step(3, Whom::Everyone, Story::Other)],
        Plot::Any => (0..1 + random.below(3)).map(|_| any_step(random)).collect(),
        Plot::Silent => vec![],
    }
}

fn any_step(random: &mut Random) -> Step {
    let whom = random.pick(&[
        Whom::Everyone,
        Whom::FirstCamp,
        Whom::SecondCamp,
        Whom::Victims,
        Whom::Victims,
    ]);
    step(
        1 + random.below(6),
        whom,
        random.pick(&[Story::One, Story::Other, Story::OfNobody]),
    )
}
