//! Whether a shown walk is one that document 01 asks for ("Routes and figures"), and E2, E4 and E5
//! of document 02.
//!
//! The checker takes the value as said and looks at the walk alone. Whether the value is right is
//! for the calculators to say.

use crate::figure::{Asked, Figure, Quotation, Value};
use crate::plan::{Duration, Plan};

/// What is wrong with a shown walk.
#[derive(Clone, Copy, Debug, PartialEq, Eq)]
pub enum Fault {
    /// ENDLESS or STRANDED of a least figure.
    Kind,
    /// More transitions than there are states.
    Length,
    /// A number that no transition of the plan has.
    NoTransition,
    /// NONE with a walk.
    WalkOfNone,
    /// A j where there is none.
    PlaceSet,
    /// The walk begins at a state that is no start; where it has no transitions, no start alone
    /// is a walk as asked.
    NoStart,
    /// A transition departs elsewhere than the one before arrived.
    Break,
    /// A number without a transition.
    Alone,
    /// A state is visited twice where none may be.
    Twice,
    /// A final state is on the walk between its first and its last state, or as the last of an
    /// unfinished one.
    Finished,
    /// The last state of a route is not final.
    Unanswered,
    /// The route does not come to the number.
    OtherNumber,
    /// A transition leaves the last state of a STRANDED walk.
    NoDeadEnd,
    /// j is below k, and the state after k transitions is not the state after j; or j is above k, or
    /// the walk of ENDLESS has no transitions.
    NoReturn,
    /// j equals k, and the last transition is not open, or the figure is a count.
    NotOpen,
}

/// Looks at the walk shown with what is asked of a plan within the limits.
pub fn check(plan: &Plan, asked: impl Into<Asked>, shown: &Quotation) -> Result<(), Fault> {
    let asked = asked.into();
    let figure = asked.figure;
    let k = shown.walk.len();
    require(k <= plan.states.len(), Fault::Length)?;
    let known = |&number: &usize| number < plan.transitions.len();
    require(shown.walk.iter().all(known), Fault::NoTransition)?;
    require(
        shown.value == Value::Endless || shown.j == 0,
        Fault::PlaceSet,
    )?;
    match shown.value {
        Value::None => require(k == 0, Fault::WalkOfNone),
        Value::Number(number) => {
            require(k > 0, Fault::Alone)?;
            from_some_start(plan, shown, |states| {
                is_route(plan, asked, shown, states, number)
            })
        }
        Value::Stranded => {
            require(!figure.is_least(), Fault::Kind)?;
            from_some_start(plan, shown, |states| is_stranded(plan, states))
        }
        Value::Endless => {
            require(!figure.is_least(), Fault::Kind)?;
            require(k > 0 && shown.j <= k, Fault::NoReturn)?;
            from_some_start(plan, shown, |states| match shown.j < k {
                true => is_loop(plan, states, shown.j),
                false => is_open(plan, figure, shown, states),
            })
        }
    }
}

/// The states of the walk must be as asked. Where it has no transitions it is the walk of a start
/// alone, and one such start as asked is enough.
fn from_some_start(
    plan: &Plan,
    shown: &Quotation,
    is_as_asked: impl Fn(&[usize]) -> Result<(), Fault>,
) -> Result<(), Fault> {
    let Some(&first) = shown.walk.first() else {
        let mut starts = (0..plan.states.len()).filter(|&state| plan.is_start(state));
        let found = starts.any(|state| is_as_asked(&[state]).is_ok());
        return require(found, Fault::NoStart);
    };
    let mut states = vec![plan.transitions[first].from];
    require(plan.is_start(states[0]), Fault::NoStart)?;
    for &number in &shown.walk {
        let transition = plan.transitions[number];
        require(states.last() == Some(&transition.from), Fault::Break)?;
        states.push(transition.to);
    }
    is_as_asked(&states)
}

/// "a route that attains the figure and visits no state twice" (01), but "A shown route may end where
/// it began" (E5). "Its first state may be final, and no state between its first and last may be."
fn is_route(
    plan: &Plan,
    asked: Asked,
    shown: &Quotation,
    states: &[usize],
    number: u32,
) -> Result<(), Fault> {
    let k = shown.walk.len();
    require(all_unfinished(plan, &states[1..k]), Fault::Finished)?;
    require(plan.is_final(states[k]), Fault::Unanswered)?;
    let differ = all_differ(&states[..k]) && all_differ(&states[1..]);
    require(differ, Fault::Twice)?;
    let steps = shown.walk.iter().map(|&number| plan.transitions[number]);
    let attained = match asked.figure {
        Figure::LeastDelay => Some(steps.map(|step| step.low).sum()),
        // No number where one of them is open.
        Figure::GreatestDelay => steps
            .map(|step| match step.longest() {
                Duration::Seconds(seconds) => Some(seconds),
                Duration::Open => None,
            })
            .sum(),
        Figure::LeastCount | Figure::GreatestCount => {
            let counted = states.iter().filter(|&&state| asked.counts(plan, state));
            Some(counted.count() as u32)
        }
    };
    require(attained == Some(number), Fault::OtherNumber)
}

/// "an unfinished walk to a dead end, no state twice", which "may begin at a final start"; "and a start
/// without transitions is a dead end" (E5)
fn is_stranded(plan: &Plan, states: &[usize]) -> Result<(), Fault> {
    require(all_unfinished(plan, &states[1..]), Fault::Finished)?;
    require(all_differ(states), Fault::Twice)?;
    let last = states[states.len() - 1];
    let left = plan.transitions.iter().any(|step| step.from == last);
    require(!left, Fault::NoDeadEnd)
}

/// "an unfinished walk and a place j below k, where the state after k transitions is the state
/// after j, and the first k states differ" (01). It too "may begin at a final start" (E5), which it does
/// not come back to: a loop is of unfinished states.
fn is_loop(plan: &Plan, states: &[usize], j: usize) -> Result<(), Fault> {
    let k = states.len() - 1;
    require(all_unfinished(plan, &states[1..]), Fault::Finished)?;
    require(j < k && states[k] == states[j], Fault::NoReturn)?;
    require(all_differ(&states[..k]), Fault::Twice)
}

/// "A walk shown for that ends with the transition, j equals k, and its first k states still
/// differ." (E2) The transition leaves an unfinished state, or a final start (E5), and may lead to any;
/// the counts "pay no heed to it".
fn is_open(plan: &Plan, figure: Figure, shown: &Quotation, states: &[usize]) -> Result<(), Fault> {
    let k = shown.walk.len();
    require(all_unfinished(plan, &states[1..k]), Fault::Finished)?;
    require(all_differ(&states[..k]), Fault::Twice)?;
    let last = plan.transitions[shown.walk[k - 1]];
    let is_open = figure == Figure::GreatestDelay && last.longest() == Duration::Open;
    require(is_open, Fault::NotOpen)
}

fn all_unfinished(plan: &Plan, states: &[usize]) -> bool {
    states.iter().all(|&state| !plan.is_final(state))
}

fn all_differ(states: &[usize]) -> bool {
    let mut sorted = states.to_vec();
    sorted.sort_unstable();
    sorted.windows(2).all(|pair| pair[0] != pair[1])
}

fn require(condition: bool, fault: Fault) -> Result<(), Fault> {
    if condition {
        Ok(())
    } else {
        Err(fault)
    }
}

#[cfg(test)]
mod tests {
    use super::*;
    use crate::plan::{Transition, MAX_CLOSED_HIGH, OPEN_HIGH};
    use Figure::{GreatestCount, GreatestDelay, LeastCount, LeastDelay};

    /// State 0 is a start, and so are 6, which is final, and 7, both without transitions. State 3 is
    /// final, 4 a dead end; 2 and 3 are counted.
    fn plan() -> Plan {
        let ends = [
            (0, 1), // 0
            (1, 2), // 1
            (2, 3), // 2, to an answer
            (2, 1), // 3, back to where 1 departs
            (1, 4), // 4, to a dead end
            (5, 3), // 5, from a state that is no start
            (1, 1), // 6, a loop
            (3, 2), // 7, on from a final state
            (3, 4), // 8
            (3, 3), // 9
        ];
        let transitions = ends
            .iter()
            .enumerate()
            .map(|(number, &(from, to))| Transition {
                from,
                to,
                low: 1 << number,
                high: 2 << number,
            });
        Plan::of(vec![4, 0, 1, 3, 0, 0, 6, 4], transitions.collect())
    }

    fn verdict(figure: Figure, value: Value, walk: &[usize], j: usize) -> Result<(), Fault> {
        let walk = walk.to_vec();
        check(&plan(), figure, &Quotation { value, walk, j })
    }

    #[test]
    fn walks_as_asked() {
        for (figure, number) in [
            (LeastDelay, 7),
            (GreatestDelay, 14),
            (LeastCount, 2),
            (GreatestCount, 2),
        ] {
            assert_eq!(
                verdict(figure, Value::Number(number), &[0, 1, 2], 0),
                Ok(())
            );
            assert_eq!(verdict(figure, Value::None, &[], 0), Ok(()));
        }
        for figure in [GreatestDelay, GreatestCount] {
            assert_eq!(verdict(figure, Value::Stranded, &[0, 4], 0), Ok(()));
            // State 6 or 7 alone, a start without transitions.
            assert_eq!(verdict(figure, Value::Stranded, &[], 0), Ok(()));
            assert_eq!(verdict(figure, Value::Endless, &[0, 6], 1), Ok(()));
            assert_eq!(verdict(figure, Value::Endless, &[0, 1, 3], 1), Ok(()));
        }
    }

    /// The same plan, in which some transitions are open.
    fn opened(numbers: &[usize]) -> Plan {
        let mut plan = plan();
        for &number in numbers {
            plan.transitions[number].high = OPEN_HIGH;
        }
        plan
    }

    /// Whether j at k is as asked of a walk of a greatest delay, where these are open.
    fn open_verdict(numbers: &[usize], walk: &[usize]) -> Result<(), Fault> {
        let shown = Quotation::of_open(walk.to_vec());
        check(&opened(numbers), GreatestDelay, &shown)
    }

    #[test]
    fn open_walks_as_asked() {
        // To an unfinished state, to a final one, to a dead end, back on the walk, round itself, and
        // from a start at once.
        for walk in [&[0, 1][..], &[0, 1, 2], &[0, 4], &[0, 1, 3], &[0, 6], &[0]] {
            let last = walk[walk.len() - 1];
            assert_eq!(open_verdict(&[last], walk), Ok(()), "{walk:?}");
            assert_eq!(open_verdict(&[0, last], walk), Ok(()), "{walk:?}");
            // A second less.
            let mut plan = opened(&[last]);
            plan.transitions[last].high = MAX_CLOSED_HIGH;
            let shown = Quotation::of_open(walk.to_vec());
            assert_eq!(check(&plan, GreatestDelay, &shown), Err(Fault::NotOpen));
        }
        // A loop is shown with j below k, whatever is open on it.
        let shown = Quotation {
            j: 1,
            ..Quotation::of_open(vec![0, 1, 3])
        };
        for figure in [GreatestDelay, GreatestCount] {
            assert_eq!(check(&opened(&[0, 3]), figure, &shown), Ok(()));
        }
    }

    #[test]
    fn wrong_open_walks() {
        for (numbers, walk, fault) in [
            (&[5][..], &[5][..], Fault::NoStart),
            (&[1], &[1], Fault::NoStart),
            (&[2], &[0, 2], Fault::Break),
            (&[9], &[0, 1, 2, 9], Fault::Finished),
            (&[7], &[0, 1, 2, 7], Fault::Finished),
            (&[2], &[0, 6, 1, 2], Fault::Twice),
            (&[6], &[0, 6, 6], Fault::Twice),
            (&[4], &[0, 1, 3, 4], Fault::Twice),
            (&[], &[0, 1, 2], Fault::NotOpen),
            (&[0, 1], &[0, 1, 2], Fault::NotOpen),
            (&[0, 2], &[0, 1], Fault::NotOpen),
            (&[0], &[], Fault::NoReturn),
        ] {
            let found = open_verdict(numbers, walk);
            assert_eq!(found, Err(fault), "{numbers:?} open: {walk:?}");
        }
        // j beside k, and the other figures.
        let shown = Quotation::of_open(vec![0, 1, 2]);
        let plan = opened(&[2]);
        for j in [0, 1, 2, 4] {
            let found = check(&plan, GreatestDelay, &Quotation { j, ..shown.clone() });
            // State 3, where it arrives, is final.
            let fault = if j < 3 {
                Fault::Finished
            } else {
                Fault::NoReturn
            };
            assert_eq!(found, Err(fault), "@{j}");
        }
        let shown = Quotation::of_open(vec![0, 1]);
        for j in [0, 1, 3] {
            let found = check(
                &opened(&[1]),
                GreatestDelay,
                &Quotation { j, ..shown.clone() },
            );
            assert_eq!(found, Err(Fault::NoReturn), "@{j}");
        }
        let found = check(&opened(&[1]), GreatestCount, &shown);
        assert_eq!(found, Err(Fault::NotOpen));
        for figure in [LeastDelay, LeastCount] {
            let found = check(&opened(&[1]), figure, &shown);
            assert_eq!(found, Err(Fault::Kind));
        }
    }

    /// An open transition on a route: no number is its greatest delay; the others are as they were.
    #[test]
    fn routes_that_take_an_open_transition() {
        let plan = opened(&[1]);
        let verdict = |figure, number| {
            let shown = Quotation::new(Value::Number(number), vec![0, 1, 2]);
            check(&plan, figure, &shown)
        };
        for number in [10, 10 + OPEN_HIGH, OPEN_HIGH] {
            assert_eq!(verdict(GreatestDelay, number), Err(Fault::OtherNumber));
        }
        assert_eq!(verdict(LeastDelay, 7), Ok(()));
        assert_eq!(verdict(LeastCount, 2), Ok(()));
        assert_eq!(verdict(GreatestCount, 2), Ok(()));
    }

    /// A count for a class is of the states of the class, whatever is marked counted.
    #[test]
    fn routes_counted_for_a_class() {
        let mut plan = plan();
        for (state, team) in [(0, 9), (1, 10), (2, 1), (3, 31), (4, 5), (6, 20)] {
            plan.states[state].team = team;
        }
        for (team, number) in [
            (0, 0),
            (1, 2),
            (9, 2),
            (10, 1),
            (19, 1),
            (20, 0),
            (30, 1),
            (31, 1),
        ] {
            for figure in [LeastCount, GreatestCount] {
                let verdict = |number, walk: &[usize]| {
                    let shown = Quotation::new(Value::Number(number), walk.to_vec());
                    check(&plan, figure.for_class_of(team), &shown)
                };
                assert_eq!(verdict(number, &[0, 1, 2]), Ok(()), "{team}");
                let other = verdict(number + 1, &[0, 1, 2]);
                assert_eq!(other, Err(Fault::OtherNumber), "{team}");
                // State 6 alone is no route.
                let alone = u32::from(team == 20);
                assert_eq!(verdict(alone, &[]), Err(Fault::Alone), "{team}");
            }
        }
        // The walks of the other kinds are those of any count.
        for (value, walk, j, expected) in [
            (Value::Stranded, &[0, 4][..], 0, Ok(())),
            (Value::Endless, &[0, 6], 1, Ok(())),
            (Value::Endless, &[0, 6], 2, Err(Fault::NotOpen)),
            (Value::Stranded, &[0, 1], 0, Err(Fault::NoDeadEnd)),
        ] {
            let walk = walk.to_vec();
            let shown = Quotation { value, walk, j };
            let found = check(&plan, GreatestCount.for_class_of(3), &shown);
            assert_eq!(found, expected);
            let found = check(&plan, LeastCount.for_class_of(3), &shown);
            assert_eq!(found, Err(Fault::Kind));
        }
    }

    #[test]
    fn wrong_kinds_places_and_lengths() {
        for figure in [LeastDelay, LeastCount] {
            assert_eq!(
                verdict(figure, Value::Stranded, &[0, 4], 0),
                Err(Fault::Kind)
            );
            assert_eq!(
                verdict(figure, Value::Endless, &[0, 6], 1),
                Err(Fault::Kind)
            );
        }
        let long = [0, 6, 6, 6, 6, 6, 6, 6, 6];
        let found = verdict(GreatestDelay, Value::Endless, &long, 1);
        assert_eq!(found, Err(Fault::Length));
        let found = verdict(LeastDelay, Value::Number(7), &[0, 1, 10], 0);
        assert_eq!(found, Err(Fault::NoTransition));
        assert_eq!(
            verdict(LeastDelay, Value::None, &[0], 0),
            Err(Fault::WalkOfNone)
        );
        for (value, walk) in [
            (Value::None, &[][..]),
            (Value::Number(14), &[0, 1, 2]),
            (Value::Stranded, &[0, 4]),
        ] {
            let found = verdict(GreatestDelay, value, walk, 1);
            assert_eq!(found, Err(Fault::PlaceSet));
        }
    }

    #[test]
    fn wrong_routes() {
        for (number, walk, fault) in [
            (32, &[5][..], Fault::NoStart),
            (6, &[1, 2], Fault::NoStart),
            (5, &[0, 2], Fault::Break),
            (7, &[1, 0, 2], Fault::NoStart),
            (7, &[0, 2, 1], Fault::Break),
            (3, &[0, 1], Fault::Unanswered),
            (17, &[0, 4], Fault::Unanswered),
            (7 + 512, &[0, 1, 2, 9], Fault::Finished),
            (15 + 2, &[0, 1, 3, 1, 2], Fault::Twice),
            (64 + 7, &[0, 6, 1, 2], Fault::Twice),
            (6, &[0, 1, 2], Fault::OtherNumber),
            (8, &[0, 1, 2], Fault::OtherNumber),
            (14, &[0, 1, 2], Fault::OtherNumber),
            (0, &[], Fault::Alone),
            (1, &[], Fault::Alone),
        ] {
            let found = verdict(LeastDelay, Value::Number(number), walk, 0);
            assert_eq!(found, Err(fault), "{number} {walk:?}");
        }
        // The lows for the highs, and a count without its last state.
        let found = verdict(GreatestDelay, Value::Number(7), &[0, 1, 2], 0);
        assert_eq!(found, Err(Fault::OtherNumber));
        for figure in [LeastCount, GreatestCount] {
            let found = verdict(figure, Value::Number(1), &[0, 1, 2], 0);
            assert_eq!(found, Err(Fault::OtherNumber));
        }
    }

    #[test]
    fn wrong_stranded_walks() {
        for (walk, fault) in [
            (&[4][..], Fault::NoStart),
            (&[1, 4], Fault::NoStart),
            (&[0, 1, 4], Fault::Break),
            (&[0, 1], Fault::NoDeadEnd),
            (&[0], Fault::NoDeadEnd),
            (&[0, 1, 2, 8], Fault::Finished),
            (&[0, 1, 2], Fault::Finished),
            (&[0, 6, 4], Fault::Twice),
        ] {
            let found = verdict(GreatestCount, Value::Stranded, walk, 0);
            assert_eq!(found, Err(fault), "{walk:?}");
        }
        // No transitions: a start that is final or one that is not; and where 6 and 7 are no starts, none
        // is without transitions, as 4 never was a start.
        for (marks, expected) in [
            ([6, 0], Ok(())),
            ([2, 4], Ok(())),
            ([2, 0], Err(Fault::NoStart)),
        ] {
            let mut plan = plan();
            for (state, marks) in [6, 7].into_iter().zip(marks) {
                plan.states[state].marks = marks;
            }
            let shown = Quotation::new(Value::Stranded, Vec::new());
            assert_eq!(check(&plan, GreatestDelay, &shown), expected);
        }
    }

    #[test]
    fn wrong_endless_walks() {
        for (walk, j, fault) in [
            (&[6][..], 0, Fault::NoStart),
            (&[0, 3], 0, Fault::Break),
            (&[0, 6], 0, Fault::NoReturn),
            (&[0, 6], 2, Fault::NotOpen),
            (&[0, 6], 3, Fault::NoReturn),
            (&[0, 1, 3], 0, Fault::NoReturn),
            (&[0, 1, 3], 2, Fault::NoReturn),
            (&[0, 1, 3], 3, Fault::NotOpen),
            (&[0, 1, 3], 4, Fault::NoReturn),
            (&[0, 1], 0, Fault::NoReturn),
            (&[], 0, Fault::NoReturn),
            (&[0, 6, 6], 1, Fault::Twice),
            (&[0, 6, 1, 3], 1, Fault::Twice),
            (&[0, 1, 2, 9], 3, Fault::Finished),
            (&[0, 1, 2, 7], 2, Fault::Finished),
        ] {
            let found = verdict(GreatestDelay, Value::Endless, walk, j);
            assert_eq!(found, Err(fault), "{walk:?} @{j}");
        }
    }

    /// Calls that begin answered (E5): state 0 is start, final and counted, state 3 final and counted,
    /// 4 a dead end, and 5 a start.
    fn answered() -> Plan {
        let ends = [
            (0, 0), // 0
            (0, 1), // 1
            (1, 2), // 2
            (2, 0), // 3, back to the start
            (2, 3), // 4, to another answer
            (2, 1), // 5, back on the walk
            (1, 4), // 6, to a dead end
            (0, 3), // 7
            (3, 1), // 8, on from a final state that is no start
            (5, 0), // 9, to the final start
        ];
        let steps = ends
            .iter()
            .zip(0..)
            .map(|(&(from, to), number)| Transition {
                from,
                to,
                low: 1 << number,
                high: 2 << number,
            });
        Plan::of(vec![7, 0, 1, 3, 0, 4], steps.collect())
    }

    fn answered_verdict(
        figure: Figure,
        value: Value,
        walk: &[usize],
        j: usize,
    ) -> Result<(), Fault> {
        let walk = walk.to_vec();
        check(&answered(), figure, &Quotation { value, walk, j })
    }

    #[test]
    fn walks_that_begin_answered() {
        // Round itself, round two unfinished states, to another answer at once and later: the first state
        // counts, and the last one too where it is the first.
        for (walk, low, count) in [
            (&[0][..], 1, 2),
            (&[1, 2, 3], 2 + 4 + 8, 3),
            (&[7], 128, 2),
            (&[1, 2, 4], 2 + 4 + 16, 3),
            (&[9], 512, 1),
        ] {
            for (figure, number) in [
                (LeastDelay, low),
                (GreatestDelay, 2 * low),
                (LeastCount, count),
                (GreatestCount, count),
            ] {
                let verdict = |number| answered_verdict(figure, Value::Number(number), walk, 0);
                assert_eq!(verdict(number), Ok(()), "{walk:?}");
                for other in [number - 1, number + 1] {
                    assert_eq!(verdict(other), Err(Fault::OtherNumber), "{walk:?}");
                }
            }
        }
        for figure in [GreatestDelay, GreatestCount] {
            let verdict = |value, walk: &[usize], j| answered_verdict(figure, value, walk, j);
            assert_eq!(verdict(Value::Stranded, &[1, 6], 0), Ok(()));
            assert_eq!(verdict(Value::Endless, &[1, 2, 5], 1), Ok(()));
        }
    }

    #[test]
    fn wrong_walks_that_begin_answered() {
        // Routes through a final state: the start itself, and another one.
        for (walk, number) in [
            (&[0, 0][..], 2),
            (&[0, 7], 129),
            (&[9, 0], 513),
            (&[1, 2, 3, 7], 142),
            (&[7, 8, 2, 3], 396),
        ] {
            let found = answered_verdict(LeastDelay, Value::Number(number), walk, 0);
            assert_eq!(found, Err(Fault::Finished), "{walk:?}");
        }
        for (value, walk, j, fault) in [
            (Value::Number(0), &[][..], 0, Fault::Alone),
            // An unfinished state twice, a route that ends at none, and one from a state that is no start.
            (Value::Number(46), &[1, 2, 5, 2, 3], 0, Fault::Twice),
            (Value::Number(6), &[1, 2], 0, Fault::Unanswered),
            (Value::Number(256 + 4 + 8), &[8, 2, 3], 0, Fault::NoStart),
            // Every start has a transition.
            (Value::Stranded, &[], 0, Fault::NoStart),
            (Value::Stranded, &[0, 1, 6], 0, Fault::Finished),
            (Value::Stranded, &[9, 1, 6], 0, Fault::Finished),
            (Value::Stranded, &[7], 0, Fault::Finished),
            (Value::Stranded, &[0], 0, Fault::Finished),
            (Value::Stranded, &[1, 2, 5, 6], 0, Fault::Twice),
            // A walk back to the final start is a route, and no loop.
            (Value::Endless, &[0], 0, Fault::Finished),
            (Value::Endless, &[1, 2, 3], 0, Fault::Finished),
            (Value::Endless, &[9, 0], 1, Fault::Finished),
            (Value::Endless, &[1, 2, 5], 0, Fault::NoReturn),
            (Value::Endless, &[9, 1, 2, 5], 2, Fault::Finished),
        ] {
            let found = answered_verdict(GreatestDelay, value, walk, j);
            assert_eq!(found, Err(fault), "{value:?} {walk:?} @{j}");
        }
    }

    #[test]
    fn open_walks_that_begin_answered() {
        let verdict = |open: &[usize], walk: &[usize]| {
            let mut plan = answered();
            for &number in open {
                plan.transitions[number].high = OPEN_HIGH;
            }
            check(&plan, GreatestDelay, &Quotation::of_open(walk.to_vec()))
        };
        // Out of the final start at once, to itself, to an unfinished state and to an answer; and later.
        for walk in [&[0][..], &[1], &[7], &[1, 2], &[1, 2, 3], &[1, 6], &[9]] {
            let last = walk[walk.len() - 1];
            assert_eq!(verdict(&[last], walk), Ok(()), "{walk:?}");
            assert_eq!(verdict(&[], walk), Err(Fault::NotOpen), "{walk:?}");
        }
        for (open, walk, fault) in [
            (8, &[7, 8][..], Fault::Finished),
            (1, &[9, 1], Fault::Finished),
            (0, &[0, 0], Fault::Finished),
            (6, &[1, 2, 5, 6], Fault::Twice),
            (8, &[8], Fault::NoStart),
        ] {
            assert_eq!(verdict(&[open], walk), Err(fault), "{walk:?}");
        }
    }
}
