//! How often each kind came up in a run, by figure, and each way in which a shown walk begins
//! answered. For the tests.

use crate::figure::{values, Figure, Quotation, Value, FIGURES};
use crate::plan::Plan;
use crate::rng::print;

/// The kinds by their numbers in the record.
const NAMES: [&str; 4] = ["number", "NONE", "STRANDED", "ENDLESS"];

/// What a shown walk is that begins at a final start (document 02, E5): a route to another state or
/// back to the first, a walk to a dead end, of no transitions or of some, a loop, or a walk that takes
/// an open transition.
const WAYS: [&str; 6] = ["on", "back", "alone", "stranded", "loop", "open"];

#[derive(Default)]
pub struct Kinds {
    /// By figure, then by kind.
    counts: [[u64; 4]; 4],
    /// By the kind of the greatest delay, then by that of the greatest count.
    greatest: [[u64; 4]; 4],
    /// By figure, then by the way in which its walk begins answered.
    answered: [[u64; 6]; 4],
}

impl Kinds {
    /// Adds the quotations of a plan.
    pub fn add(&mut self, plan: &Plan, quotations: &[Quotation; 4]) {
        let kinds = values(quotations).map(|value| value.kind() as usize);
        for (counts, kind) in self.counts.iter_mut().zip(kinds) {
            counts[kind] += 1;
        }
        self.greatest[kinds[1]][kinds[3]] += 1;
        for (counts, quotation) in self.answered.iter_mut().zip(quotations) {
            if let Some(way) = way(plan, quotation) {
                let place = WAYS.iter().position(|&name| name == way);
                counts[place.expect("it is one of them")] += 1;
            }
        }
    }

    pub fn add_all(&mut self, other: &Kinds) {
        add_up(&mut self.counts, &other.counts);
        add_up(&mut self.greatest, &other.greatest);
        add_up(&mut self.answered, &other.answered);
    }

    pub fn plans(&self) -> u64 {
        self.counts[0].iter().sum()
    }

    /// Prints the counts under a title.
    pub fn print(&self, title: &str) {
        let mut text = format!("{title}\n");
        for (figure, counts) in FIGURES.iter().zip(&self.counts) {
            text += &row(figure.name(), &NAMES, counts);
        }
        let [.., beside_endless] = &self.greatest;
        text += &row("count beside ENDLESS", &NAMES, beside_endless);
        for (figure, counts) in FIGURES.iter().zip(&self.answered) {
            text += &row(&format!("{}, answered", figure.name()), &WAYS, counts);
        }
        print(&text);
    }

    /// Prints how often each kind came up for the greatest delay, and for the greatest count where
    /// it is another.
    pub fn print_greatest(&self, title: &str) {
        let mut text = format!("  {title:24}");
        for (delay, counts) in self.greatest.iter().enumerate() {
            for (count, &plans) in counts.iter().enumerate() {
                if delay == count {
                    text += &format!(" {}: {plans},", NAMES[delay]);
                } else if plans > 0 {
                    text += &format!(" {} and {}: {plans},", NAMES[delay], NAMES[count]);
                }
            }
        }
        print(&format!("{}\n", text.trim_end_matches(',')));
    }

    /// Asserts that every kind that a figure can have came up, and no other; every pair of kinds of
    /// the greatest figures, which differ by an open transition alone: it makes the delay ENDLESS
    /// beside a count that is a number or STRANDED; and every way in which a figure's walk can begin
    /// answered.
    pub fn assert_covers(&self) {
        for (figure, counts) in FIGURES.iter().zip(&self.counts) {
            for (name, &count) in NAMES.iter().zip(counts) {
                let can_be = !figure.is_least() || matches!(*name, "number" | "NONE");
                assert_eq!(count > 0, can_be, "{} {name}", figure.name());
            }
        }
        for (delay, counts) in NAMES.into_iter().zip(&self.greatest) {
            for (count, &plans) in NAMES.into_iter().zip(counts) {
                let can_be = delay == count
                    || matches!(
                        (delay, count),
                        ("ENDLESS", "number") | ("ENDLESS", "STRANDED")
                    );
                assert_eq!(plans > 0, can_be, "greatest delay {delay}, count {count}");
            }
        }
        for (figure, counts) in FIGURES.into_iter().zip(&self.answered) {
            for (name, &count) in WAYS.into_iter().zip(counts) {
                let can_be = match name {
                    "on" | "back" => true,
                    "open" => figure == Figure::GreatestDelay,
                    _ => !figure.is_least(),
                };
                let figure = figure.name();
                assert_eq!(count > 0, can_be, "{figure} begun answered: {name}");
            }
        }
    }
}

/// The way in which a shown walk begins answered, if it does. Of no transitions, it does where every
/// start without transitions is final.
fn way(plan: &Plan, shown: &Quotation) -> Option<&'static str> {
    let (Some(&first), Some(&last)) = (shown.walk.first(), shown.walk.last()) else {
        let is_alone = |&state: &usize| plan.is_start(state) && !plan.is_left(state);
        let mut alone = (0..plan.states.len()).filter(is_alone);
        let all_final = alone.all(|state| plan.is_final(state));
        return (shown.value == Value::Stranded && all_final).then_some("alone");
    };
    let (start, end) = (plan.transitions[first].from, plan.transitions[last].to);
    if !plan.is_final(start) {
        return None;
    }
    Some(match shown.value {
        Value::Number(_) if end == start => "back",
        Value::Number(_) => "on",
        Value::Stranded => "stranded",
        _ if shown.j < shown.walk.len() => "loop",
        _ => "open",
    })
}

fn add_up<const N: usize>(counts: &mut [[u64; N]; 4], more: &[[u64; N]; 4]) {
    for (count, more) in counts.iter_mut().flatten().zip(more.iter().flatten()) {
        *count += more;
    }
}

fn row(title: &str, names: &[&str], counts: &[u64]) -> String {
    let counts = names.iter().zip(counts);
    let counts = counts.map(|(name, count)| format!(" {name}: {count}"));
    format!("  {title:24}{}\n", counts.collect::<Vec<_>>().join(","))
}
