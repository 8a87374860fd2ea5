//! The uses of a lot in words: every `burns` clause and every statement that counts for it, from the library's
//! reasons. Nothing here counts anything itself.

use crate::Mark;
use crate::facts::Facts;
use crate::lots::clauses;
use isonkaypu::Reason;
use words::Entry;

/// One use of a lot.
#[derive(Clone, Debug, PartialEq)]
#[non_exhaustive]
pub struct Use {
    /// The name in a `burns` clause, or the lot's name in a statement.
    pub place: Mark,
    /// The call or the assignment that takes the lot; a clause has none.
    pub consumer: Option<Mark>,
}

/// Every use in the library's order. The clauses come before the statements, so with a clause the first use in
/// the statements is the second of all. What a place is, and its label with the contract's names, is for
/// `mark` to say.
pub fn uses(facts: Facts, reasons: &[Reason], words: &Entry, mark: impl Fn(usize, &str) -> Mark) -> Vec<Use> {
    let clause = match (clauses(reasons).count(), reasons) {
        (2.., _) => &words.clauses,
        (_, [_]) => &words.only,
        _ => &words.clause,
    };
    let one = |(i, reason): (usize, &Reason)| {
        let node = reason.place().node;
        let Some(consumer) = reason.consumer().map(|consumer| consumer.node) else {
            return Use { place: mark(node, clause), consumer: None };
        };
        let taker = facts.taker(consumer);
        let label = [&words.first, &words.there].get(i).copied().unwrap_or(&words.more);
        let place = mark(node, &label.replace("{taker}", &taker));
        Use { place, consumer: Some(Mark { listed: false, ..mark(consumer, &taker) }) }
    };
    reasons.iter().enumerate().map(one).collect()
}

/// Their places in the order of the text, each once: a clause that burns two lots of one name is one place.
pub fn places(uses: &[Use]) -> Vec<Mark> {
    let mut places: Vec<Mark> = uses.iter().map(|one| one.place.clone()).collect();
    places.sort_by_key(|place| place.node);
    places.dedup_by_key(|place| place.node);
    places
}
