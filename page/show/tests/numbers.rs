//! The numbers of a contract that has no image.

use crate::common;
use isonkaypu::Limit;
use show::numbers;

/// What its image would be refused with; and where document 01 has no number, no line of document 01.
#[test]
fn not_packed() {
    for limit in common::LIMITS {
        let expected = match limit {
            Limit::Unlike => "not packed\n".to_string(),
            limit => format!("image {}\n", limit.number()),
        };
        assert_eq!(common::umlaut(numbers, limit), expected);
    }
}
