//! When two answers to a coverage query agree: of a triangle only the quotient is laid down.

use reference::coverage::Fraction;
use reference::refusal::Refused;
use reference::shape::Shape;

/// No answer has a larger d.
const LARGEST_D: u64 = 1 << 47;

type Answer = Result<Fraction, Refused>;

pub fn agree(shape: &Shape, found: &Answer, expected: &Answer) -> bool {
    match (shape, found, expected) {
        (Shape::Triangle(_), Ok(found), Ok(expected)) => same_quotient(found, expected),
        _ => found == expected,
    }
}

/// The same of the texts of a row of the queries.
pub fn texts_agree(call: &str, found: &str, expected: &str) -> bool {
    match (parse(found), parse(expected)) {
        (Some(found), Some(expected)) if call.starts_with("triangle ") => {
            same_quotient(&found, &expected)
        }
        _ => found == expected,
    }
}

/// By cross products; what was found also has to have a lawful d.
fn same_quotient(found: &Fraction, expected: &Fraction) -> bool {
    let product = |n: u64, d: u64| u128::from(n) * u128::from(d);
    let equal = product(found.n, expected.d) == product(expected.n, found.d);
    equal && (1..=LARGEST_D).contains(&found.d)
}

/// None of a refusal.
fn parse(text: &str) -> Option<Fraction> {
    let (n, d) = text.split_once(' ')?;
    Some(Fraction {
        n: n.parse().ok()?,
        d: d.parse().ok()?,
    })
}

#[cfg(test)]
mod tests {
    use super::*;

    #[test]
    fn only_quotients_of_triangles_are_compared() {
        let triangle = "triangle 0 0 2 0 0 2 : 1 0";
        assert!(texts_agree(triangle, "1 2", "8 16"));
        assert!(!texts_agree(triangle, "1 3", "8 16"));
        assert!(!texts_agree(triangle, "0 0", "8 16"));
        assert!(!texts_agree(triangle, "refused 7", "8 16"));
        assert!(!texts_agree(triangle, "0 281474976710656", "0 16"));
        assert!(texts_agree(triangle, "refused 7", "refused 7"));
        assert!(!texts_agree("disc 0 0 1 : 0 0", "1 2", "256 512"));
    }
}
