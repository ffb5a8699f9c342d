//! Wish 5: Bresenham's published algorithm, in its own signed term, comes to the rows of D, ties
//! included, and what it decides by is what D's division leaves over.

use compare::lines::nearest_row;

/// A row, and the term that decides the next movement.
struct Pen {
    row: i64,
    nabla: i64,
}

/// The pen before each of so many movements, for differences a ≥ b ≥ 0: below zero the next one
/// goes along a alone, else along both.
fn published(a: i64, b: i64, movements: i64) -> Vec<Pen> {
    let (mut row, mut nabla) = (0, 2 * b - a);
    let mut pens = Vec::new();
    for _ in 0..movements {
        pens.push(Pen { row, nabla });
        if nabla < 0 {
            nabla += 2 * b;
        } else {
            row += 1;
            nabla += 2 * b - 2 * a;
        }
    }
    pens
}

#[test]
fn the_published_algorithm_draws_d() {
    for a in 1..=255 {
        for b in 0..=a {
            for (c, pen) in (0..).zip(published(a, b, 2 * a + 1)) {
                assert_eq!(pen.row, nearest_row(c, a, b), "({a}, {b}) at column {c}");
                assert_eq!(-pen.row, nearest_row(c, a, -b), "({a}, -{b}) at column {c}");
                assert_eq!(pen.nabla + 2 * a - 2 * b, (2 * c * b + a) % (2 * a));
            }
        }
    }
}

#[test]
fn a_tie_is_a_term_of_zero() {
    let terms = |a, b| published(a, b, 4).iter().map(|pen| pen.nabla).collect::<Vec<i64>>();
    assert_eq!(terms(2, 1), [0, -2, 0, -2]);
    assert_eq!(terms(5, 3), [1, -3, 3, -1]);
}
