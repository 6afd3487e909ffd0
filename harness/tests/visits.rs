//! The counted visits, on a run whose store is easily followed by hand.

use yarnspire::grammar::{Grammar, Node};
use yarnspire::visits::{visits, Visits};

/// Every pattern is one byte. In a scope of table 0: `a` for table 1, `b` for table 0, `c` for table 1. Then no symbol of table 0 is left, `a` is one
/// of table 1, and `c` the latest of table 1.
fn scoped() -> Grammar {
    let nodes = vec![
        Node::Any,
        Node::Def(0),
        Node::Def(1),
        Node::Sequence(1, 2),
        Node::Sequence(2, 3),
        Node::Block(0, 4),
        Node::Exists(0),
        Node::Not(6),
        Node::Isa(1),
        Node::Is(1),
        Node::Sequence(8, 9),
        Node::Sequence(7, 10),
        Node::Sequence(5, 11),
    ];
    Grammar { conditions: 0, start: 12, patterns: vec![0, 0], nodes }
}

#[test]
fn each_look_is_counted_for_what_it_is() {
    let counted = visits(&scoped().encode(), b"abcac");
    // The scope closes over a, b and c: b goes, a stays where it is, and c moves. Exists looks at c and a in vain; Isa finds c, so its list is not
    // empty, and goes from c to a; Is finds c.
    let by_hand = Visits { searches: 3, sought: 2 + 1 + 1, walks: 1, compared: 2, closings: 1, closed: 3, moved: 2, moved_nowhere: 1 };
    assert_eq!(counted, by_hand);
    assert_eq!(counted.all(), 9);
}
