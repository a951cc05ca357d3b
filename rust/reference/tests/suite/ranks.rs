//! Ranks, levels, passes and replies in small books, each worked out by hand,
//! and the misreadings that the scope lists.

use shelf_reference::{shelf, shelf_by_deck};

/// Asserts the printed lines, by both ways of settling the book.
#[track_caller]
fn prints(book: &str, printed: &[&str]) {
    let found = shelf(book.as_bytes());
    assert_eq!(found.lines().collect::<Vec<_>>(), printed);
    assert_eq!(shelf_by_deck(book.as_bytes()), found);
    assert!(found.ends_with('\n'));
}

/// The last level has no rules at all: what contradicts every rule, but no
/// strict line, has the rank `levels`, not infinite.
#[test]
fn a_rank_may_equal_the_levels() {
    prints(
        "U a b\nS & b c -\nQ & a c d\nQ & a c c\n",
        &[
            "1 U 0",
            "2 S",
            "3 Q no 1",
            "4 Q yes 1",
            "levels 1 passes 1 yes 1",
        ],
    );
}

/// With no usual rule every description that can be has rank 0.
#[test]
fn without_rules_ranks_are_0_or_infinite() {
    prints(
        "S a -\nQ a b\nQ b a\nQ /r a b\nQ /r b b\nQ - a\nQ * a\n",
        &[
            "1 S",
            "2 Q yes oo",
            "3 Q no 0",
            "4 Q yes oo",
            "5 Q no 0",
            "6 Q yes oo",
            "7 Q no 0",
            "levels 0 passes 1 yes 3",
        ],
    );
}

/// A rule that contradicts itself is stuck at once: its left is nothing, and
/// with it all that is within its left or has some of it by a role.
#[test]
fn a_stuck_left_is_nothing_for_all_questions() {
    prints(
        "U a -\nS b a\nQ a c\nQ b c\nQ /r b c\nQ c a\nK a -\nK b a\n",
        &[
            "1 U oo",
            "2 S",
            "3 Q yes oo",
            "4 Q yes oo",
            "5 Q yes oo",
            "6 Q no 0",
            "7 K no",
            "8 K yes",
            "levels 0 passes 2 yes 4",
        ],
    );
}

/// Two rules that only together contradict each other are both stuck, since
/// each left is exceptional for the two of them at every level.
#[test]
fn two_rules_of_one_left_fall_together() {
    prints(
        "U a b\nU a c\nS & b c -\nQ a d\n",
        &[
            "1 U oo",
            "2 U oo",
            "3 S",
            "4 Q yes oo",
            "levels 0 passes 2 yes 1",
        ],
    );
}

/// A rule written twice is settled as if it were written once.
#[test]
fn a_rule_written_twice_changes_nothing() {
    prints(
        "U a b\nU a b\nS c a\nS & b d -\nU c d\nU c d\nQ c d\nQ c b\n",
        &[
            "1 U 0",
            "2 U 0",
            "3 S",
            "4 S",
            "5 U 1",
            "6 U 1",
            "7 Q yes 1",
            "8 Q no 1",
            "levels 2 passes 1 yes 1",
        ],
    );
}

/// Rules about everything hold for whatever doesn't contradict them, but not
/// for a role's target.
#[test]
fn a_rule_about_everything_stops_at_a_role() {
    prints(
        "U * a\nS b /r c\nQ b a\nQ b /r a\nQ b /r & c a\nQ /r * a\n",
        &[
            "1 U 0",
            "2 S",
            "3 Q yes 0",
            "4 Q no 0",
            "5 Q no 0",
            "6 Q yes 0",
            "levels 1 passes 1 yes 2",
        ],
    );
}

/// A rule about everything that can't hold of anything leaves no model at all.
#[test]
fn a_rule_about_everything_can_leave_no_model() {
    prints(
        "U * -\nQ a b\nK a b\n",
        &["1 U oo", "2 Q yes oo", "3 K no", "levels 0 passes 2 yes 1"],
    );
}

/// A usual rule may lead into a role, and strict lines go on from there.
#[test]
fn a_usual_edge_and_strict_lines_behind_it() {
    prints(
        "U a /r b\nS b c\nS /r c d\nQ a d\nQ a /r & b c\nK a d\nK /r b d\n",
        &[
            "1 U 0",
            "2 S",
            "3 S",
            "4 Q yes 0",
            "5 Q yes 0",
            "6 K no",
            "7 K yes",
            "levels 1 passes 1 yes 3",
        ],
    );
}

/// A cycle through a role is a finite model like any other.
#[test]
fn a_cycle_through_a_role() {
    prints(
        "S a /r a\nS /r a b\nK a b\nK a /r b\nK a /r /r /r & a b\nK b a\n",
        &[
            "1 S",
            "2 S",
            "3 K yes",
            "4 K yes",
            "5 K yes",
            "6 K no",
            "levels 0 passes 1 yes 3",
        ],
    );
}

/// What is impossible far behind a cycle of roles is impossible here.
#[test]
fn nothing_comes_back_along_roles() {
    prints(
        "S a /r b\nS b /s c\nS c /r & d e\nS & d e -\nK a -\nQ a d\n",
        &[
            "1 S",
            "2 S",
            "3 S",
            "4 S",
            "5 K yes",
            "6 Q yes oo",
            "levels 0 passes 1 yes 2",
        ],
    );
}

/// Trait words and role words are separate lists.
#[test]
fn a_word_may_be_a_name_and_a_role() {
    prints(
        "S a /a b\nK a b\nK a /a b\nK a /b b\n",
        &[
            "1 S",
            "2 K no",
            "3 K yes",
            "4 K no",
            "levels 0 passes 1 yes 1",
        ],
    );
}

/// One pass only would give x rank 0 in P8.
#[test]
fn misreading_one_pass() {
    let printed = shelf(b"U a b\nU a c\nS & b c -\nS x /r a\nU x y\n");
    assert!(printed.contains("5 U oo\n"));
}

/// T grows by the stuck set of every pass: a's rule is stuck in the first, and
/// b's only in the second, once a is nothing. A reading that grows T by the
/// first stuck set alone gives b rank 0.
#[test]
fn misreading_the_first_stuck_set_alone() {
    prints(
        "U a -\nU b /r a\nQ b c\n",
        &["1 U oo", "2 U oo", "3 Q yes oo", "levels 0 passes 3 yes 1"],
    );
}

/// Usual rules applied to a role's target would say yes in P9.
#[test]
fn misreading_rules_at_a_target() {
    let book = b"U stick rare\nS shmup /needs stick\nS /needs rare gem\nQ shmup gem\n";
    assert!(shelf(book).contains("4 Q no 0\n"));
}

/// An infinite rank read as no would say no in P5.
#[test]
fn misreading_infinite_as_no() {
    assert!(shelf(b"S * -\nQ a b\n").contains("2 Q yes oo\n"));
}

/// A clone would keep `art` although its layer gave way (P1, line 8).
#[test]
fn misreading_a_layer_that_gave_way() {
    let book =
        b"S clone set\nS & shown hidden -\nU set shown\nU set art\nU clone hidden\nQ clone art\n";
    assert!(shelf(book).contains("6 Q no 1\n"));
}
