//! Why the engine can be trusted: every "no" comes with a model that shows
//! it, and no small interpretation contradicts any "yes".

use crate::common::definition::define;
use crate::common::tiny::Signature;
use crate::common::{is_in, is_model, obeys, random_concept, random_inclusion, random_lines};
use crate::common::{random_strict, Random, Words};
use shelf_reference::closure::world_and_root;
use shelf_reference::{settle_lines, Answer, Concept, Inclusion, Interpretation, Kind, Rank};
use std::collections::BTreeSet;

type C = Concept<String>;
type Rule = Inclusion<String>;

/// A question: strict and defeasible inclusions, a left and a right.
struct Question {
    strict: Vec<Rule>,
    defeasible: Vec<Rule>,
    left: C,
    right: C,
}

fn random_question(random: &mut Random, words: &Words, depth: usize) -> Question {
    let strict = (0..random.below(5))
        .map(|_| random_strict(random, words, depth))
        .collect();
    let defeasible = (0..random.below(4))
        .map(|_| random_inclusion(random, words, depth))
        .collect();
    Question {
        strict,
        defeasible,
        left: random_concept(random, words, depth),
        right: random_concept(random, words, depth),
    }
}

/// Asserts that a no is shown by a model; gives (exceptional, yes).
fn check_shown(question: &Question) -> (bool, bool) {
    let Question {
        strict,
        defeasible,
        left,
        right,
    } = question;
    let (world, root) = world_and_root(strict, defeasible, left);
    let yes = world.forces(&root, right);
    if let Some(model) = world.witness(&root) {
        assert!(model.size >= 1);
        assert!(is_model(&model, strict), "{strict:?} {model:?}");
        assert!(is_in(&model, 0, left), "{left:?} {model:?}");
        assert!(defeasible.iter().all(|rule| obeys(&model, 0, rule)));
        assert_eq!(is_in(&model, 0, right), yes, "{right:?} {model:?}");
        check_evaluation(&model, question);
    }
    (root.impossible, yes)
}

/// Asserts that the engine's own evaluation is the plain one.
fn check_evaluation(model: &Interpretation<String>, question: &Question) {
    let rules = question.strict.iter().chain(&question.defeasible);
    for rule in rules {
        let plain: BTreeSet<usize> = (0..model.size)
            .filter(|x| is_in(model, *x, &rule.left))
            .collect();
        assert_eq!(*model.members(&rule.left), plain);
        let all = (0..model.size).all(|x| obeys(model, x, rule));
        assert_eq!(model.satisfies(rule), all);
        for x in 0..model.size {
            assert_eq!(model.obeys(x, rule), obeys(model, x, rule));
        }
    }
}

/// Asserts that no interpretation of the sizes contradicts "exceptional" or
/// "yes".
fn check_uncontradicted(
    question: &Question,
    words: &Words,
    sizes: &[usize],
    (exceptional, yes): (bool, bool),
) {
    if !exceptional && !yes {
        return;
    }
    let names: Vec<String> = words.names.iter().map(|word| (*word).to_owned()).collect();
    let roles: Vec<String> = words.roles.iter().map(|word| (*word).to_owned()).collect();
    let signature = Signature {
        names: &names,
        roles: &roles,
    };
    let strict = signature.place_all(&question.strict);
    let defeasible = signature.place_all(&question.defeasible);
    let left = signature.place(&question.left);
    let right = signature.place(&question.right);
    for size in sizes {
        for tiny in signature.interpretations(*size) {
            if !tiny.is_model(&strict) {
                continue;
            }
            let obeying = tiny.members(&left) & tiny.obeying(&defeasible);
            assert!(!exceptional || obeying == 0, "not exceptional after all");
            assert!(obeying & !tiny.members(&right) == 0, "no after all");
        }
    }
}

/// Random questions over a signature; asserts that each outcome was frequent.
fn check_many(seed: u64, words: &Words, sizes: &[usize], depth: usize, count: usize) {
    let mut random = Random(seed);
    let mut seen = [0; 3];
    for _ in 0..count {
        let question = random_question(&mut random, words, depth);
        let outcome = check_shown(&question);
        check_uncontradicted(&question, words, sizes, outcome);
        match outcome {
            (true, _) => seen[0] += 1,
            (false, true) => seen[1] += 1,
            (false, false) => seen[2] += 1,
        }
    }
    assert!(seen.iter().all(|times| *times > count / 20), "{seen:?}");
}

/// Two names, one role, up to three elements: 32,768 interpretations of size 3
/// for each question.
#[test]
fn two_names_one_role_up_to_three_elements() {
    let words = Words {
        names: &["a", "b"],
        roles: &["r"],
    };
    check_many(1, &words, &[1, 2, 3], 3, 600);
}

/// Three names, one role, up to two elements.
#[test]
fn three_names_one_role_up_to_two_elements() {
    let words = Words {
        names: &["a", "b", "c"],
        roles: &["r"],
    };
    check_many(2, &words, &[1, 2], 3, 8_000);
}

/// Two names, two roles, up to two elements.
#[test]
fn two_names_two_roles_up_to_two_elements() {
    let words = Words {
        names: &["a", "b"],
        roles: &["r", "s"],
    };
    check_many(3, &words, &[1, 2], 3, 4_000);
}

/// Larger signatures and deeper concepts: every no is shown by its model.
#[test]
fn every_no_is_shown_on_larger_questions() {
    let words = Words {
        names: &["a", "b", "c", "d", "e"],
        roles: &["r", "s", "t"],
    };
    let mut random = Random(4);
    let mut no = 0;
    for _ in 0..20_000 {
        let question = random_question(&mut random, &words, 5);
        no += usize::from(!check_shown(&question).1);
    }
    assert!(no > 5_000);
}

/// All of some tiny questions: one strict line and one usual line about
/// everything, nine concepts over one name and one role, up to two elements.
#[test]
fn every_tiny_question_is_right() {
    let words = Words {
        names: &["a"],
        roles: &["r"],
    };
    let plain = [Concept::Top, Concept::Bottom, Concept::Name("a".to_owned())];
    let mut all: Vec<C> = plain.to_vec();
    for side in &plain {
        all.push(Concept::exists("r".to_owned(), side.clone()));
        all.push(Concept::and(Concept::Name("a".to_owned()), side.clone()));
    }
    let mut asked = 0;
    for (one, two) in all
        .iter()
        .flat_map(|one| all.iter().map(move |two| (one, two)))
    {
        for (three, four) in all.iter().flat_map(|x| all.iter().map(move |y| (x, y))) {
            let question = Question {
                strict: vec![Inclusion::new(one.clone(), two.clone())],
                defeasible: vec![Inclusion::new(Concept::Top, three.clone())],
                left: four.clone(),
                right: two.clone(),
            };
            let outcome = check_shown(&question);
            check_uncontradicted(&question, &words, &[1, 2], outcome);
            asked += 1;
        }
    }
    assert_eq!(asked, 9 * 9 * 9 * 9);
}

/// Whole books: levels, passes, ranks and replies are those that the
/// definition gives when every question gets a model of its own.
#[test]
fn books_settle_as_the_definition_reads() {
    let words = Words {
        names: &["a", "b", "c"],
        roles: &["r"],
    };
    let mut random = Random(5);
    let mut raised = 0;
    for _ in 0..3_000 {
        let lines = random_lines(&mut random, &words, 8);
        let settled = settle_lines(&lines);
        let defined = define(&lines);
        assert_eq!(settled.counts.levels, defined.levels());
        assert_eq!(settled.counts.passes, defined.passes);
        let written = crate::common::definition::of_kind(&lines, Kind::Strict);
        for (line, answer) in lines.iter().zip(&settled.answers) {
            let Inclusion { left, right } = &line.inclusion;
            let level = defined.rank(left);
            let rank = level.map_or(Rank::Infinite, Rank::Finite);
            let follows = |strict: &[Rule], rules: &[Rule]| {
                let (world, root) = world_and_root(strict, rules, left);
                world.forces(&root, right)
            };
            let expected = match line.kind {
                Kind::Strict => Answer::Strict,
                Kind::Defeasible => Answer::Defeasible(rank),
                Kind::StrictQuery => Answer::StrictQuery(follows(&written, &[])),
                Kind::Query => {
                    let yes = level.is_none_or(|i| follows(&defined.hardened, &defined.sets[i]));
                    Answer::Query(yes, rank)
                }
                other => unreachable!("{other:?} is of a later format"),
            };
            assert_eq!(*answer, expected);
            raised += usize::from(level.is_some_and(|level| level > 0));
        }
    }
    assert!(raised > 300, "{raised}");
}

/// Ten edges at every element and fifteen roles in a row: concepts are looked
/// up set by set, so this takes no longer than the sets are large.
#[test]
fn deep_concepts_in_a_dense_world() {
    let mut book = String::new();
    for word in 0..10 {
        book.push_str(&format!("S * /r w{word}\n"));
    }
    let path = "/r ".repeat(15);
    book.push_str(&format!(
        "Q a {path}w3\nQ a {path}b\nU {path}b c\nQ {path}b c\n"
    ));
    let printed = shelf_reference::shelf(book.as_bytes());
    let end = "11 Q yes 0\n12 Q no 0\n13 U 0\n14 Q yes 0\nlevels 1 passes 1 yes 2\n";
    assert!(printed.ends_with(end), "{printed}");
}
