//! Random decks, given as rows: tables, results and order against the
//! definitions, and decks of the greatest size.

use crate::common::definition::{define, of_kind, Defined};
use crate::common::tiny::Signature;
use crate::common::{is_in, is_model, Random};
use shelf_reference::closure::world_and_root;
use shelf_reference::deck::{concept, Row};
use shelf_reference::{classify, classify_lent, Classified, Inclusion, Kind, Line};

/// A row that is in order for these counts.
fn random_row(random: &mut Random, numbers: usize, roles: usize) -> Row {
    let kinds: &[u16] = if roles == 0 {
        &[1, 1, 2, 5, 5, 6, 7]
    } else {
        &[1, 1, 2, 2, 3, 4, 5, 5, 5, 6, 7]
    };
    let kind = random.pick(kinds);
    let mut number = || random.below(numbers) as u16;
    let mut row = Row::sides(kind, number(), number());
    if kind == 2 {
        row.b = number();
        if random.below(2) == 0 {
            row.c = 1;
        }
    }
    if kind == 3 || kind == 4 {
        row.role = random.below(roles) as u16;
    }
    row
}

fn random_deck(random: &mut Random, numbers: usize, roles: usize, most: usize) -> Vec<u64> {
    let rows = random.below(most + 1);
    (0..rows)
        .map(|_| random_row(random, numbers, roles).pack())
        .collect()
}

fn settle(deck: &[u64], numbers: usize, roles: usize) -> Classified {
    classify(deck, numbers, roles).unwrap()
}

fn lines_of(deck: &[u64]) -> Vec<Line<u16>> {
    deck.iter().map(|row| Row::unpack(*row).line()).collect()
}

fn has_bit(table: &[u64], a: usize, b: usize) -> bool {
    table[4 * a + b / 64] >> (63 - b % 64) & 1 == 1
}

/// Packing and unpacking undo each other, on random bits.
#[test]
fn packing_undoes_unpacking() {
    let mut random = Random(20);
    for _ in 0..10_000 {
        let bits = random.next();
        assert_eq!(Row::unpack(bits).pack(), bits);
    }
}

/// Every bit of the strict table: a bit that is missing is shown by a model of
/// T*, a bit that is set is contradicted by no small model of T*.
#[test]
fn every_bit_of_the_table_is_right() {
    let mut random = Random(21);
    let (mut set, mut missing) = (0, 0);
    for _ in 0..1_500 {
        let (numbers, roles) = (2 + random.below(3), random.below(2));
        let deck = random_deck(&mut random, numbers, roles, 8);
        let table = settle(&deck, numbers, roles).table;
        assert_eq!(table.len(), 4 * numbers);
        let strict = define(&lines_of(&deck)).hardened;
        for a in 0..numbers {
            let (world, root) = world_and_root(&strict, &[], &concept(a as u16));
            let model = world.witness(&root);
            for b in 0..numbers {
                if has_bit(&table, a, b) {
                    set += 1;
                    continue;
                }
                missing += 1;
                let model = model.as_ref().expect("a missing bit has a model");
                assert!(is_model(model, &strict));
                assert!(is_in(model, 0, &concept(a as u16)));
                assert!(!is_in(model, 0, &concept(b as u16)));
            }
            let above = (numbers..256).any(|b| has_bit(&table, a, b));
            assert!(!above, "bits from N on are 0");
        }
        no_small_model_contradicts(&table, &strict, numbers, roles);
    }
    assert!(set > 3_000 && missing > 3_000);
}

fn no_small_model_contradicts(
    table: &[u64],
    strict: &[Inclusion<u16>],
    numbers: usize,
    roles: usize,
) {
    let names: Vec<u16> = (2..numbers as u16).collect();
    let roles: Vec<u16> = (0..roles as u16).collect();
    let signature = Signature {
        names: &names,
        roles: &roles,
    };
    let placed = signature.place_all(strict);
    let sides: Vec<_> = (0..numbers as u16)
        .map(|number| signature.place(&concept(number)))
        .collect();
    for size in [1, 2] {
        for tiny in signature.interpretations(size) {
            if !tiny.is_model(&placed) {
                continue;
            }
            for (a, left) in sides.iter().enumerate() {
                for (b, right) in sides.iter().enumerate() {
                    let within = tiny.members(left) & !tiny.members(right) == 0;
                    assert!(within || !has_bit(table, a, b));
                }
            }
        }
    }
}

/// 20,000 small decks: levels, passes, ranks, results and order as the
/// definitions give them.
#[test]
fn small_decks_settle_as_the_definition_reads() {
    let mut random = Random(22);
    let (mut infinite, mut tied) = (0, 0);
    for _ in 0..20_000 {
        let (numbers, roles) = (2 + random.below(7), random.below(3));
        let deck = random_deck(&mut random, numbers, roles, 14);
        let done = settle(&deck, numbers, roles);
        let lines = lines_of(&deck);
        let defined = define(&lines);
        assert_eq!(done.settled.counts.levels, defined.levels());
        assert_eq!(done.settled.counts.passes, defined.passes);
        let results = done.settled.results();
        let expected: Vec<u16> = lines
            .iter()
            .zip(&deck)
            .map(|(line, row)| result_by_definition(&defined, line, row >> 60, &lines))
            .collect();
        assert_eq!(results, expected);
        infinite += expected.iter().filter(|result| **result == 0xFFFF).count();
        let questions = deck.iter().zip(&results).filter(|(row, _)| **row >> 60 > 5);
        let yes = questions.filter(|(_, result)| **result >> 15 == 1).count();
        assert_eq!(done.settled.counts.yes, yes);
        check_order(&done, &deck);
        let ranks = done.order.iter().map(|index| results[usize::from(*index)]);
        let ranks: Vec<u16> = ranks.collect();
        tied += usize::from(ranks.windows(2).any(|two| two[0] == two[1]));
    }
    assert!(infinite > 5_000 && tied > 5_000, "{infinite}, {tied}");
}

/// A row's 16 bits, each question with a model of its own.
fn result_by_definition(
    defined: &Defined<u16>,
    line: &Line<u16>,
    kind: u64,
    lines: &[Line<u16>],
) -> u16 {
    let Inclusion { left, right } = &line.inclusion;
    let follows = |strict: &[Inclusion<u16>], rules: &[Inclusion<u16>]| {
        let (world, root) = world_and_root(strict, rules, left);
        u16::from(world.forces(&root, right)) << 15
    };
    match (kind, defined.rank(left)) {
        (1..=4, _) => 0,
        (5, Some(level)) => 0x8000 | level as u16,
        (6, Some(level)) => follows(&defined.hardened, &defined.sets[level]) | level as u16,
        (5 | 6, None) => 0xFFFF,
        _ => follows(&of_kind(lines, Kind::Strict), &[]),
    }
}

/// The order has each usual row once, by rising rank, and those of one rank by
/// rising index.
fn check_order(done: &Classified, deck: &[u64]) {
    let results = done.settled.results();
    let result = |index: u16| results[usize::from(index)];
    for two in done.order.windows(2) {
        assert!(result(two[0]) <= result(two[1]));
        assert!(result(two[0]) < result(two[1]) || two[0] < two[1]);
    }
    let mut indices = done.order.clone();
    indices.sort_unstable();
    let usual = (0..deck.len()).filter(|i| deck[*i] >> 60 == 5);
    assert_eq!(indices, usual.map(|i| i as u16).collect::<Vec<_>>());
}

/// Random bits as decks are settled or refused, never anything else, and the
/// refusal is the lowest row's.
#[test]
fn random_bits_are_settled_or_refused() {
    let mut random = Random(23);
    let mut counts = [0; 19];
    for _ in 0..20_000 {
        let mut deck = random_deck(&mut random, 4, 2, 6);
        for row in &mut deck {
            if random.below(8) == 0 {
                *row ^= 1 << random.below(64);
            }
        }
        let rows = deck.len();
        match classify_lent(&deck, 4, 2, 16, rows, rows) {
            Ok(done) => {
                assert_eq!(done.settled.answers.len(), rows);
                counts[0] += 1;
            }
            Err(refused) => {
                let place = refused.place;
                assert!(classify_lent(&deck[..place], 4, 2, 16, rows, rows).is_ok());
                let alone = classify_lent(&deck[place..=place], 4, 2, 16, rows, rows);
                assert_eq!(alone.unwrap_err().number(), refused.number());
                counts[refused.number() as usize] += 1;
            }
        }
    }
    for number in [0, 15, 16, 17, 18] {
        assert!(counts[number] > 100, "{number}: {counts:?}");
    }
}

/// The most levels: each kind within the one before, with rules that turn by
/// turn say two things that exclude each other.
#[test]
fn a_deck_with_252_levels() {
    // Numbers 2 and 3 exclude each other; 4 to 255 are the ladder.
    let mut deck = vec![Row {
        b: 3,
        ..Row::sides(2, 2, 1)
    }];
    for kind in 4..256 {
        deck.push(Row::sides(5, kind, 2 + kind % 2));
        deck.push(Row::sides(6, kind, 2));
        if kind > 4 {
            deck.push(Row::sides(1, kind, kind - 1));
        }
    }
    let deck: Vec<u64> = deck.into_iter().map(Row::pack).collect();
    let done = settle(&deck, 256, 0);
    assert_eq!(
        (done.settled.counts.levels, done.settled.counts.passes),
        (252, 1)
    );
    assert_eq!(done.settled.counts.yes, 126);
    assert_eq!(done.order.len(), 252);
}

/// Many passes: each rule asks for some of a kind that the pass before found
/// to be nothing.
#[test]
fn a_deck_with_128_passes() {
    // Kinds 2, 4, 6, ..; 3, 5, .. stand for "some 0 of the kind before".
    let mut deck = vec![Row::sides(5, 2, 1)];
    for kind in (4..256).step_by(2) {
        deck.push(Row::sides(5, kind, kind - 1));
        deck.push(Row {
            role: 0,
            ..Row::sides(3, kind - 1, kind - 2)
        });
    }
    let deck: Vec<u64> = deck.into_iter().map(Row::pack).collect();
    let done = settle(&deck, 256, 1);
    assert_eq!(
        (done.settled.counts.levels, done.settled.counts.passes),
        (0, 128)
    );
    assert!(done
        .settled
        .results()
        .iter()
        .step_by(2)
        .all(|r| *r == 0 || *r == 0xFFFF));
}

/// A row over names only, of one of these kinds.
fn plain_row(random: &mut Random, kinds: &[u16], roles: usize) -> Row {
    let kind = random.pick(kinds);
    let mut number = || 2 + random.below(254) as u16;
    let mut row = Row::sides(kind, number(), number());
    if kind == 2 {
        row.b = number();
    }
    if kind == 3 || kind == 4 {
        row.role = random.below(roles) as u16;
    }
    row
}

/// Random decks of 256 numbers and 1,024 rows are settled to the end: wild ones,
/// ones where all is possible, and ones with a few exclusions.
#[test]
fn random_decks_of_the_greatest_size() {
    let mut random = Random(24);
    let mixes: [&[u16]; 4] = [
        &[1, 2, 3, 4, 5, 6, 7],
        &[1, 1, 3, 4, 5],
        &[3, 3, 4, 4, 5, 6],
        &[1, 5, 5, 5, 6],
    ];
    for (index, mix) in mixes.into_iter().cycle().take(8).enumerate() {
        let mut deck: Vec<u64> = (0..1024)
            .map(|_| plain_row(&mut random, mix, 2).pack())
            .collect();
        for row in &mut deck[..20 * (index / 4)] {
            let both = plain_row(&mut random, &[2], 2);
            *row = Row { c: 1, ..both }.pack();
        }
        let done = settle(&deck, 256, 2);
        assert_eq!(done.settled.answers.len(), 1024);
        check_order(&done, &deck);
    }
    for (numbers, roles) in [(256, 64), (64, 1), (256, 0)] {
        let deck = random_deck(&mut random, numbers, roles, 1024);
        check_order(&settle(&deck, numbers, roles), &deck);
    }
}
