//! Properties of some thousands of random expressions and damaged texts.

use second::compiling::{ample_room, compile, listing, turned};
use second::random::Random;
use second::text::MOST_LITERALS;
use second::weaving::{awaited, gates, labels, Gate, Place};
use second::{check, reading, run, turning};

fn beyond(place: Place, k: usize) -> bool {
    !matches!(place, Place::Gate(gate) if gate <= k)
}

/// The awaited places of one gap, gathered as the scope says it.
fn awaited_after(gates: &[Gate], k: usize) -> usize {
    let mut places: Vec<Place> = Vec::new();
    for gate in &gates[..=k] {
        for place in [gate.true_place, gate.false_place] {
            if beyond(place, k) && !places.contains(&place) {
                places.push(place);
            }
        }
    }
    places.len()
}

/// The least j with 3 * 2^j >= 2n + 6.
fn bound(n: usize) -> usize {
    (0..)
        .find(|j| 3 << j >= 2 * n + 6)
        .expect("some j is large enough")
}

fn expressions(seed: u64, count: usize) -> impl Iterator<Item = (Vec<u8>, Random)> {
    (0..count).map(move |number| {
        let mut random = Random::new(seed + number as u64);
        (random.expression_of_any_size(), random)
    })
}

#[test]
fn bound_in_numbers() {
    let most = [
        (2, 3),
        (3, 9),
        (4, 21),
        (5, 45),
        (6, 93),
        (7, 189),
        (8, 381),
        (9, 765),
        (10, 1533),
    ];
    for (labels, literals) in most {
        assert_eq!((bound(literals), bound(literals + 1)), (labels, labels + 1));
    }
}

#[test]
fn label_count_is_most_awaited_places_and_within_the_bound() {
    for (text, _) in expressions(1_000, 4_000) {
        let gates = gates(&turned(&text).unwrap());
        let labels = labels(&gates);
        let counts = awaited(&gates);
        assert_eq!(counts.iter().max(), Some(&labels.count));
        assert_eq!(counts.last(), Some(&2));
        assert!(labels.count <= bound(gates.len()));
        assert_eq!(labels.of(Place::True), 0);
        assert_eq!(labels.of(Place::Gate(0)), 0);
    }
}

#[test]
fn awaited_places_gathered_gap_by_gap() {
    for (text, _) in expressions(2_000, 800).filter(|(text, _)| text.len() < 600) {
        let gates = gates(&turned(&text).unwrap());
        let gathered: Vec<usize> = (0..gates.len()).map(|k| awaited_after(&gates, k)).collect();
        assert_eq!(awaited(&gates), gathered);
    }
}

#[test]
fn run_agrees_with_the_typed_expression() {
    for (text, mut random) in expressions(3_000, 3_000) {
        let typed = reading::read(&text).unwrap();
        let gates = gates(&turned(&text).unwrap());
        let table = compile(&text, ample_room()).unwrap();
        for _ in 0..4 {
            let truths = random.truths(gates.len());
            let mut run = run::start(&table).unwrap();
            for gate in &gates {
                run = run::feed(run, &table, truths[gate.literal.occurrence]).unwrap();
            }
            assert_eq!(run::answer(run, &table), Ok(typed.truth(&truths)));
        }
    }
}

#[test]
fn gates_are_the_typed_occurrences() {
    for (text, _) in expressions(4_000, 1_000) {
        let node = turned(&text).unwrap();
        let mut occurrences: Vec<usize> = gates(&node)
            .iter()
            .map(|gate| gate.literal.occurrence)
            .collect();
        occurrences.sort_unstable();
        assert!(occurrences.iter().copied().eq(0..node.literals()));
        let mut again = node.clone();
        turning::turn(&mut again);
        assert_eq!(again, node, "a settled expression stays as it is");
    }
}

#[test]
fn tables_are_well_formed_and_room_is_exact() {
    for (text, _) in expressions(5_000, 1_000) {
        let table = compile(&text, ample_room()).unwrap();
        let header = check::whole(&table).unwrap();
        assert_eq!(table.len(), 6 * header.gates + 7);
        assert_eq!(compile(&text, table.len()), Ok(table.clone()));
        let refusal = compile(&text, table.len() - 1).unwrap_err();
        assert_eq!((refusal.number, refusal.at), (8, table.len() as u64));
    }
}

#[test]
fn expressions_have_the_literals_asked_for() {
    let mut random = Random::new(6);
    for literals in [1, 2, 3, 10, 300, MOST_LITERALS - 1, MOST_LITERALS] {
        for _ in 0..12 {
            let text = random.expression(literals);
            assert_eq!(turned(&text).unwrap().literals(), literals);
        }
    }
}

#[test]
fn every_text_gets_an_answer() {
    let mut seen = [false; 9];
    let mut random = Random::new(7);
    for _ in 0..4_000 {
        let text = random.text();
        for room in [ample_room(), random.below(100)] {
            let number = compile(&text, room).map_or_else(|refusal| refusal.number, |_| 0);
            seen[usize::from(number)] = true;
        }
    }
    assert_eq!(
        seen,
        [true, true, true, true, true, true, true, false, true]
    );
    let mut random = Random::new(8);
    for _ in 0..500 {
        let text = random.text();
        let lines = listing(&text).lines().count();
        match compile(&text, ample_room()) {
            Ok(table) => assert_eq!(lines, (table.len() - 7) / 6 + 2),
            Err(_) => assert_eq!(lines, 1),
        }
    }
}
