//! What is true of every comparison of blocks with a text, and what the generated
//! requests reach of it.

mod common;

use std::collections::{BTreeMap, BTreeSet};

use common::{generated, without_steps};
use desk::generate::explanations::MOST_PARTS;
use desk::generate::rivals::{self, Rival};
use desk::generate::rng::Rng;
use desk::generate::scenes::Scene;
use desk::generate::{entries, parted};
use desk::lists::{list_bytes, NamedKey};
use desk::reference::blocks::bytes_needed;
use desk::reference::parts::parts;
use desk::reference::{compare, judge, load, run, translate, Answer, Input};
use desk::requests::Call;

/// The blocks of a text that is good and not too long.
fn blocks_of_text(text: &[u8], list: &[u8]) -> Option<Vec<u8>> {
    // As many instructions as this have their tokens, conversions and skips.
    let mut buffer = vec![0; bytes_needed(2 * text.len() + 1)];
    match translate(text, list, &mut buffer) {
        Answer::Translated(count) => Some(buffer[..bytes_needed(count)].to_vec()),
        _ => None,
    }
}

/// The parts of a good text as they are written.
fn pieces(text: &[u8]) -> Vec<Vec<u8>> {
    parts(text)
        .map(|parts| parts.iter().map(|part| part.piece.bytes.to_vec()).collect())
        .unwrap_or_default()
}

/// All orders of so many things.
fn orders(count: usize) -> Vec<Vec<usize>> {
    if count == 0 {
        return vec![Vec::new()];
    }
    let fewer = orders(count - 1);
    (0..count)
        .flat_map(|place| {
            fewer.iter().map(move |order| {
                let mut longer = order.clone();
                longer.insert(place, count - 1);
                longer
            })
        })
        .collect()
}

/// Another way to the answer, word by word: all texts that have the same parts in some
/// order are translated, and one of the translations is these blocks.
fn agrees_with_some_order(text: &[u8], list: &[u8], blocks: &[u8]) -> bool {
    let pieces = pieces(text);
    orders(pieces.len()).into_iter().any(|order| {
        let row: Vec<&[u8]> = order.iter().map(|&index| &pieces[index][..]).collect();
        blocks_of_text(&row.join(&b';'), list).as_deref() == Some(blocks)
    })
}

/// A scene with a text of several parts that is good there.
fn scene_with_text(seed: u64, index: u64) -> Option<(Rng, Scene, Vec<u8>)> {
    let mut rng = Rng::for_item(seed, index);
    let scene = Scene::new(&mut rng, 8, 7);
    let text = parted::text(&mut rng, &scene.keys, &scene.entry);
    blocks_of_text(&text, &list_bytes(&scene.keys))?;
    Some((rng, scene, text))
}

#[test]
fn all_orders_tell_the_same() {
    const FEW: usize = 5;
    let (mut agrees, mut differs) = (0, 0);
    for index in 0..5_000 {
        let [text, list, blocks] = generated(Call::Compare, 51, index).inputs;
        let wanted = match compare(&text, &list, &blocks) {
            Answer::Agrees => true,
            Answer::Differs => false,
            _ => continue,
        };
        if pieces(&text).len() > FEW {
            continue;
        }
        assert_eq!(
            agrees_with_some_order(&text, &list, &blocks),
            wanted,
            "{}",
            text.escape_ascii()
        );
        agrees += usize::from(wanted);
        differs += usize::from(!wanted);
    }
    assert!(agrees > 1_000 && differs > 600, "{agrees} {differs}");
}

/// Blocks that agree give every conforming entry the answer of the text.
#[test]
fn agreement_means_equal_answers() {
    let (mut accepted, mut violated) = (0, 0);
    for index in 0..3_000 {
        let Some((mut rng, scene, text)) = scene_with_text(52, index) else {
            continue;
        };
        let list = list_bytes(&scene.keys);
        let rival = Rival::any(&mut rng);
        let blocks = rivals::blocks(&mut rng, rival, &text, &scene.keys).unwrap_or_default();
        if compare(&text, &list, &blocks) != Answer::Agrees {
            continue;
        }
        let others = (0..3).map(|_| entries::good(&mut rng, &scene.keys));
        for entry in others.chain([scene.entry.clone()]).collect::<Vec<_>>() {
            let judged = judge(&text, &list, &entry.to_bytes());
            let ran = run(&list, &blocks, &entry.to_bytes());
            assert_eq!(without_steps(ran), judged, "{}", text.escape_ascii());
            accepted += usize::from(judged == Answer::Accepted);
            violated += usize::from(judged == Answer::Violated);
        }
    }
    assert!(accepted > 500 && violated > 1_500, "{accepted} {violated}");
}

/// The blocks of every order agree with every other order of the text.
#[test]
fn orders_agree_with_one_another() {
    let mut compared = 0;
    for index in 0..1_500 {
        let Some((mut rng, scene, text)) = scene_with_text(53, index) else {
            continue;
        };
        let list = list_bytes(&scene.keys);
        let blocks = rivals::blocks(&mut rng, Rival::Reordered, &text, &scene.keys);
        let mut turned = pieces(&text);
        turned.reverse();
        for text in [text, turned.join(&b';')] {
            let own = blocks_of_text(&text, &list).expect("a good text");
            for blocks in [Some(&own), blocks.as_ref()].into_iter().flatten() {
                assert_eq!(compare(&text, &list, blocks), Answer::Agrees);
                compared += 1;
            }
        }
    }
    assert!(compared > 4_000, "{compared}");
}

/// The joins of a rival that works as we do are those of a text in that order.
#[test]
fn rivals_in_order_translate_as_we_do() {
    for index in 0..1_500 {
        if let Some((mut rng, scene, text)) = scene_with_text(54, index) {
            let list = list_bytes(&scene.keys);
            let blocks = rivals::blocks(&mut rng, Rival::InOrder, &text, &scene.keys);
            assert_eq!(blocks, blocks_of_text(&text, &list));
        }
    }
}

/// "agrees", "differs", or the number of a refusal.
fn kind_of(answer: Answer) -> String {
    match answer {
        Answer::Refused { number, .. } => number.to_string(),
        other => other.to_string(),
    }
}

/// The answers that each rival gets, and how often of so many at least.
#[test]
fn every_rival_gets_its_answers() {
    let mut counts: BTreeMap<(Rival, String), usize> = BTreeMap::new();
    for rival in Rival::ALL {
        for index in 0..1_000 {
            let Some((mut rng, scene, text)) = scene_with_text(55, index) else {
                continue;
            };
            let list = list_bytes(&scene.keys);
            if let Some(blocks) = rivals::blocks(&mut rng, rival, &text, &scene.keys) {
                let answer = kind_of(compare(&text, &list, &blocks));
                *counts.entry((rival, answer)).or_default() += 1;
            }
        }
    }
    let wanted: &[(Rival, &[(&str, usize)])] = &[
        (Rival::InOrder, &[("agrees", 700)]),
        (Rival::Reordered, &[("agrees", 700)]),
        (Rival::Dropped, &[("differs", 700)]),
        (Rival::Doubled, &[("differs", 700)]),
        // The other part may be alike.
        (Rival::Exchanged, &[("agrees", 50), ("differs", 300)]),
        // More than 384 parts are held at once.
        (
            Rival::JoinedFromRight,
            &[("agrees", 50), ("differs", 300), ("18", 2)],
        ),
        (Rival::OtherJoin, &[("agrees", 50), ("differs", 300)]),
        (Rival::Flattened, &[("agrees", 300), ("differs", 50)]),
        (Rival::WithoutSkips, &[("agrees", 20), ("differs", 500)]),
        (Rival::OtherLanding, &[("agrees", 50), ("differs", 300)]),
        (Rival::OtherByte, &[("differs", 400), ("18", 50)]),
        (
            Rival::OtherList,
            &[("agrees", 100), ("differs", 40), ("17", 50), ("18", 10)],
        ),
        (
            Rival::Damaged,
            &[
                ("16", 50),
                ("17", 300),
                ("differs", 5),
                ("18", 20),
                ("agrees", 2),
            ],
        ),
    ];
    let reached: BTreeSet<(Rival, &str)> = counts.keys().map(|(r, a)| (*r, &a[..])).collect();
    let named: BTreeSet<(Rival, &str)> = wanted
        .iter()
        .flat_map(|&(rival, answers)| answers.iter().map(move |&(answer, _)| (rival, answer)))
        .collect();
    assert_eq!(reached, named, "{counts:#?}");
    for &(rival, answers) in wanted {
        for &(answer, least) in answers {
            let count = counts[&(rival, answer.to_string())];
            assert!(count >= least, "{rival:?} {answer}: {count}");
        }
    }
}

/// Of what sort a text of a comparison is, by its parts.
fn sorts_of_text(text: &[u8], keys: &[NamedKey]) -> Vec<&'static str> {
    let list = list_bytes(keys);
    let pieces = pieces(text);
    let codes: Vec<Vec<u8>> = pieces
        .iter()
        .filter_map(|piece| blocks_of_text(piece, &list))
        .collect();
    let distinct: BTreeSet<&Vec<u8>> = codes.iter().collect();
    let spelled: BTreeSet<&Vec<u8>> = pieces.iter().collect();
    let mut sorts = vec![match pieces.len() {
        1 => "one part",
        2..=5 => "a few parts",
        MOST_PARTS => "512 parts",
        _ => "many parts",
    }];
    sorts.extend((distinct.len() < codes.len()).then_some("equal parts"));
    sorts.extend((distinct.len() < spelled.len()).then_some("parts spelled differently"));
    sorts.extend(begins_another(&pieces, &list).then_some("a part that begins another"));
    let in_parentheses = |piece: &Vec<u8>| piece.starts_with(b"(") && piece.contains(&b';');
    sorts.extend(
        pieces
            .iter()
            .any(in_parentheses)
            .then_some("a sequence in parentheses"),
    );
    sorts.extend(
        text.trim_ascii_end()
            .ends_with(b";")
            .then_some("a last sign"),
    );
    sorts
}

/// Does the code of one part begin with that of another, and go on?
fn begins_another(pieces: &[Vec<u8>], list: &[u8]) -> bool {
    let codes: Vec<Vec<u8>> = pieces
        .iter()
        .take(20)
        .filter_map(|piece| blocks_of_text(piece, list))
        .map(|blocks| {
            let count = usize::from(blocks[3]);
            blocks[4..4 + 20 * count].to_vec()
        })
        .collect();
    codes.iter().any(|one| {
        let longer = |other: &&Vec<u8>| other.len() > one.len();
        codes
            .iter()
            .filter(longer)
            .any(|other| other.starts_with(one))
    })
}

/// Texts of every sort, met by blocks that agree and by blocks that differ.
#[test]
fn texts_of_every_sort_agree_and_differ() {
    let mut counts: BTreeMap<(&str, Fit), usize> = BTreeMap::new();
    for index in 0..6_000 {
        let Some((mut rng, scene, text)) = scene_with_text(56, index) else {
            continue;
        };
        let rival = Rival::any(&mut rng);
        let Some(blocks) = rivals::blocks(&mut rng, rival, &text, &scene.keys) else {
            continue;
        };
        let found = match compare(&text, &list_bytes(&scene.keys), &blocks) {
            Answer::Agrees => Fit::Agrees,
            Answer::Differs => Fit::Differs,
            _ => continue,
        };
        for sort in sorts_of_text(&text, &scene.keys) {
            *counts.entry((sort, found)).or_default() += 1;
        }
    }
    assert_eq!(counts.len(), 2 * 9, "{counts:#?}");
    for (sort, count) in counts {
        assert!(count >= 12, "{sort:?}: {count}");
    }
}

#[derive(Clone, Copy, PartialEq, Eq, PartialOrd, Ord, Debug)]
enum Fit {
    Agrees,
    Differs,
}

/// Requests reach both answers often, and every refusal of a text, a list and blocks,
/// some of them while the blocks are wrong as well.
#[test]
fn requests_reach_every_answer() {
    let mut counts: BTreeMap<String, usize> = BTreeMap::new();
    let mut both_wrong = 0;
    for index in 0..12_000 {
        let [text, list, blocks] = generated(Call::Compare, 57, index).inputs;
        let answer = compare(&text, &list, &blocks);
        if let Answer::Refused { input, .. } = answer {
            let loaded = matches!(load(&list, &blocks), Answer::Loaded(_));
            both_wrong += usize::from(input == Input::Text && !loaded);
        }
        *counts.entry(kind_of(answer)).or_default() += 1;
    }
    let numbers = (1..=14).chain(16..=18).chain([22, 23]);
    let refusals = numbers.map(|number: u8| number.to_string());
    let wanted: BTreeSet<String> = refusals
        .chain(["agrees", "differs"].map(str::to_string))
        .collect();
    let reached: BTreeSet<String> = counts.keys().cloned().collect();
    assert_eq!(reached, wanted, "{counts:?}");
    assert!(
        counts["agrees"] > 3_600 && counts["differs"] > 2_400,
        "{counts:?}"
    );
    assert!(counts.values().all(|&count| count >= 15), "{counts:?}");
    assert!(both_wrong > 300, "{both_wrong}");
}
