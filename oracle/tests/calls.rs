//! The calls hold what their names say, and are small enough.

mod markless;

use oracle::calls::{all, checksum, Play, ARRAY_SIZE};
use std::collections::BTreeSet;
use std::sync::LazyLock;

static CALLS: LazyLock<Play> = LazyLock::new(all);

#[test]
fn the_calls_are_of_the_right_size() {
    let lines = CALLS.expected.lines().count();
    assert!((5_000..=12_000).contains(&lines), "{lines} lines");
    assert!(CALLS.input.len() <= 500_000, "{} bytes of input", CALLS.input.len());
    assert!(CALLS.expected.len() <= 240_000, "{} bytes of output", CALLS.expected.len());
}

#[test]
fn every_answer_occurs() {
    let seen: BTreeSet<&str> = CALLS.counts.keys().map(|(_, kind)| kind.as_str()).collect();
    let numbers = |call: &str, numbers: &[u8]| {
        for number in numbers {
            assert!(seen.contains(format!("{call} NO {number}").as_str()), "{call} {number}");
        }
        assert!(seen.contains(format!("{call} OK").as_str()), "{call}");
    };
    numbers("check", &[11]);
    numbers("add", &[1, 8, 2, 3, 4, 11, 12, 14]);
    numbers("preview", &[1, 8, 2, 3, 4, 11, 12, 14]);
    numbers("remove", &[1, 8, 2, 3, 4, 11, 13]);
    numbers("find", &[1, 8, 2, 3, 4, 11, 13]);
    numbers("find prefix", &[1, 8, 2, 3, 4, 11, 5]);
    numbers("rank", &[11, 15]);
    numbers("order", &[11, 5]);
    numbers("word", &[11, 5]);
    numbers("tidy", &[11]);
}

/// In the scenes that come to them: adds that tidy and adds that no tidying helps, books
/// that are tidied and buffers that are none.
#[test]
fn the_scenes_tidy_as_they_say() {
    let scenes: [(&str, &[&str]); 10] = [
        ("lengths", &["add OK", "add OK, tidied", "add NO 14", "tidy OK", "tidy NO 11"]),
        ("filled", &["add OK", "add OK, tidied", "add NO 14"]),
        ("filled to the limit", &["add OK", "add OK, tidied", "add NO 14", "tidy OK"]),
        ("turns", &["add OK", "add OK, tidied", "add NO 14"]),
        ("damaged bytes", &["tidy NO 11"]),
        ("made by hand", &["add OK", "add OK, tidied", "tidy OK", "tidy NO 11"]),
        ("any damage", &["tidy OK", "tidy NO 11"]),
        ("tidied", &["tidy OK"]),
        ("renamings", &["add OK", "add OK, tidied", "add NO 14", "tidy OK"]),
        ("by one byte", &["add OK", "add OK, tidied", "add NO 14"]),
    ];
    for (scene, kinds) in scenes {
        demand(scene, kinds);
    }
}

/// Demands answers of these kinds in the scene.
fn demand(scene: &'static str, kinds: &[&str]) {
    for kind in kinds {
        assert!(CALLS.counts.contains_key(&(scene, kind.to_string())), "{scene}: {kind}");
    }
}

#[test]
fn the_scenes_preview_as_they_say() {
    let fitting = ["preview OK", "preview OK, tidies", "preview NO 14"];
    for scene in ["previewed fillings", "previewed fits", "previewed turns", "previewed limits"] {
        demand(scene, &fitting);
    }
    for scene in ["previewed fillings", "previewed turns", "previewed limits"] {
        demand(scene, &["preview NO 12"]);
    }
    demand("previewed refusals", &["preview NO 11", "add NO 11"]);
    demand("previewed damage", &["preview NO 11", "add NO 11", "preview OK, tidies"]);
}

/// The calls on books, each with the line that is printed for it.
fn answered() -> impl Iterator<Item = (&'static str, &'static str)> {
    let on_books = CALLS.input.lines().filter(|line| !line.ends_with(['n', 'p']));
    on_books.zip(CALLS.expected.lines())
}

/// "The preview gives the answer that add gives on a copy of the book": where the add stands
/// straight behind its preview, their answers are the same, and each kind of them occurs. The
/// checksums are of other bytes.
#[test]
fn an_add_behind_its_preview_has_the_same_answer() {
    let answer = |line: &'static str| line.rsplit_once(' ').unwrap().0;
    let mut seen = BTreeSet::new();
    for ((preview, previewed), (add, added)) in answered().zip(answered().skip(1)) {
        let pair = (preview.strip_suffix('v'), add.strip_suffix('a'));
        if pair.0.is_some() && pair.0 == pair.1 {
            assert_eq!(answer(previewed), answer(added), "{preview}");
            let kind = |(verdict, rest): (&str, &str)| match (verdict, rest.split_once(' ')) {
                ("OK", Some((_, tidied))) => format!("OK, {tidied}"),
                (_, Some((number, _))) => format!("NO {number}"),
                _ => panic!("{previewed}"),
            };
            seen.insert(kind(answer(added).split_once(' ').unwrap()));
        }
    }
    let kinds =
        ["NO 1", "NO 11", "NO 12", "NO 14", "NO 2", "NO 3", "NO 4", "NO 8", "OK, 0", "OK, 1"];
    assert_eq!(seen, kinds.map(String::from).into());
}

/// Behind the array stand the start, 8, and 1 for an add that would tidy; for a refused one
/// both are 0.
#[test]
fn the_checksum_of_a_preview_has_its_start_and_whether_it_tidies() {
    let mut play = Play::new();
    play.new_book(17);
    let ka = [0x4D, 0x57, 1, 5, 0, 0, 0, 0x00];
    let removed_kha = [0x4D, 0x2D, 1, 6, 0, 0, 0, 0x01];
    let array = [&ka[..], &removed_kha, &[0, 0x4D, 0x57], &[0; ARRAY_SIZE - 20], &[0xA5]].concat();
    play.poke_all(0, &array[..16]);
    play.preview(&[0x1002, 0x102C], 7).unwrap();
    play.preview(&[0x1000], 7).unwrap_err();
    let sum = |output: [u8; 4]| checksum(&[&array[..], &output].concat());
    let lines = [format!("OK 8 1 {}", sum([8, 0, 1, 0])), format!("NO 12 0 {}", sum([0; 4]))];
    assert_eq!(play.expected.lines().collect::<Vec<_>>(), lines);
}

/// The words of the calls with this letter, which have a number behind the word.
fn words_of(letter: char) -> impl Iterator<Item = Vec<u16>> {
    let words = CALLS.input.lines().filter(move |line| line.ends_with(letter));
    let words = words.filter_map(|line| line.rsplit_once(' ')).map(|(values, _)| values);
    words.map(|values| {
        values.split(' ').map(|value| u16::from_str_radix(value, 16).unwrap()).collect()
    })
}

#[test]
fn independent_letters_are_added_and_searched_for_with_every_kind_of_final() {
    let added = markless::kinds_in(words_of('a'));
    assert_eq!(added, markless::kinds());
    let ends = |kinds: BTreeSet<markless::Kind>| -> BTreeSet<(u8, bool, bool)> {
        kinds.into_iter().map(|(_, link, second, tone)| (link, second, tone)).collect()
    };
    let searched = markless::kinds_in(words_of('b'));
    assert_eq!(ends(searched), ends(markless::kinds()));
}

/// A third final, a stacked second one, kinzi as one, and a tone between two.
#[test]
fn what_comes_near_to_two_finals_is_added_and_searched_for() {
    let near: [&[u16]; 4] = [
        &[0x1000, 0x1000, 0x103A, 0x1005, 0x103A, 0x1019, 0x103A],
        &[0x1000, 0x1000, 0x103A, 0x1005, 0x1039],
        &[0x1000, 0x1000, 0x103A, 0x1004, 0x103A, 0x1039],
        &[0x1000, 0x1010, 0x1037, 0x103A, 0x1005, 0x103A],
    ];
    for letter in ['a', 'b'] {
        for word in near {
            assert!(words_of(letter).any(|other| other == word), "{letter}: {word:04X?}");
        }
    }
}

/// 2 · 16,777,619 + 3, and that times 16,777,619 without what passes 32 bits.
#[test]
fn the_checksum_is_a_number_to_its_base() {
    assert_eq!(checksum(&[]), 0);
    assert_eq!(checksum(&[2, 3]), 33_555_241);
    assert_eq!(checksum(&[2, 3, 0]), 1_325_726_091);
}
