//! Host names (02): the examples given with the request, the order of the errors, and what
//! must hold of every input. On each implementation at hand.

mod shared;

use distelhut_host::functions::{implementations, Implementation};
use distelhut_host::generate::calls::{name_decode, name_encode};
use distelhut_host::generate::{names, Source};
use shared::{called, Error};
use std::collections::BTreeMap;

const TURNS: usize = 30_000;

/// The name of a text, or the error.
fn written(one: &Implementation, text: &[u32]) -> Result<Vec<u8>, Error> {
    called(one.name_encode, text, 0, 253)
}

/// The text of a name, or the error.
fn read(one: &Implementation, name: &[u8]) -> Result<Vec<u32>, Error> {
    called(one.name_decode, name, 0, 253)
}

/// The points of a text.
fn points(text: &str) -> Vec<u32> {
    text.chars().map(u32::from).collect()
}

/// Labels of so many letters each, with dots between.
fn letters(labels: &[usize]) -> String {
    labels.iter().map(|&length| "a".repeat(length)).collect::<Vec<_>>().join(".")
}

/// A byte or a point that is a letter, a digit or a hyphen.
fn is_ldh(number: u32) -> bool {
    u8::try_from(number).is_ok_and(|byte| byte == b'-' || byte.is_ascii_alphanumeric())
}

/// Whether numbers are 1 to 63 letters, digits and hyphens without a hyphen at either end.
fn is_host_label(numbers: &[u32]) -> bool {
    let ldh = numbers.iter().all(|&number| is_ldh(number));
    let edge = numbers.first() == Some(&45) || numbers.last() == Some(&45);
    ldh && !edge && (1..=63).contains(&numbers.len())
}

/// Whether numbers begin with LACE's prefix in any case.
fn has_prefix(numbers: &[u32]) -> bool {
    matches!(numbers, [0x4C | 0x6C, 0x51 | 0x71, 45, 45, ..])
}

/// Bytes as numbers.
fn numbers(bytes: &[u8]) -> Vec<u32> {
    bytes.iter().map(|&byte| u32::from(byte)).collect()
}

#[test]
fn a_name_is_read_and_written() {
    for one in implementations() {
        let text = points("\u{FC}.Mill");
        assert_eq!(read(&one, b"LQ--74APY.Mill"), Ok(text.clone()));
        assert_eq!(written(&one, &text), Ok(b"lq--74apy.Mill".to_vec()));
    }
}

#[test]
fn names_that_are_read() {
    let rows = [
        ("bench.mill", "bench.mill"),
        ("Bench.MILL", "Bench.MILL"),
        ("a", "a"),
        ("9.0-0.Z", "9.0-0.Z"),
        ("xn--tda", "xn--tda"),
        ("lq-a.lq", "lq-a.lq"),
        ("alq--74apy", "alq--74apy"),
        ("lq--amac2ylc.Lq--74ApY", "-ab.\u{FC}"),
        ("lq--aqagy4jnfu.a", "lq--.a"),
        ("lq--74agcmacabra", "a\u{3002}b"),
        // The octet of the dot stands in another point.
        ("lq--74as4.lq--74xaa", "\u{12E}.\u{2E00}"),
    ];
    for one in implementations() {
        for (name, text) in rows {
            assert_eq!(read(&one, name.as_bytes()), Ok(points(text)), "{name}");
        }
    }
}

#[test]
fn errors_of_reading() {
    let long = format!("a.{}", "_".repeat(64));
    let long_at_edge = format!("a.-{}", letters(&[63]));
    let rows = [
        ("", (2, 0)),
        (".", (2, 0)),
        ("a.", (2, 1)),
        (".a", (2, 0)),
        ("a..b", (2, 1)),
        (&long, (3, 1)),
        (&long_at_edge, (3, 1)),
        ("a.-_", (7, 1)),
        ("a.b.-c", (5, 2)),
        ("a.b.c-", (5, 2)),
        ("a.-", (5, 1)),
        ("lq-.a", (5, 0)),
        ("a.lq--", (9, 1)),
        ("a.LQ--aiagcyq", (6, 1)),
        ("a.lq--74ap-", (7, 1)),
        ("a.b.lq--74apz", (9, 2)),
        ("lq--74ac4", (16, 0)),
        ("xn--tda.lq--74ac4.-", (16, 1)),
        ("a.lq--amagcltc", (16, 1)),
        ("a.LQ--aiac4yi", (16, 1)),
        ("a.b.lq--aiagclq", (16, 2)),
        ("_..", (7, 0)),
        ("a\u{3002}b", (7, 0)),
        ("a.lq-_", (7, 1)),
    ];
    for one in implementations() {
        for (name, error) in rows {
            assert_eq!(read(&one, name.as_bytes()), Err(error), "{name}");
        }
    }
}

#[test]
fn the_longest_names_that_are_read() {
    let longest = [letters(&[1; 127]), letters(&[63, 63, 63, 61]), letters(&[61, 63, 63, 63])];
    for one in implementations() {
        for name in &longest {
            assert_eq!(name.len(), 253);
            assert_eq!(read(&one, name.as_bytes()), Ok(points(name)));
        }
        for name in [letters(&[63, 63, 63, 62]), letters(&[1; 128]), "_".repeat(254)] {
            assert_eq!(read(&one, name.as_bytes()), Err((3, 0)), "{name}");
        }
        assert_eq!(read(&one, ".".repeat(254).as_bytes()), Err((3, 0)));
        assert_eq!(read(&one, ".".repeat(253).as_bytes()), Err((2, 0)));
        assert_eq!(read(&one, letters(&[64]).as_bytes()), Err((3, 0)));
        assert_eq!(read(&one, letters(&[63, 64, 1]).as_bytes()), Err((3, 1)));
        let long_lace = format!("b.lq--{}.-", "a".repeat(60));
        assert_eq!(read(&one, long_lace.as_bytes()), Err((3, 1)));
        let last = format!("{}._", letters(&[1; 126]));
        assert_eq!(read(&one, last.as_bytes()), Err((7, 126)));
    }
}

#[test]
fn texts_that_are_written() {
    let rows = [
        ("bench.mill", "bench.mill"),
        ("Bench.MILL", "Bench.MILL"),
        ("-ab", "lq--amac2ylc"),
        ("lq--", "lq--aqagy4jnfu"),
        ("LQ--.lq", "lq--aqaeyujnfu.lq"),
        ("a\u{3002}b", "lq--74agcmacabra"),
        ("a.\u{FC}.-ab", "a.lq--74apy.lq--amac2ylc"),
        ("lq-a", "lq-a"),
    ];
    for one in implementations() {
        for (text, name) in rows {
            assert_eq!(written(&one, &points(text)), Ok(name.as_bytes().to_vec()), "{text}");
        }
    }
}

#[test]
fn errors_of_writing() {
    let with_no_point = |text: &str| [points(text), vec![0xD800]].concat();
    let rows: [(Vec<u32>, Error); 20] = [
        (vec![], (2, 0)),
        (points("."), (2, 0)),
        (points("a."), (2, 1)),
        (points(".a"), (2, 0)),
        (points("a..b"), (2, 1)),
        (points("a.Lq--a"), (16, 1)),
        (points("\u{FC}.a.LQ--9.."), (16, 2)),
        (with_no_point(&letters(&[64])), (4, 0)),
        (with_no_point("a.lq--a"), (4, 1)),
        (with_no_point("lq--a."), (16, 0)),
        (with_no_point("a.."), (2, 1)),
        (points(&letters(&[64])), (3, 0)),
        (points(&letters(&[63, 64])), (3, 1)),
        (points(&format!("lq--{}", letters(&[59]))), (16, 0)),
        (points(&format!("lq--{}", letters(&[60]))), (3, 0)),
        (points(&format!("a.lQ--{}", letters(&[60]))), (3, 1)),
        (points(&format!("b.{}", "\u{431}".repeat(35))), (3, 1)),
        // The whole name is too long as well.
        (points(&format!("{}.", letters(&[1; 128]))), (2, 128)),
        (points(&format!("{}.lq--a", letters(&[1; 300]))), (16, 300)),
        (with_no_point(&format!("{}.", letters(&[63; 5]))), (4, 5)),
    ];
    for one in implementations() {
        for (text, error) in &rows {
            assert_eq!(written(&one, text), Err(*error), "{text:X?}");
        }
    }
}

#[test]
fn the_longest_names_that_are_written() {
    let four = ["\u{431}".repeat(34).as_str(); 4].join(".");
    for one in implementations() {
        let texts = [letters(&[1; 127]), letters(&[63, 63, 63, 61]), format!("{four}.a")];
        for text in texts {
            assert_eq!(written(&one, &points(&text)).unwrap().len(), 253, "{text}");
        }
        let texts = [letters(&[1; 128]), letters(&[63, 63, 63, 62]), format!("{four}.aa")];
        for text in texts {
            assert_eq!(written(&one, &points(&text)), Err((3, 0)), "{text}");
        }
    }
}

#[test]
fn capacities_come_first() {
    for one in implementations() {
        for capacity in 0..260 {
            let code = if capacity < 253 { 1 } else { 2 };
            assert_eq!(called(one.name_encode, &[], 0, capacity), Err((code, 0)));
            assert_eq!(called(one.name_decode, b"", 0, capacity), Err((code, 0)));
            let long = called(one.name_decode, &[0xFF; 254], 0, capacity);
            assert_eq!(long, Err((if code == 1 { 1 } else { 3 }, 0)));
            let short = called(one.name_encode, &points("a"), 0, capacity);
            assert_eq!(short, if code == 1 { Err((1, 0)) } else { Ok(b"a".to_vec()) });
        }
        // A whole of 254 bytes is refused also where there is room for it.
        let text = points(&letters(&[63, 63, 63, 62]));
        assert_eq!(called(one.name_encode, &text, 0, 300), Err((3, 0)));
        let name = letters(&[63, 63, 63, 62]);
        assert_eq!(called(one.name_decode, name.as_bytes(), 0, 300), Err((3, 0)));
    }
}

/// The codes whose causes stand against reading a part, each cause looked for by itself, in
/// the order in which they are reported. LACE's own is what the same implementation answers.
fn causes_of_label(one: &Implementation, label: &[u8]) -> Vec<u64> {
    let points = numbers(label);
    let edge = points.first() == Some(&45) || points.last() == Some(&45);
    let all = if has_prefix(&points) {
        match called(one.lace_decode, label, 0, 63) {
            Ok(text) => vec![(16, text.contains(&0x2E))],
            Err((code, _)) => vec![(code, true)],
        }
    } else {
        let outside = points.iter().any(|&point| !is_ldh(point));
        vec![(2, label.is_empty()), (3, label.len() > 63), (7, outside), (5, edge)]
    };
    all.into_iter().filter_map(|(code, stands)| stands.then_some(code)).collect()
}

/// The same of writing a part.
fn causes_of_part(one: &Implementation, part: &[u32]) -> Vec<u64> {
    if part.is_empty() {
        return vec![2];
    }
    if is_host_label(part) {
        return if has_prefix(part) { vec![16] } else { vec![] };
    }
    let own = called(one.lace_encode, part, 0, 63).err().map(|(code, _)| code);
    own.into_iter().collect()
}

/// The errors whose causes stand against parts, in the order in which they are reported.
fn of_parts(causes: impl Iterator<Item = Vec<u64>>) -> Vec<Error> {
    let at = |(index, codes): (usize, Vec<u64>)| codes.into_iter().map(move |c| (c, index as u64));
    causes.enumerate().flat_map(at).collect()
}

/// The errors whose causes stand against reading a name.
fn causes_of_name(one: &Implementation, name: &[u8], capacity: usize) -> Vec<Error> {
    let all = [(1, capacity < 253), (2, name.is_empty()), (3, name.len() > 253)];
    let whole = all.into_iter().filter_map(|(code, stands)| stands.then_some((code, 0)));
    let parts = name.split(|&byte| byte == b'.').map(|label| causes_of_label(one, label));
    whole.chain(of_parts(parts)).collect()
}

/// The errors whose causes stand against writing a text. How long the name would be is asked
/// only of a text whose parts can be written.
fn causes_of_text(one: &Implementation, text: &[u32], capacity: usize) -> Vec<Error> {
    let all = [(1, capacity < 253), (2, text.is_empty())];
    let whole = all.into_iter().filter_map(|(code, stands)| stands.then_some((code, 0)));
    let parts = || text.split(|&point| point == 0x2E);
    let mut causes: Vec<Error> =
        whole.chain(of_parts(parts().map(|part| causes_of_part(one, part)))).collect();
    let label_length = |part: &[u32]| match is_host_label(part) {
        true => part.len(),
        false => called(one.lace_encode, part, 0, 63).map_or(0, |label| label.len()),
    };
    let length: usize = parts().map(|part| label_length(part) + 1).sum();
    if length - 1 > 253 {
        causes.push((3, 0));
    }
    causes
}

/// How often two causes stand together, the first of them the one that is reported: the two
/// codes, and whether they are of one part.
type Met = BTreeMap<(u64, u64, bool), usize>;

/// Counts the first cause, which is a part's, with each of the others.
fn count(met: &mut Met, causes: &[Error]) {
    if let Some((first, others)) = causes.split_first() {
        for other in others {
            *met.entry((first.0, other.0, first.1 == other.1)).or_default() += 1;
        }
    }
}

/// Whether each of some codes was met in a part after one that was refused with each of them.
fn each_after_each(met: &Met, codes: &[u64]) -> bool {
    let often = |&first: &u64, &second: &u64| {
        met.get(&(first, second, false)).is_some_and(|&times| times > 5)
    };
    codes.iter().all(|first| codes.iter().all(|second| often(first, second)))
}

#[test]
fn the_first_cause_against_reading_is_reported() {
    for one in implementations() {
        let mut source = Source::new(31);
        let mut met = Met::new();
        for _ in 0..TURNS {
            let call = name_decode(&mut source);
            let name = &call.given.elements;
            let causes = causes_of_name(&one, name, call.capacity);
            let answer = called(one.name_decode, name, 0, call.capacity);
            assert_eq!(answer.err(), causes.first().copied(), "{name:X?}");
            if call.capacity >= 253 && (1..=253).contains(&name.len()) {
                count(&mut met, &causes);
            }
        }
        assert!(each_after_each(&met, &[2, 3, 5, 6, 7, 9, 16]), "{met:?}");
        for two in [(3, 7), (3, 5), (7, 5)] {
            assert!(met[&(two.0, two.1, true)] > 20, "{met:?}");
        }
    }
}

#[test]
fn the_first_cause_against_writing_is_reported() {
    for one in implementations() {
        let mut source = Source::new(32);
        let mut met = Met::new();
        for _ in 0..TURNS {
            let call = name_encode(&mut source);
            let text = &call.given.elements;
            let causes = causes_of_text(&one, text, call.capacity);
            let answer = called(one.name_encode, text, 0, call.capacity);
            assert_eq!(answer.err(), causes.first().copied(), "{text:X?}");
            if call.capacity >= 253 && !text.is_empty() {
                count(&mut met, &causes);
            }
        }
        assert!(each_after_each(&met, &[2, 3, 4, 16]), "{met:?}");
    }
}

/// A name as it is written: a label with LACE's prefix in small letters, any other as it is.
fn as_written(name: &[u8]) -> Vec<u8> {
    let label = |label: &[u8]| match has_prefix(&numbers(label)) {
        true => label.to_ascii_lowercase(),
        false => label.to_vec(),
    };
    name.split(|&byte| byte == b'.').map(label).collect::<Vec<_>>().join(&b'.')
}

#[test]
fn names_that_are_read_are_written_again() {
    for one in implementations() {
        let mut source = Source::new(33);
        let (mut accepted, mut changed) = (0, 0);
        for _ in 0..TURNS {
            let name = names::name(&mut source);
            let Ok(text) = read(&one, &name) else {
                continue;
            };
            let again = written(&one, &text).unwrap();
            assert_eq!(again, as_written(&name), "{name:X?}");
            assert!(again.eq_ignore_ascii_case(&name));
            accepted += 1;
            changed += usize::from(again != name);
        }
        assert!(accepted > TURNS / 3 && changed > TURNS / 10, "{accepted} {changed}");
    }
}

#[test]
fn texts_that_are_written_are_read_again() {
    for one in implementations() {
        let mut source = Source::new(34);
        let mut accepted = 0;
        for _ in 0..TURNS {
            let text = names::text(&mut source);
            if let Ok(name) = written(&one, &text) {
                assert_eq!(as_written(&name), name, "{text:X?}");
                assert_eq!(read(&one, &name), Ok(text));
                accepted += 1;
            }
        }
        assert!(accepted > TURNS / 3, "{accepted}");
    }
}

// The parts are read and written as if each were a name of its own.
#[test]
fn a_name_is_its_parts() {
    for one in implementations() {
        let mut source = Source::new(35);
        for _ in 0..TURNS {
            let name = names::name(&mut source);
            if let Ok(text) = read(&one, &name) {
                let labels = name.split(|&byte| byte == b'.');
                let parts: Vec<Vec<u32>> = labels.map(|label| read(&one, label).unwrap()).collect();
                assert_eq!(text, parts.join(&0x2E), "{name:X?}");
            }
            let text = names::text(&mut source);
            if let Ok(name) = written(&one, &text) {
                let parts = text.split(|&point| point == 0x2E);
                let labels: Vec<Vec<u8>> = parts.map(|part| written(&one, part).unwrap()).collect();
                assert_eq!(name, labels.join(&b'.'), "{text:X?}");
            }
        }
    }
}

/// Rows made of up to five of these, one after the other, each row once or more.
fn rows_of<T: Copy>(pieces: &[&[T]]) -> Vec<Vec<T>> {
    let mut rows = vec![Vec::new()];
    let mut longest = rows.clone();
    for _ in 0..5 {
        let longer = |row: &Vec<T>| pieces.iter().map(|piece| [row, *piece].concat()).collect();
        longest = longest.iter().flat_map::<Vec<Vec<T>>, _>(longer).collect();
        rows.extend(longest.iter().cloned());
    }
    rows
}

#[test]
fn all_names_of_few_pieces() {
    let pieces: [&[u8]; 8] = [b"a", b"-", b".", b"_", b"lq--", b"LQ", b"74apy", b"74AC4"];
    for one in implementations() {
        for name in rows_of(&pieces) {
            let answer = read(&one, &name);
            assert_eq!(answer.clone().err(), causes_of_name(&one, &name, 253).first().copied());
            if let Ok(text) = answer {
                assert_eq!(written(&one, &text), Ok(as_written(&name)), "{name:X?}");
            }
        }
    }
}

#[test]
fn all_texts_of_few_pieces() {
    let pieces: [&[u32]; 8] =
        [&[0x61], &[45], &[0x2E], &[0x4C, 0x71, 45, 45], &[0xFC], &[0x3002], &[0xD800], &[0x2E; 2]];
    for one in implementations() {
        for text in rows_of(&pieces) {
            let answer = written(&one, &text);
            assert_eq!(answer.clone().err(), causes_of_text(&one, &text, 253).first().copied());
            if let Ok(name) = answer {
                assert_eq!(read(&one, &name), Ok(text));
            }
        }
    }
}

#[test]
fn every_byte_in_a_name() {
    for one in implementations() {
        for byte in 0..=255u8 {
            let (alone, within) =
                (read(&one, &[byte]), read(&one, &[b'x', b'.', b'b', byte, b'b']));
            let kept = |name: &[u8]| Ok(numbers(name));
            match byte {
                b'.' => {
                    assert_eq!(alone, Err((2, 0)));
                    assert_eq!(within, kept(b"x.b.b"));
                }
                b'-' => {
                    assert_eq!(alone, Err((5, 0)));
                    assert_eq!(within, kept(b"x.b-b"));
                }
                _ if byte.is_ascii_alphanumeric() => {
                    assert_eq!(alone, kept(&[byte]));
                    assert_eq!(within, kept(&[b'x', b'.', b'b', byte, b'b']));
                }
                _ => {
                    assert_eq!(alone, Err((7, 0)));
                    assert_eq!(within, Err((7, 1)));
                }
            }
        }
    }
}

// Only U+002E parts a text, and only letters, digits and hyphens go as they are.
#[test]
fn every_point_in_a_text() {
    for one in implementations() {
        for character in '\0'..=char::MAX {
            let text = [0x61, u32::from(character), 0x62];
            let name = written(&one, &text).unwrap();
            let plain = character == '.' || is_ldh(u32::from(character));
            if plain {
                assert_eq!(numbers(&name), text);
            } else {
                assert!(name.starts_with(b"lq--") && !name.contains(&b'.'), "{character:?}");
                assert_eq!(read(&one, &name), Ok(text.to_vec()));
            }
        }
        for number in [0xD800, 0xDC2E, 0xDFFF, 0x110000, 0x11002E, 0x8000002E, 0xFFFFFFFF] {
            assert_eq!(written(&one, &[0x61, 0x2E, number, 0x62]), Err((4, 1)));
        }
    }
}

// Each case of the prefix is the prefix, and no other beginning is.
#[test]
fn the_prefix_in_any_case() {
    for one in implementations() {
        for (l, q) in [(b'l', b'q'), (b'L', b'q'), (b'l', b'Q'), (b'L', b'Q')] {
            let name = [b"a.", &[l, q][..], b"--74apy"].concat();
            assert_eq!(read(&one, &name), Ok(points("a.\u{FC}")));
            assert_eq!(written(&one, &numbers(&name)), Err((16, 1)));
        }
        for byte in (0..=255u8).filter(u8::is_ascii_alphanumeric) {
            for (position, right) in b"lq--".iter().enumerate() {
                let mut name = b"a.lq--74apy".to_vec();
                name[2 + position] = byte;
                if byte.to_ascii_lowercase() != *right {
                    assert_eq!(read(&one, &name), Ok(numbers(&name)));
                    assert_eq!(written(&one, &numbers(&name)), Ok(name));
                }
            }
        }
    }
}
