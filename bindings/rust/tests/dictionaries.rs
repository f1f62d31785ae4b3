//! Dictionaries: strings numbered, found and shown, what refuses them, and a query asked and answered in names.

use sotjarn::Term::{Name, Number};
use sotjarn::{
    find, number, string, Branch, Decoded, Dictionaries, Dictionary, Kept, List, Lookup, Names, Numbered, NumberedStrings, Plan,
    Query, Refusal, StringKind, TableWords, Term, Texts, Value, Variable,
};

/// Strings one behind the other, and their ends.
fn joined(strings: &[&[u8]]) -> (Vec<u8>, Vec<u32>) {
    let ends = (1..=strings.len()).map(|many| strings[..many].concat().len() as u32);
    (strings.concat(), ends.collect())
}

/// What refuses strings, as a dictionary too.
fn refused(kind: StringKind, strings: &[&[u8]]) -> [Option<Refusal>; 2] {
    let (bytes, ends) = joined(strings);
    let (mut out, mut cuts) = (vec![0; bytes.len()], vec![0; ends.len()]);
    let (mut numbers, mut places) = (cuts.clone(), cuts.clone());
    let numbered = number(kind, &bytes, &ends, &mut out, &mut cuts, &mut numbers, &mut places);
    [numbered.err(), find(kind, &bytes, &ends, b"").err()]
}

const WRONG: [Option<Refusal>; 2] = [Some(Refusal::Strings), Some(Refusal::Dictionary)];

#[test]
fn texts_are_any_utf8_and_names_are_iris() {
    for fine in [
        "a",
        "é",
        "\u{D7FF}",
        "\u{E000}",
        "\u{FFFF}",
        "\u{10000}",
        "\u{10FFFF}",
        "!",
        "~",
        "\u{7F}",
    ] {
        assert_eq!(refused(StringKind::Texts, &[fine.as_bytes()]), [None, None], "{fine:?}");
        assert_eq!(refused(StringKind::Names, &[fine.as_bytes()]), [None, None], "{fine:?}");
    }
    for no_name in ["", " ", "\0", "\u{1F}", "\"", "<", ">", "\\", "^", "`", "{", "|", "}", "a b"] {
        assert_eq!(refused(StringKind::Texts, &[no_name.as_bytes()]), [None, None], "{no_name:?}");
        assert_eq!(refused(StringKind::Names, &[no_name.as_bytes()]), WRONG, "{no_name:?}");
    }
    for no_utf8 in [
        &[0x80][..],
        &[0xC0, 0x80],
        &[0xC1, 0xBF],
        &[0xE0, 0x9F, 0xBF],
        &[0xED, 0xA0, 0x80],
        &[0xF0, 0x8F, 0xBF, 0xBF],
        &[0xF4, 0x90, 0x80, 0x80],
        &[0xF5, 0x80, 0x80, 0x80],
        &[0xE2, 0x82],
        &[0xFF],
    ] {
        assert_eq!(refused(StringKind::Texts, &[no_utf8]), WRONG, "{no_utf8:x?}");
    }
}

#[test]
fn a_character_is_not_cut_in_two() {
    let (bytes, ends) = joined(&[&[0xC3], &[0xA9]]);
    assert_eq!(Dictionary::<Texts>::open(&bytes, &ends).err(), Some(Refusal::Dictionary));
    assert!(Dictionary::<Texts>::open(&bytes, &ends[1..]).is_ok());
}

#[test]
fn ends_cut_the_bytes() {
    for (ends, right) in [
        (&[1, 2][..], true),
        (&[1, 3], false),
        (&[1, 1], false),
        (&[2, 1], false),
        (&[], false),
        (&[2], true),
    ] {
        assert_eq!(Dictionary::<Texts>::open(b"ab", ends).is_ok(), right, "{ends:?}");
    }
    assert!(Dictionary::<Texts>::open(b"", &[]).is_ok_and(|none| none.is_empty() && none.string(0).is_none()));
    assert!(Dictionary::<Texts>::open(b"", &[0]).is_ok_and(|empty| empty.string(0) == Some("")));
    assert_eq!(Dictionary::<Texts>::open(b"", &[0, 0]).err(), Some(Refusal::Dictionary)); // the empty text twice
    assert_eq!(Dictionary::<Names>::open(b"", &[0]).err(), Some(Refusal::Dictionary));
    assert_eq!(Dictionary::<Texts>::open(b"ab", &[u32::MAX]).err(), Some(Refusal::Dictionary));
}

#[test]
fn room_is_asked_for_by_lengths() {
    let (bytes, ends) = joined(&[b"oak", b"oak"]);
    let numbered = |out: usize, words: [usize; 3]| {
        let (mut out, [mut cuts, mut numbers, mut places]) = (vec![7; out], words.map(|words| vec![7; words]));
        let answer = number(
            StringKind::Texts,
            &bytes,
            &ends,
            &mut out,
            &mut cuts,
            &mut numbers,
            &mut places,
        );
        if answer.is_err() {
            let kept = out.iter().all(|&byte| byte == 7) && [&cuts, &numbers, &places].into_iter().flatten().all(|&word| word == 7);
            assert!(kept, "a refused call changes nothing");
        }
        answer
    };
    assert_eq!(numbered(6, [2, 2, 2]), Ok(Numbered { bytes: 3, strings: 1 }));
    for (out, words) in [(5, [2, 2, 2]), (6, [1, 2, 2]), (6, [2, 1, 2]), (6, [2, 2, 1])] {
        assert_eq!(numbered(out, words), Err(Refusal::NumberedLengths), "{out} {words:?}");
    }
}

/// Strings in an order that is right: beginnings before what they begin, and by code points, where UTF-16 has U+10000 before U+E000.
const ASCENDING: [&str; 9] = ["", "\0", "a", "a\0", "aa", "b", "é", "\u{E000}", "\u{10000}"];

#[test]
fn numbers_are_places_in_the_order_of_code_points() {
    let mut given: Vec<&str> = ASCENDING.into_iter().rev().chain(ASCENDING).collect();
    given.swap(0, 4);
    let numbered = NumberedStrings::<Texts>::number(&given).expect("texts are any strings");
    let dictionary = numbered.dictionary();
    assert_eq!(dictionary.strings().collect::<Vec<_>>(), ASCENDING);
    assert_eq!(Dictionary::open(dictionary.bytes(), dictionary.ends()), Ok(dictionary));
    for (text, &number) in given.iter().zip(numbered.numbers()) {
        assert_eq!(dictionary.string(number), Some(*text));
        assert_eq!(dictionary.find(text), Lookup::At(number as usize));
        assert_eq!(dictionary.term(text), Some(Term::Text(number)));
        let bounds = string(StringKind::Texts, dictionary.bytes(), dictionary.ends(), number as usize);
        assert_eq!(
            bounds.map(|bounds| bounds.map(|part| &dictionary.bytes()[part])),
            Ok(Some(text.as_bytes()))
        );
    }
    for (absent, rank) in [
        ("\u{1}", 2),
        ("a\u{1}", 4),
        ("aaa", 5),
        ("c", 6),
        ("\u{D7FF}", 7),
        ("\u{FFFF}", 8),
        ("\u{10001}", 9),
    ] {
        assert_eq!(dictionary.find(absent), Lookup::Absent(rank), "{absent:?}");
        assert_eq!(dictionary.term(absent), None);
    }
    assert_eq!((dictionary.string(9), dictionary.string(u32::MAX)), (None, None));
    let (bytes, ends) = (dictionary.bytes(), dictionary.ends());
    assert_eq!(find(StringKind::Texts, bytes, ends, &[0xFF]), Ok(Lookup::Absent(9))); // what is looked for may be any bytes
    assert_eq!(string(StringKind::Texts, bytes, ends, usize::MAX), Ok(None));
}

#[test]
fn dictionaries_that_do_not_ascend_are_refused() {
    for at in 1..ASCENDING.len() {
        let mut strings = ASCENDING.map(str::as_bytes);
        strings.swap(at - 1, at);
        assert_eq!(refused(StringKind::Texts, &strings), [None, WRONG[1]], "{at}");
        strings[at] = strings[at - 1];
        assert_eq!(refused(StringKind::Texts, &strings), [None, WRONG[1]], "{at} twice");
    }
}

#[test]
fn a_query_is_asked_and_answered_in_names() {
    let iri = |what: &str| format!("https://wood.example/{what}");
    let stems = [
        ("stem/10", "stand/A", 45),
        ("stem/2", "stand/A", 310),
        ("stem/3", "stand/B", 288),
    ];
    let words = stems.iter().flat_map(|&(stem, stand, _)| [iri(stem), iri(stand)]);
    let names = NumberedStrings::<Names>::number(words.chain([iri("growsIn"), iri("diameter")])).expect("they are IRIs");
    let names = names.dictionary();
    let name = |what: &str| names.term(&iri(what)).expect("it is numbered");
    let rows = stems.iter().flat_map(|&(stem, stand, size)| {
        [
            [name(stem), name("growsIn"), name(stand)],
            [name(stem), name("diameter"), Number(size)],
        ]
    });
    let wood = TableWords::of_year(2026, rows).expect("the rows are right");

    let (stem, size) = (Variable(0), Variable(1));
    let branch = Branch::new()
        .pattern(stem, name("growsIn"), name("stand/A"))
        .pattern(stem, name("diameter"), size);
    let plan = Plan::builder().branch(branch).rows([stem, size]).expect("every value fits");
    let mut kept = Kept::new(&plan);
    for turn in Query::open(wood.survey(1), plan.words()).expect("it opens").turns(4, 64) {
        kept.take(&turn.expect("it is served").list).expect("rows are joined");
    }
    let Ok(List::Rows(rows)) = kept.list() else {
        panic!("the plan ends in rows")
    };

    let texts = NumberedStrings::<Texts>::number([""; 0]).expect("none is a dictionary too");
    let both = Dictionaries {
        names,
        texts: texts.dictionary(),
    };
    let shown: Vec<_> = rows
        .iter()
        .map(|row| both.decode_row(row).expect("they are the survey's"))
        .collect();
    let (first, second) = (iri("stem/10"), iri("stem/2"));
    let right = [
        [Decoded::Name(&first), Decoded::Number(45)],
        [Decoded::Name(&second), Decoded::Number(310)],
    ];
    assert_eq!(shown, right); // by code points stem/10 comes before stem/2
    assert_eq!(both.decode(Value::Text(0)), None);
    assert_eq!(both.decode_row(&[Value::Number(1), Value::Name(99)]), None);
    assert_eq!(name("stem/10"), Name(4));
}

#[test]
fn values_are_shown_as_sparql_writes_them() {
    let shown = [
        Decoded::Unbound,
        Decoded::Name("n"),
        Decoded::Number(-3),
        Decoded::Text("a\"\\\n\r\tü"),
    ];
    assert_eq!(shown.map(|value| value.to_string()), ["-", "<n>", "-3", r#""a\"\\\n\r\tü""#]);
    assert!(shown.windows(2).all(|pair| pair[0] < pair[1]));
}
