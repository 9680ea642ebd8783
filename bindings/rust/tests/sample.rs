//! The sample of docs/FORMAT.md, L4, and its relatives, L5.

use itelbash::{is_valid_name, Damage, Manifest, Mode, Note, NoteKind, Prefix, Refusal, SystemNames, Text, Value};

const HEAD: &[u8] = &[
    0x03, 0x00, 0x08, 0x00, 0x70, 0x00, 0x00, 0x00, 0x01, 0x00, 0x1c, 0x00, 0x24, 0x00, 0x00, 0x00, 0x01, 0x00, 0x00, 0x00, 0x00, 0x00, 0x00, 0x00, 0x00, 0x01,
    0x00, 0x00, 0x20, 0x00, 0x00, 0x00, 0x00, 0x00, 0x00, 0x00, 0x00, 0x00, 0x00, 0x00, 0x01, 0x01, 0x61, 0x00, 0x80, 0x01, 0x08, 0x00, 0x08, 0x00, 0x00, 0x00,
];
const START: &[u8] = &[
    0x02, 0x01, 0x10, 0x00, 0x24, 0x00, 0x00, 0x00, 0x01, 0x00, 0x00, 0x00, 0xff, 0xff, 0xff, 0xff, 0xff, 0xff, 0xff, 0xff, 0x00, 0x00, 0x00, 0x00, 0x14, 0x00,
    0x14, 0x00, 0x00, 0x00, 0x00, 0x00, 0x00, 0x00, 0x00, 0x00,
];
const END: &[u8] =
    &[0x03, 0x01, 0x10, 0x00, 0x18, 0x00, 0x00, 0x00, 0x01, 0x00, 0x00, 0x00, 0xff, 0xff, 0xff, 0xff, 0xff, 0xff, 0xff, 0xff, 0x00, 0x00, 0x00, 0x00];
const FOREIGN: &[u8] = &[0x05, 0x01, 0x08, 0x00, 0x08, 0x00, 0x00, 0x00];

fn file(parts: &[&[u8]]) -> Vec<u8> {
    [&[HEAD], parts].concat().concat()
}

fn notes(m: &Manifest) -> Vec<(NoteKind, u32, u32)> {
    m.notes().map(|n| (n.kind, n.a, n.b)).collect()
}

#[test]
fn sample() {
    let m = Manifest::read(&file(&[START, END])).unwrap();
    assert_eq!((m.starts(), m.nodes().len(), m.attributes().len(), m.notes().len()), (1, 1, 1, 0));
    assert_eq!(m.root().name(), "a");
    assert!(m.root().parent().is_none());
    assert_eq!(m.root().line(), 1);
    let a = m.root().attributes().next().unwrap();
    assert_eq!((a.owner().index(), a.prefix(), a.name().as_str()), (0, Prefix::Xmlns, "android"));
    assert_eq!(a.value(), Value { kind: 3, data: 0 });
    assert_eq!(a.text().unwrap().text, "http://schemas.android.com/apk/res/android");
    assert_eq!(m.text(0), Some(Text { text: "a".into(), damage: Damage::Whole }));
    assert_eq!(m.text(1), None);
    assert_eq!(m.first_value("a", "android"), Some(Value { kind: 3, data: 0 }));
    assert_eq!(m.first_value("a", "b"), None);
}

#[test]
fn a_foreign_chunk_is_noted_and_changes_nothing() {
    for parts in [&[FOREIGN, START, END][..], &[START, FOREIGN, END], &[START, END, FOREIGN], &[START, FOREIGN, FOREIGN, END]] {
        let m = Manifest::read(&file(parts)).unwrap();
        assert_eq!((m.starts(), m.nodes().len(), m.attributes().len()), (1, 1, 1));
        assert_eq!(notes(&m), [(NoteKind::NonXmlChunk, 0x105, 0)]);
    }
    let m = Manifest::read(&file(&[FOREIGN, START, FOREIGN, END])).unwrap();
    assert_eq!(notes(&m), [(NoteKind::NonXmlChunk, 0x105, 0), (NoteKind::NonXmlChunk, 0x105, 0)]);
    let m = Manifest::read_with(&file(&[FOREIGN, START, FOREIGN, END]), &SystemNames::new(), 1).unwrap();
    assert_eq!(notes(&m), [(NoteKind::NonXmlChunk, 0x105, 0)]);
}

#[test]
fn parents_and_unclosed_elements() {
    let m = Manifest::read(&file(&[START, START, END, END])).unwrap();
    assert_eq!(m.nodes().map(|n| n.parent().map(|p| p.index())).collect::<Vec<_>>(), [None, Some(0)]);
    let m = Manifest::read(&file(&[START, START, START, END])).unwrap();
    assert_eq!((m.starts(), m.nodes().len()), (3, 1));
    assert_eq!(notes(&m).last().map(|n| n.0), Some(NoteKind::UnclosedElements));
}

#[test]
fn a_damaged_name_is_noted() {
    let mut s = file(&[START, END, FOREIGN]);
    s[42] = 0xff; // the one byte of the name
    let m = Manifest::read(&s).unwrap();
    assert_eq!(notes(&m), [(NoteKind::DamagedElementName, 0, 1), (NoteKind::NonXmlChunk, 0x105, 0)]);
    assert_eq!(m.root().name(), "\u{fffd}");
    assert_eq!(m.notes().next().unwrap().to_string(), "the name of an element is damaged (string 0, of which characters could not be read)");
    s[41] = 3; // its length: the string is cut, and its text is empty
    let m = Manifest::read(&s).unwrap();
    assert_eq!(notes(&m)[..2], [(NoteKind::DamagedElementName, 0, 3), (NoteKind::InvalidElementName, 0, 1)]);
}

#[test]
fn the_line_is_the_starts_as_it_stands() {
    let mut s = file(&[START, END]);
    s[HEAD.len() + 8..HEAD.len() + 12].fill(0xff); // its line
    s[HEAD.len() + 12] = 5; // its comment
    s[HEAD.len() + START.len() + 8] = 7; // the end's line
    assert_eq!(Manifest::read(&s).unwrap().root().line(), 4_294_967_295);
}

/// S with three strings, `a`, the Android namespace and `u`, and on its element attributes called `a` of these namespaces.
fn with_namespaces(spaces: &[u32]) -> Vec<u8> {
    let word = |n: u32| n.to_le_bytes().to_vec();
    let strings: Vec<Vec<u8>> = ["a", "http://schemas.android.com/apk/res/android", "u"]
        .iter()
        .map(|s| [&[s.len() as u8, s.len() as u8][..], s.as_bytes(), &[0]].concat())
        .collect();
    let mut data = strings.concat();
    data.resize(56, 0);
    let offsets = [word(0), word(strings[0].len() as u32), word((strings[0].len() + strings[1].len()) as u32)].concat();
    let mut start = START.to_vec();
    start[4..8].copy_from_slice(&word(36 + 20 * spaces.len() as u32));
    start[28] = spaces.len() as u8;
    for (k, ns) in spaces.iter().enumerate() {
        start.extend([word(*ns), word(0), word(u32::MAX), vec![8, 0, 0, 16], word(7 + k as u32)].concat());
    }
    let pool = [&HEAD[..12], &word(28 + 12 + 56), &word(3), &HEAD[20..28], &word(40), &HEAD[32..36], &offsets, &data].concat();
    [&pool[..], &HEAD[44..], &start, END].concat()
}

#[test]
fn namespaces_are_told_apart_in_the_second_mode() {
    let all = |mode, spaces: &[u32]| {
        let m = Manifest::read_in(&with_namespaces(spaces), &SystemNames::new(), 16, mode).unwrap();
        m.attributes().map(|a| (a.prefix(), a.namespace(), a.value().data)).collect::<Vec<_>>()
    };
    let android = Some("http://schemas.android.com/apk/res/android".to_string());
    let own = Some("u".to_string());
    let lead = (Prefix::Xmlns, None, 0);
    assert_eq!(
        all(Mode::Merged, &[1, 2, u32::MAX]),
        [lead.clone(), (Prefix::Android, android.clone(), 7), (Prefix::None, None, 9)]
    );
    assert_eq!(
        all(Mode::Apart, &[1, 2, u32::MAX]),
        [lead.clone(), (Prefix::Android, android, 7), (Prefix::Own, own.clone(), 8), (Prefix::None, None, 9)]
    );
    assert_eq!(all(Mode::Merged, &[2, 1]), [lead.clone(), (Prefix::Android, own.clone(), 7)]);
    assert_eq!(all(Mode::Apart, &[2, 2]), [lead, (Prefix::Own, own, 7)]);
    assert_eq!(Refusal::from_number(16, 9), Some(Refusal::Mode(9)));
    assert_eq!(Refusal::Mode(9).to_string(), "there is no such mode (9)");
}

#[test]
fn refusals_say_what_to_do() {
    assert_eq!(Manifest::read(&[]).unwrap_err(), Refusal::TooSmall(0));
    assert_eq!(Manifest::read(&HEAD[..39]).unwrap_err(), Refusal::PoolOffsets(36));
    assert_eq!(Refusal::PoolOffsets(36).to_string(), "the string pool's offsets are cut short: byte 36 should be the first of them");
    assert_eq!(Manifest::read(&HEAD[..51]).unwrap_err(), Refusal::MapHeader(44));
    assert_eq!(Manifest::read(&[3, 0, 8]).unwrap_err().to_string(), "the file is cut short: it has fewer than 8 bytes (it has 3)");
    assert_eq!(Manifest::read(HEAD).unwrap_err(), Refusal::NoElement);
    assert_eq!(Manifest::read(&vec![0; (1 << 24) + 1]).unwrap_err(), Refusal::TooLarge);
    assert!(Manifest::read(b"PK\x03\x04\0\0\0\0\0").unwrap_err().to_string().contains("zip"));
    let falling: SystemNames = [(0x0101_0003, "name"), (0x0101_0001, "label")].into_iter().collect();
    assert_eq!(Manifest::read_with(&file(&[START, END]), &falling, 16).unwrap_err(), Refusal::SystemNames(1));
    assert_eq!(Manifest::read_with(&file(&[START, END]), &falling, 0).unwrap_err(), Refusal::NotesOff);
    assert_eq!(Manifest::read_with(&file(&[START, END]), &SystemNames::new(), 1).unwrap().starts(), 1);
}

#[test]
fn names_and_numbers() {
    assert!(is_valid_name("manifest") && !is_valid_name("a:b") && !is_valid_name("") && !is_valid_name("1a"));
    assert_eq!(Value { kind: 5, data: 0x0000_0a01 }.complex(), 10.0);
    let note = Note { kind: NoteKind::UnclosedElements, a: 2, b: 0 };
    assert_eq!(note.to_string(), "elements are not closed (2)");
    assert_eq!((note.kind.number(), NoteKind::from_number(12)), (12, Some(NoteKind::UnclosedElements)));
}

/// The text of string 0, and what became of it.
fn text(m: &Manifest) -> (String, Damage) {
    let t = m.text(0).unwrap();
    (t.text, t.damage)
}

#[test]
fn a_damaged_text_says_so() {
    let mut bad = file(&[START, END]);
    bad[42] = 0xff;
    let m = Manifest::read(&bad).unwrap();
    assert_eq!(text(&m), ("\u{fffd}".into(), Damage::Replaced(1)));
    assert_eq!(m.text(0).unwrap().damage.to_string(), "1 character could not be read");
    let part = m.texts(&[0]).unwrap().get(0).map(|p| (p.text.to_owned(), p.damage));
    assert_eq!(part, Some(text(&m)));
}

#[test]
fn content_is_a_part_of_what_was_lent() {
    let m = Manifest::read(&file(&[START, END])).unwrap();
    assert_eq!(m.content(0), Some(&b"a"[..]));
    assert_eq!(m.content(1), None);
    // S with one id in its map: its name stands among the system names, behind the prefix that is left out
    let mut named = file(&[START, END]);
    named[48] = 12;
    named.splice(52..52, 0x0101_0003_u32.to_le_bytes());
    let names: SystemNames = [(0x0101_0001, "label"), (0x0101_0003, "android:attr/name")].into_iter().collect();
    let m = Manifest::read_with(&named, &names, 16).unwrap();
    assert_eq!((text(&m), m.content(0)), (("name".into(), Damage::Whole), Some(&b"name"[..])));
    // a string that says it is longer than the pool: its text is empty, and it has no content
    let mut cut = file(&[START, END]);
    cut[41] = 5;
    let m = Manifest::read(&cut).unwrap();
    assert_eq!((text(&m), m.content(0)), (("".into(), Damage::Cut), None));
    // an empty string has an empty content
    let mut empty = file(&[START, END]);
    empty[41] = 0;
    assert_eq!(Manifest::read(&empty).unwrap().content(0), Some(&b""[..]));
}

#[test]
fn many_pairs_are_answered_as_one_by_one() {
    let m = Manifest::read(&file(&[START, END])).unwrap();
    assert_eq!(m.first_values(&[]), Ok(vec![]));
    let pairs = [("a", "android"), ("a", "b"), ("b", "android"), ("a", "android"), ("a", ""), ("", "android"), ("invalid-element", "android")];
    let one_by_one: Vec<_> = pairs.iter().map(|(tag, name)| m.first_value(tag, name)).collect();
    assert_eq!(m.first_values(&pairs), Ok(one_by_one.clone()));
    assert_eq!(one_by_one[3], Some(Value { kind: 3, data: 0 }));
    assert_eq!(one_by_one.iter().flatten().count(), 2);
    assert_eq!(m.first_values(&[("a", "android"); 41]), Ok(vec![Some(Value { kind: 3, data: 0 }); 41]));
    assert_eq!(Refusal::Pairs(2).to_string(), "the pairs do not lie in their area at pair 2");
}
