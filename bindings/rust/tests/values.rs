//! Value texts (docs/FORMAT.md, V) on the sample of L4, whose one string is `a`, with attributes of that name.

use itelbash::{Damage, ItemKind, Items, Manifest, Part, Refusal, ValueText};

const HEAD: &[u8] = &[
    0x03, 0x00, 0x08, 0x00, 0x70, 0x00, 0x00, 0x00, 0x01, 0x00, 0x1c, 0x00, 0x24, 0x00, 0x00, 0x00, 0x01, 0x00, 0x00, 0x00, 0x00, 0x00, 0x00, 0x00, 0x00, 0x01,
    0x00, 0x00, 0x20, 0x00, 0x00, 0x00, 0x00, 0x00, 0x00, 0x00, 0x00, 0x00, 0x00, 0x00, 0x01, 0x01, 0x61, 0x00, 0x80, 0x01, 0x08, 0x00, 0x08, 0x00, 0x00, 0x00,
];
const END: &[u8] =
    &[0x03, 0x01, 0x10, 0x00, 0x18, 0x00, 0x00, 0x00, 0x01, 0x00, 0x00, 0x00, 0xff, 0xff, 0xff, 0xff, 0xff, 0xff, 0xff, 0xff, 0x00, 0x00, 0x00, 0x00];

/// One element `a` with an attribute `a`, and where there is a second value an attribute `android:a`.
fn file(values: &[(u8, u32)]) -> Manifest {
    let mut f = HEAD.to_vec();
    f.extend([2, 1, 16, 0]);
    f.extend((36 + 20 * values.len() as u32).to_le_bytes());
    f.extend([1, 0, 0, 0, 255, 255, 255, 255, 255, 255, 255, 255, 0, 0, 0, 0, 20, 0, 20, 0, values.len() as u8, 0, 0, 0, 0, 0, 0, 0]);
    for (n, (kind, data)) in values.iter().enumerate() {
        f.extend(if n == 0 { u32::MAX } else { 0 }.to_le_bytes());
        f.extend([0, 0, 0, 0, 255, 255, 255, 255, 8, 0, 0, *kind]);
        f.extend(data.to_le_bytes());
    }
    f.extend(END);
    let m = Manifest::read(&f).unwrap();
    assert_eq!(m.attributes().len(), values.len() + 1);
    m
}

fn text(text: &str, uncovered: u32) -> Result<ValueText, Refusal> {
    Ok(ValueText { text: text.into(), uncovered, damage: Damage::Whole })
}

fn asked(kind: u8, data: u32, items: &Items) -> Result<ValueText, Refusal> {
    file(&[(kind, data)]).attributes().nth(1).unwrap().value_text(items)
}

#[test]
fn by_type() {
    let none = Items::new();
    assert_eq!(asked(3, 0, &none), text("a", 0));
    assert_eq!(asked(3, 7, &none), Ok(ValueText { text: "".into(), uncovered: 0, damage: Damage::Cut }));
    assert_eq!(asked(16, u32::MAX, &none), text("-1", 0));
    assert_eq!(asked(17, 0x1f, &none), text("0x0000001f", 0));
    assert_eq!(asked(18, 2, &none), text("true", 0));
    assert_eq!(asked(1, 0x7f01_0002, &none), text("@7f010002", 0));
    assert_eq!(asked(2, 0x7f01_0002, &none), text("?7f010002", 0));
    assert_eq!(asked(29, 0xff00_00ff, &none), text("#ff0000ff", 0));
    assert_eq!(asked(4, 0, &none), Err(Refusal::NoPlainText(4)));
    let leading = file(&[]).attributes().next().unwrap().value_text(&none);
    assert_eq!(leading, text("http://schemas.android.com/apk/res/android", 0));
}

#[test]
fn named_values() {
    let modes: Items = [("a", ItemKind::Enum, "five", 5), ("a", ItemKind::Enum, "six", 6)].into_iter().collect();
    assert_eq!(asked(16, 6, &modes), text("six", 0));
    assert_eq!(asked(4, 5, &modes), text("five", 0));
    assert_eq!(asked(16, u32::MAX, &modes), text("4294967295", 0));
    let bits: Items = [("a", ItemKind::Flag, "one", 1), ("a", ItemKind::Flag, "two", 2)].into_iter().collect();
    assert_eq!(asked(17, 0x13, &bits), text("one|two", 1));
    assert_eq!(asked(17, 0x30, &bits), text("0x00000030", 2));
    let apart: Items = [("a", ItemKind::Enum, "x", 1), ("b", ItemKind::Enum, "x", 1), ("a", ItemKind::Enum, "y", 2)].into_iter().collect();
    assert_eq!(asked(16, 1, &apart), Err(Refusal::Items(2)));
    assert!(Refusal::Items(2).to_string().starts_with("the items break their rule at item 2"));
}

#[test]
fn many_at_once_are_the_single_ones() {
    let bits: Items = [("a", ItemKind::Flag, "one", 1)].into_iter().collect();
    let m = file(&[(4, 8), (17, 3)]);
    let all = m.value_texts(&bits).unwrap();
    assert_eq!(all.len(), 3);
    for (attribute, part) in m.attributes().zip(all.iter()) {
        let single = attribute.value_text(&bits).ok();
        assert_eq!(part.map(|p| (p.text.to_owned(), p.uncovered, p.damage)), single.map(|s| (s.text, s.uncovered, s.damage)));
    }
    assert_eq!(all.get(1), None);
    assert_eq!(all.get(2), Some(Part { text: "one", uncovered: 1, damage: Damage::Whole }));
    assert_eq!(all.get(3), None);
    let texts = m.texts(&[0, 9, 0]).unwrap();
    assert_eq!(texts.iter().map(|p| p.map(|p| p.text)).collect::<Vec<_>>(), [Some("a"), None, Some("a")]);
    assert!(m.texts(&[]).unwrap().is_empty());
}
