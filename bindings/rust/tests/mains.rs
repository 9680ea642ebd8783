//! Which screens start (docs/FORMAT.md, S) on a small manifest with an activity and an alias.

use itelbash::{ItemKind, Items, Manifest, Refusal};

const STRINGS: [&str; 14] = [
    "name", "enabled", "manifest", "application", "activity", "activity-alias", "intent-filter", "action", "category", "android.intent.action.MAIN",
    "android.intent.category.LAUNCHER", "android.intent.category.INFO", ".Main", ".Other",
];

fn index(text: &str) -> u32 {
    STRINGS.iter().position(|s| *s == text).unwrap() as u32
}

fn words(words: &[u32]) -> Vec<u8> {
    words.iter().flat_map(|w| w.to_le_bytes()).collect()
}

fn head() -> Vec<u8> {
    let mut data = Vec::new();
    let mut offsets = Vec::new();
    for s in STRINGS {
        offsets.push(data.len() as u32);
        data.extend([s.len() as u8, s.len() as u8]);
        data.extend(s.as_bytes());
        data.push(0);
    }
    data.resize(data.len().next_multiple_of(4), 0);
    let start = 28 + 4 * offsets.len() as u32;
    let mut file = words(&[0x8_0003, 0, 0x1c_0001, start + data.len() as u32, offsets.len() as u32, 0, 0x100, start, 0]);
    file.extend(words(&offsets));
    file.extend(data);
    file.extend(words(&[0x8_0180, 8]));
    file
}

/// A start with attributes: name, type and data each.
fn start(file: &mut Vec<u8>, tag: &str, attributes: &[(&str, u32, u32)]) {
    let count = attributes.len() as u32;
    file.extend(words(&[0x10_0102, 36 + 20 * count, 1, u32::MAX, u32::MAX, index(tag), 0x14_0014, count, 0]));
    for (name, kind, data) in attributes {
        file.extend(words(&[u32::MAX, index(name), u32::MAX, 8 | kind << 24, *data]));
    }
}

fn end(file: &mut Vec<u8>) {
    file.extend(words(&[0x10_0103, 24, 1, u32::MAX, u32::MAX, 0]));
}

fn named(file: &mut Vec<u8>, tag: &str, text: &str) {
    start(file, tag, &[("name", 3, index(text))]);
    end(file);
}

fn manifest(enabled: &[(&str, u32, u32)]) -> Manifest {
    let mut f = head();
    start(&mut f, "manifest", &[]);
    start(&mut f, "application", &[("enabled", 18, 0)]);
    let mut attributes = vec![("name", 3, index(".Main"))];
    attributes.extend(enabled);
    start(&mut f, "activity", &attributes);
    start(&mut f, "intent-filter", &[]);
    named(&mut f, "category", "android.intent.category.LAUNCHER");
    named(&mut f, "action", "android.intent.action.MAIN");
    end(&mut f);
    end(&mut f);
    start(&mut f, "activity-alias", &[("name", 3, index(".Other"))]);
    // two filters that have one each
    start(&mut f, "intent-filter", &[]);
    named(&mut f, "action", "android.intent.action.MAIN");
    end(&mut f);
    start(&mut f, "intent-filter", &[]);
    named(&mut f, "category", "android.intent.category.INFO");
    end(&mut f);
    end(&mut f);
    end(&mut f);
    end(&mut f);
    Manifest::read(&f).unwrap()
}

fn screens(m: &Manifest, items: &Items) -> Vec<String> {
    m.main_activities(items).unwrap().iter().map(|a| a.value_text(&Items::new()).unwrap().text).collect()
}

#[test]
fn which_start() {
    let none = Items::new();
    assert_eq!(screens(&manifest(&[]), &none), [".Main"]);
    assert_eq!(screens(&manifest(&[("enabled", 18, 1)]), &none), [".Main"]);
    assert!(screens(&manifest(&[("enabled", 18, 0)]), &none).is_empty());
    let m = manifest(&[]);
    let found = m.main_activities(&none).unwrap();
    assert_eq!((found[0].name(), found[0].owner().name()), ("name".into(), "activity".into()));
}

#[test]
fn by_items() {
    let off: Items = [("enabled", ItemKind::Enum, "false", 7)].into_iter().collect();
    assert!(screens(&manifest(&[("enabled", 16, 7)]), &off).is_empty());
    assert_eq!(screens(&manifest(&[("enabled", 16, 8)]), &off), [".Main"]);
    let apart: Items = [("a", ItemKind::Enum, "x", 1), ("b", ItemKind::Enum, "x", 1), ("a", ItemKind::Enum, "y", 2)].into_iter().collect();
    assert_eq!(manifest(&[]).main_activities(&apart).unwrap_err(), Refusal::Items(2));
}
