//! A round-up of readings of the sample of docs/FORMAT.md, L4, and of its relatives.

use itelbash::{Manifest, NoteKind, Refusal, RoundUp, SizeClass};

const SAMPLE: &[u8] = include_bytes!("../../../crates/listing/stdin");
const FOREIGN: &[u8] = &[0x05, 0x01, 0x08, 0x00, 0x08, 0x00, 0x00, 0x00];

fn with_foreign(count: usize) -> Vec<u8> {
    let mut file = SAMPLE.to_vec();
    for _ in 0..count {
        file.extend_from_slice(FOREIGN);
    }
    file
}

fn month(files: &[&[u8]]) -> RoundUp {
    let mut month = RoundUp::new();
    for file in files {
        month.add(&Manifest::read(file), file.len()).unwrap();
    }
    month
}

#[test]
fn files_and_refusals() {
    let m = month(&[SAMPLE, &SAMPLE[..7], &SAMPLE[..5], SAMPLE, &SAMPLE[..52]]);
    assert_eq!(m.files_read(), 2);
    assert_eq!((m.refused(&Refusal::TooSmall(0)), m.refused(&Refusal::NoElement), m.refused(&Refusal::TooLarge)), (2, 1, 0));
    assert_eq!(m.words().iter().map(|n| u64::from(*n)).sum::<u64>(), 5);
}

#[test]
fn notes_by_kind_and_size() {
    let large = with_foreign(4096);
    let m = month(&[&with_foreign(1), &large]);
    assert_eq!(m.files_read(), 2);
    assert_eq!(m.notes(NoteKind::NonXmlChunk, SizeClass::UpTo4096), 1);
    assert_eq!(m.notes(NoteKind::NonXmlChunk, SizeClass::UpTo65536), 1);
    assert_eq!(m.notes(NoteKind::NonXmlChunk, SizeClass::UpTo16384), 0);
    for kind in NoteKind::ALL.into_iter().filter(|k| *k != NoteKind::NonXmlChunk) {
        assert!(SizeClass::ALL.iter().all(|c| m.notes(kind, *c) == 0), "{kind:?}");
    }
}

#[test]
fn any_order() {
    let (one, two) = (with_foreign(1), with_foreign(600));
    let files: [&[u8]; 4] = [SAMPLE, &one, &SAMPLE[..7], &two];
    let first = month(&files);
    for shift in 1..4 {
        let mut turned = files;
        turned.rotate_left(shift);
        assert_eq!(month(&turned), first);
    }
}

#[test]
fn full() {
    let mut words = *RoundUp::new().words();
    words[0] = u32::MAX;
    let mut m = RoundUp::from_words(words);
    assert_eq!(m.add(&Manifest::read(SAMPLE), SAMPLE.len()), Err(Refusal::RoundUpFull));
    assert_eq!(m.words(), &words);
    // a full count that is not due refuses nothing
    m.add(&Manifest::read(&SAMPLE[..7]), 7).unwrap();
    assert_eq!((m.files_read(), m.refused(&Refusal::TooSmall(7))), (u32::MAX, 1));
    assert_eq!(Refusal::RoundUpFull.to_string(), "a count of the round-up is full");
}

#[test]
fn a_month_goes_on() {
    let first = month(&[SAMPLE]);
    let mut again = RoundUp::from_words(*first.words());
    again.add(&Manifest::read(SAMPLE), SAMPLE.len()).unwrap();
    assert_eq!(again, month(&[SAMPLE, SAMPLE]));
}
