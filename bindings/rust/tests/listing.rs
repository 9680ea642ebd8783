//! A listing read back: docs/FORMAT.md, L7 to L9.

use itelbash::{Listing, Refusal};

const HEAD: &str = "refusal=0\nvalue=0\ncap=8\nstarts=1\nnodes=1\nattributes=0\nnotes=1\n";
const NODE: &str = "node=0 name=0 fixed=0 parent=4294967295 first=0 count=0 line=7\n";
const NOTE: &str = "note=0 kind=3 a=261 b=0\n";

#[test]
fn a_listing_is_read() {
    let read = Listing::read(format!("{HEAD}{NODE}{NOTE}").as_bytes()).unwrap();
    assert_eq!((read.refusal(), read.cap(), read.starts()), (None, Some(8), 1));
    assert_eq!(read.nodes(), [[0, 0, 4294967295, 0, 0, 7]]);
    assert!(read.attributes().is_empty());
    assert_eq!(read.notes(), [[3, 261, 0]]);
}

#[test]
fn a_listed_refusal_is_read() {
    let read = Listing::read(b"refusal=1\nvalue=5\ncap=9\nstarts=0\nnodes=0\nattributes=0\nnotes=0\n").unwrap();
    assert_eq!((read.refusal(), read.cap()), (Some(Refusal::TooSmall(5)), Some(9)));
}

#[test]
fn notes_that_were_switched_off_are_unknown() {
    let read = Listing::read(b"refusal=0\nvalue=0\ncap=0\nstarts=0\nnodes=0\nattributes=0\nnotes=0\n").unwrap();
    assert_eq!((read.refusal(), read.cap()), (None, None));
}

#[test]
fn the_first_line_with_a_fault_is_told() {
    let text = format!("{HEAD}{NODE}{NOTE}");
    let refused = |t: &str| Listing::read(t.as_bytes()).unwrap_err();
    assert_eq!(refused(""), Refusal::ListingOrder(1));
    assert_eq!(refused(&text[..text.len() - 1]), Refusal::ListingMalformed(9));
    assert_eq!(refused(&text.replace("cap=8", "cap=08")), Refusal::ListingMalformed(3));
    assert_eq!(refused(&text.replace("starts=1", "starts=+1")), Refusal::ListingMalformed(4));
    assert_eq!(refused(&text.replace('\n', "\r\n")), Refusal::ListingMalformed(1));
    assert_eq!(refused(&text.replace("line=7", "line=4294967296")), Refusal::ListingNumber(8));
    assert_eq!(refused(&text.replace("note=0", "note=1")), Refusal::ListingOrder(9));
    assert_eq!(refused(HEAD), Refusal::ListingOrder(8));
    assert_eq!(refused(&format!("{text}cap=8\n")), Refusal::ListingOrder(10));
    assert_eq!(refused(&text.replace("cap=8", "cap=0")), Refusal::ListingMalformed(7));
    assert_eq!(refused(HEAD).to_string(), "a line of the listing is not the one due: line 8");
}
