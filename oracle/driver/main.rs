//! Runs the Rust reader over a stream of questions and writes an answer to each. ../README.md has both layouts.

use std::collections::HashMap;
use std::io::{self, BufRead, BufReader, BufWriter, Read, Write};

use apk_info_axml::anomaly::ResAnomaly;
use apk_info_axml::axml::{ANDROID_NAMESPACE, INVALID_ELEMENT_NAME};
use apk_info_axml::errors::AXMLError;
use apk_info_axml::structs::attrs_manifest::{self, get_attr_value, Items};
use apk_info_axml::structs::system_types::choose;
use apk_info_axml::structs::{ResourceValue, ResourceValueType};
use apk_info_axml::trace::{self, Trace};
use apk_info_axml::AXML;
use apk_info_xml::{is_valid_name, Element};

const TEXTS: u32 = 1;
const NAMES: u32 = 2;
const VALUES: u32 = 4;
const DUE: u32 = 8;
const MAINS: u32 = 64;
const NONE: u32 = u32::MAX;
/// A name that is empty: which attribute it is cannot be told by its address.
const EMPTY: u32 = u32::MAX - 1;

type Names = &'static [Vec<&'static str>];

/// A line for each name: the id in hexadecimal, a blank, the name.
fn names_of(path: &str) -> Names {
    let mut table: Vec<Vec<&'static str>> = vec![Vec::new(); 256];
    let text = std::fs::read_to_string(path).unwrap();
    for line in text.lines() {
        let (id, name) = line.split_once(' ').unwrap();
        let id = u32::from_str_radix(id.trim_start_matches("0x"), 16).unwrap();
        assert_eq!(id >> 24, 1);
        let entries = &mut table[(id >> 16 & 0xff) as usize];
        let at = (id & 0xffff) as usize;
        if entries.len() <= at {
            entries.resize(at + 1, "");
        }
        entries[at] = name.to_string().leak();
    }
    table.leak()
}

/// A line for each item: attribute, `enum` or `flag`, name, value in hexadecimal, a tab between them; what follows is not read.
fn items_of(path: &str) -> Items {
    let mut table: Vec<(&'static str, bool, Vec<(&'static str, u32)>)> = Vec::new();
    let text: &'static str = std::fs::read_to_string(path).unwrap().leak();
    for line in text.lines() {
        let cells: Vec<&'static str> = line.split('\t').collect();
        let value = u32::from_str_radix(cells[3].trim_start_matches("0x"), 16).unwrap();
        if table.last().is_none_or(|a| a.0 != cells[0]) {
            table.push((cells[0], cells[1] == "flag", Vec::new()));
        }
        table.last_mut().unwrap().2.push((cells[2], value));
    }
    table.leak()
}

/// Types whose values have a plain text by docs/FORMAT.md, V10. The Rust has texts for others too, which are not compared.
fn is_plain(kind: u32) -> bool {
    matches!(kind, 1 | 2 | 3 | 7 | 0x10 | 0x11 | 0x12 | 0x1c..=0x1f)
}

/// An answer under way: words, and texts as a length and bytes up to the next word.
struct Words(Vec<u8>);

impl Words {
    fn word(&mut self, w: u32) {
        self.0.extend_from_slice(&w.to_le_bytes());
    }
    fn text(&mut self, bytes: &[u8]) {
        self.word(bytes.len() as u32);
        self.0.extend_from_slice(bytes);
        while self.0.len() % 4 != 0 {
            self.0.push(0);
        }
    }
}

struct Attribute<'a> {
    words: [u32; 6],
    name: &'a str,
    value: &'a str,
}

struct Node<'a> {
    words: [u32; 6],
    name: &'a str,
}

#[derive(Default)]
struct Reading<'a> {
    refusal: u32,
    value: u32,
    starts: usize,
    nodes: Vec<Node<'a>>,
    attributes: Vec<Attribute<'a>>,
    notes: Vec<[u32; 3]>,
}

/// The number and the text of a value in the tree: see `trace::value`.
fn numbered(value: &str) -> (usize, &str) {
    let (number, text) = value.split_once('|').unwrap();
    (number.parse().unwrap(), text)
}

fn reading<'a>(file: &[u8], answer: &'a Result<AXML, AXMLError>, t: &Trace) -> Reading<'a> {
    let axml = match answer {
        Ok(axml) => axml,
        Err(e) => {
            let (refusal, value) = match e {
                AXMLError::TooSmallError => (1, file.len() as u32),
                AXMLError::HeaderSizeError(n) => (3, *n as u32),
                AXMLError::StringPoolError => (4, 0),
                AXMLError::ResourceMapError => (5, 0),
                AXMLError::MissingRoot => (6, 0),
                other => panic!("an error without a number: {other:?}"),
            };
            return Reading { refusal, value, ..Reading::default() };
        }
    };
    let mut r = Reading { starts: t.starts.len(), ..Reading::default() };
    // the tree in document order, which is the order of the starts: each attribute says so itself
    let mut open: Vec<(&Element, u32)> = vec![(&axml.root, NONE)];
    while let Some((element, parent)) = open.pop() {
        let me = r.nodes.len();
        let first = r.attributes.len() as u32;
        for a in element.attributes() {
            r.attributes.push(if a.prefix() == Some("xmlns") {
                assert!(me == 0 && r.attributes.is_empty() && a.name() == "android" && a.value() == ANDROID_NAMESPACE);
                Attribute { words: [0, 2, 0, 3, 0, 0], name: a.name(), value: a.value() }
            } else {
                let (number, text) = numbered(a.value());
                let v = &t.values[number];
                assert_eq!(v.start, me);
                let prefix = match a.prefix() {
                    None => 0,
                    Some("android") => 1,
                    Some(other) => panic!("prefix {other}"),
                };
                Attribute { words: [me as u32, prefix, v.name, v.kind as u32, v.data, v.namespace], name: a.name(), value: text }
            });
        }
        let start = &t.starts[me];
        assert!(!start.fixed || element.name() == INVALID_ELEMENT_NAME);
        let count = r.attributes.len() as u32 - first;
        r.nodes.push(Node { words: [start.name, start.fixed as u32, parent, first, count, start.line], name: element.name() });
        let children: Vec<&Element> = element.childrens().collect();
        open.extend(children.into_iter().rev().map(|c| (c, me as u32)));
    }
    let mut nine = t.bad_elements.iter();
    let mut ten = t.bad_attributes.iter();
    r.notes = axml
        .anomalies()
        .iter()
        .map(|n| match n {
            ResAnomaly::StringPoolGarbageChunk { chunk_type, skipped } => [0, *chunk_type as u32, *skipped],
            ResAnomaly::StringCountMismatch { declared, actual } => [1, *declared, *actual],
            ResAnomaly::StringOffsetsOutOfBounds { count } => [2, *count as u32, 0],
            ResAnomaly::NonXmlChunk { chunk_type } => [3, *chunk_type as u32, 0],
            ResAnomaly::XmlNodeHeaderSize { header_size } => [4, *header_size as u32, 0],
            ResAnomaly::UnknownChunk { chunk_type } => [5, *chunk_type as u32, 0],
            ResAnomaly::AttributeStartShifted { attribute_start } => [6, *attribute_start as u32, 0],
            ResAnomaly::AttributeSizeMismatch { attribute_size } => [7, *attribute_size as u32, 0],
            ResAnomaly::ElementTrailingBytes { len } => [8, *len, 0],
            ResAnomaly::InvalidElementName { name } => [9, *nine.next().unwrap(), name.is_some() as u32],
            ResAnomaly::InvalidAttributeName { .. } => [10, *ten.next().unwrap(), 0],
            ResAnomaly::TruncatedXml => [11, 0, 0],
            ResAnomaly::UnclosedElements { count } => [12, *count as u32, 0],
            other => panic!("a note of resource tables: {other:?}"),
        })
        .collect();
    r
}

/// The first value: refusal, type, data, reference.
fn first_value(axml: &AXML, t: &Trace, tag: &[u8], name: &[u8]) -> [u32; 4] {
    let (Ok(tag), Ok(name)) = (std::str::from_utf8(tag), std::str::from_utf8(name)) else {
        return [12, 0, 0, 0];
    };
    match axml.get_attribute_value(tag, name, None) {
        None => [12, 0, 0, 0],
        Some(v) if v == ANDROID_NAMESPACE => [0, 3, 0, 0],
        Some(v) => {
            let v = &t.values[numbered(&v).0];
            let id = axml.reference_ids.get(&(tag.to_string(), name.to_string()));
            assert!(id.is_none_or(|id| *id == v.data));
            [0, v.kind as u32, v.data, id.is_some() as u32]
        }
    }
}

/// The names of the main activities, each as the number of its attribute in the order of the tree: a name is told by where its text lies.
fn main_activities(file: &[u8]) -> Vec<u32> {
    trace::begin_bare();
    let mut rest = file;
    let answer = AXML::new(&mut rest, None);
    trace::take();
    let Ok(axml) = answer else {
        return vec![NONE];
    };
    let mut places = HashMap::new();
    let mut open: Vec<&Element> = vec![&axml.root];
    let mut number = 0;
    while let Some(element) = open.pop() {
        for a in element.attributes() {
            if !a.value().is_empty() {
                places.insert(a.value().as_ptr(), number);
            }
            number += 1;
        }
        let children: Vec<&Element> = element.childrens().collect();
        open.extend(children.into_iter().rev());
    }
    axml.get_main_activities().map(|name| if name.is_empty() { EMPTY } else { places[&name.as_ptr()] }).collect()
}

fn answer(file: &[u8], cap: u32, flags: u32, questions: &[(Vec<u8>, Vec<u8>)]) -> Words {
    trace::begin(cap as usize, flags & TEXTS != 0);
    let mut rest = file;
    let answer = AXML::new(&mut rest, None);
    let t = trace::take();
    let r = reading(file, &answer, &t);
    let mut out = Words(Vec::with_capacity(1024));
    for n in [r.refusal, r.value, r.starts as u32, r.nodes.len() as u32, r.attributes.len() as u32, r.notes.len() as u32] {
        out.word(n);
    }
    r.nodes.iter().flat_map(|n| n.words).for_each(|w| out.word(w));
    r.attributes.iter().flat_map(|a| a.words).for_each(|w| out.word(w));
    r.notes.iter().flatten().for_each(|w| out.word(*w));
    if flags & TEXTS != 0 {
        out.word(t.texts.len() as u32);
        for text in &t.texts {
            match text {
                None => out.word(NONE),
                Some(text) => out.text(text.as_bytes()),
            }
        }
    }
    if flags & NAMES != 0 {
        r.nodes.iter().for_each(|n| out.text(n.name.as_bytes()));
        r.attributes.iter().for_each(|a| out.text(a.name.as_bytes()));
    }
    if flags & VALUES != 0 {
        for a in &r.attributes {
            let [_, prefix, _, kind, data, _] = a.words;
            if prefix == 2 || is_plain(kind) || get_attr_value(a.name, &data).is_some() {
                out.text(a.value.as_bytes());
            } else {
                out.word(NONE);
            }
        }
    }
    if flags & DUE != 0 {
        out.text(&t.due);
    }
    if flags & MAINS != 0 {
        let found = main_activities(file);
        out.word(found.len() as u32);
        found.iter().for_each(|n| out.word(*n));
    }
    for (tag, name) in questions {
        let words = match &answer {
            Ok(axml) => first_value(axml, &t, tag, name),
            Err(_) => [NONE; 4],
        };
        words.iter().for_each(|w| out.word(*w));
    }
    out
}

fn word(input: &mut impl Read) -> u32 {
    let mut b = [0; 4];
    input.read_exact(&mut b).unwrap();
    u32::from_le_bytes(b)
}

fn text(input: &mut impl Read) -> Vec<u8> {
    let n = word(input) as usize;
    let mut v = vec![0; n.next_multiple_of(4)];
    input.read_exact(&mut v).unwrap();
    v.truncate(n);
    v
}

fn stream(sets: &[Names], items: &[Items]) {
    let mut input = BufReader::with_capacity(1 << 20, io::stdin().lock());
    let mut out = BufWriter::with_capacity(1 << 20, io::stdout().lock());
    while !input.fill_buf().unwrap().is_empty() {
        let [flags, cap, set, count] = [0; 4].map(|_: u32| word(&mut input));
        let file = text(&mut input);
        let questions: Vec<_> = (0..count).map(|_| (text(&mut input), text(&mut input))).collect();
        let (set, named) = (set as usize & 255, set as usize >> 8);
        choose(if set == 0 { &[] } else { sets[set - 1] });
        attrs_manifest::choose(if named == 0 { &[] } else { items[named - 1] });
        let a = answer(&file, cap, flags, &questions);
        out.write_all(&(a.0.len() as u32).to_le_bytes()).unwrap();
        out.write_all(&a.0).unwrap();
    }
    out.flush().unwrap();
}

fn listing(file: &[u8]) {
    let mut out = BufWriter::new(io::stdout().lock());
    trace::begin(8, false);
    let mut rest = file;
    let answer = AXML::new(&mut rest, None);
    let t = trace::take();
    let mut r = reading(file, &answer, &t);
    if file.len() > 54272 {
        r = Reading { refusal: 2, ..Reading::default() };
    }
    let numbers = [r.refusal, r.value, 8, r.starts as u32, r.nodes.len() as u32, r.attributes.len() as u32, r.notes.len() as u32];
    for (key, n) in ["refusal", "value", "cap", "starts", "nodes", "attributes", "notes"].iter().zip(numbers) {
        writeln!(out, "{key}={n}").unwrap();
    }
    for (i, n) in r.nodes.iter().enumerate() {
        let [name, fixed, parent, first, count, line] = n.words;
        writeln!(out, "node={i} name={name} fixed={fixed} parent={parent} first={first} count={count} line={line}").unwrap();
    }
    for (i, a) in r.attributes.iter().enumerate() {
        let [owner, prefix, name, kind, data, ns] = a.words;
        writeln!(out, "attribute={i} owner={owner} prefix={prefix} name={name} type={kind} data={data} ns={ns}").unwrap();
    }
    for (i, [kind, a, b]) in r.notes.iter().enumerate() {
        writeln!(out, "note={i} kind={kind} a={a} b={b}").unwrap();
    }
}

fn run() {
    let mut args: Vec<String> = std::env::args().skip(1).collect();
    let (mut sets, mut items) = (Vec::new(), Vec::new());
    while args.len() >= 2 && args[0] == "--names" {
        sets.push(names_of(&args[1]));
        args.drain(..2);
    }
    while args.len() >= 2 && args[0] == "--items" {
        items.push(items_of(&args[1]));
        args.drain(..2);
    }
    let lines = || io::stdin().lines().map(Result::unwrap);
    match args.first().map(String::as_str) {
        None => stream(&sets, &items),
        Some("--listing") => {
            let mut file = Vec::new();
            io::stdin().read_to_end(&mut file).unwrap();
            listing(&file);
        }
        Some("--valid") => {
            let mut out = BufWriter::new(io::stdout().lock());
            for line in lines() {
                let bytes = (0..line.len() / 2).map(|i| u8::from_str_radix(&line[2 * i..2 * i + 2], 16).unwrap()).collect();
                writeln!(out, "{}", is_valid_name(&String::from_utf8(bytes).unwrap()) as u32).unwrap();
            }
        }
        Some("--complex") => {
            let mut out = BufWriter::new(io::stdout().lock());
            for line in lines() {
                let data = line.parse().unwrap();
                let v = ResourceValue { size: 8, res: 0, data_type: ResourceValueType::Dimension, data };
                writeln!(out, "{:016x}", v.complex_to_float().to_bits()).unwrap();
            }
        }
        Some(other) => panic!("unknown argument {other}"),
    }
}

fn main() {
    // the Rust drops its tree by recursion, once for each level
    std::thread::Builder::new().stack_size(4 << 30).spawn(run).unwrap().join().unwrap();
}
