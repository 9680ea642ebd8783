//! Times the Rust and the proved reader in turns, in one process, where their answers are equal. See ../README.md.
//!
//!   time NAMES ROUNDS FILE     a line: nanoseconds of the Rust with and without freeing its result, of ours with and without making its
//!                              tables, each the median of the rounds; the ratio of the first to the third and of the second to the fourth,
//!                              each as median and quartiles. Where the answers differ it says so and ends with 1.
//!   apart NAMES ROUNDS FILE    as `time`, ours in the second mode, which the Rust does not have: it reads as ever, and the answers are held equal in
//!                              the first mode
//!   grow ROUNDS FILE..         the files in turns, ours with no names; for each a line: nanoseconds per byte, and those of the last file over
//!                              them, each as median and quartiles
//!   ask NAMES ROUNDS FILE      forty pairs of a file that was read, asked of the Rust one by one, of ours one by one, and of ours at once; a line: how many
//!                              have a value, nanoseconds of each, and those of the first and of the second over those of the third, each as
//!                              median and quartiles
//!   values NAMES ITEMS ROUNDS FILE   as `time`, of the value texts of all attributes: the Rust's strings of them, and ours all at once
//!   count SIDE NAMES FILE      calls SIDE (freed, rust, ours) once, in `measured`, for a tool that counts instructions
//!
//! NAMES is `none` or oracle/system-names.txt. One round is one call; of more, each has as many calls as take 2 ms.

use std::hint::black_box;
use std::time::Instant;

mod equal;
mod ours;
mod pairs;
mod values;

use ours::{Names, Tables};

/// The seeds of std's hash tables, the same in each run, so that a count of instructions repeats.
#[unsafe(no_mangle)]
pub unsafe extern "C" fn getrandom(p: *mut u8, n: usize, _: u32) -> isize {
    unsafe { std::ptr::write_bytes(p, 7, n) };
    n as isize
}

unsafe extern "C" {
    fn clock_gettime(clock: i32, t: *mut [i64; 2]) -> i32;
}

/// Nanoseconds that this thread has run: other work on the machine does not count.
fn ran() -> f64 {
    let mut t = [0; 2];
    unsafe { clock_gettime(3, &mut t) };
    t[0] as f64 * 1e9 + t[1] as f64
}

#[derive(Clone, Copy, PartialEq)]
enum Side {
    /// the Rust, and its result freed
    Freed,
    /// the Rust, its result freed behind the clock's back
    Rust,
    /// ours, its tables made and given back
    Made,
    /// ours, over tables that were there
    Ours,
}

/// One call. What the Rust keeps is freed by `equal::forget`.
#[unsafe(no_mangle)]
#[inline(never)]
fn measured(side: Side, file: &[u8], names: &Names, tables: &mut Tables) {
    match side {
        Side::Freed => equal::freed(file, names.lent()),
        Side::Rust => equal::kept(file, names.lent()),
        Side::Made => {
            let mut t = Tables::in_mode(file.len(), tables.mode);
            black_box(t.read(file, names));
        }
        Side::Ours => {
            black_box(tables.read(file, names));
        }
    }
}

/// The median of so many calls, in nanoseconds. What a call keeps is freed by `forget`.
fn nanos(call: &mut dyn FnMut(), forget: fn(), times: usize, long: bool) -> f64 {
    let began = Instant::now();
    let now = || if long { ran() } else { began.elapsed().as_nanos() as f64 };
    let mut all = Vec::with_capacity(times);
    for _ in 0..times {
        let t = now();
        call();
        all.push(now() - t);
        forget();
    }
    quartiles(&mut all)[1]
}

fn quartiles(v: &mut [f64]) -> [f64; 3] {
    v.sort_by(f64::total_cmp);
    [v[v.len() / 4], v[v.len() / 2], v[v.len() * 3 / 4]]
}

const SIDES: [Side; 4] = [Side::Freed, Side::Rust, Side::Made, Side::Ours];

/// Times four sides in turns: the Rust with and without freeing, ours with and without making; prints the line of `time`.
fn turns(rounds: usize, call: &mut dyn FnMut(usize), forget: fn()) {
    let once = [0, 1, 2, 3].map(|i| nanos(&mut || call(i), forget, 1, true));
    let times = once.map(|n| (2e6 / n).clamp(1.0, 2000.0) as usize);
    let mut took = if rounds == 1 { once.map(|n| vec![n]) } else { Default::default() };
    for round in 0..if rounds == 1 { 0 } else { rounds } {
        for k in 0..4 {
            let i = (round + k) % 4;
            took[i].push(nanos(&mut || call(i), forget, times[i], once[i] > 5e5));
        }
    }
    let ratio = |a: usize, b: usize| {
        let mut r: Vec<f64> = took[a].iter().zip(&took[b]).map(|(x, y)| x / y).collect();
        quartiles(&mut r)
    };
    let [whole, bare] = [ratio(0, 2), ratio(1, 3)].map(|[low, middle, high]| [middle, low, high]);
    let medians = took.each_mut().map(|v| quartiles(v)[1]);
    let words: Vec<String> = medians.into_iter().chain(whole).chain(bare).map(|x| format!("{x:.4}")).collect();
    println!("{}", words.join(" "));
}

/// Says where two answers differ, and ends.
fn held(path: &str, equal: Result<(), String>) {
    if let Err(why) = equal {
        println!("{path}: the answers differ: {why}");
        std::process::exit(1);
    }
}

fn time(names: &Names, mode: u32, rounds: usize, path: &str) {
    let file = std::fs::read(path).unwrap();
    let mut tables = Tables::of(file.len());
    let answer = tables.read(&file, names);
    held(path, equal::equal(&file, names.lent(), &tables, &answer));
    tables.mode = mode;
    turns(rounds, &mut |i| measured(SIDES[i], black_box(&file), names, &mut tables), equal::forget);
}

fn values(names: &Names, items: &Names, rounds: usize, path: &str) {
    let file = std::fs::read(path).unwrap();
    let mut tables = Tables::of(file.len());
    let answer = tables.read(&file, names);
    tables.attributes.truncate(ours::ATTRIBUTE_WORDS * answer.attributes as usize);
    let asked = values::Asked::of(&file, &tables.attributes);
    let mut texts = values::Texts::of(&file, names, items, &tables.attributes);
    held(path, asked.equal(&texts));
    let call = &mut |i| match i {
        0 => drop(black_box(asked.strings())),
        1 => values::keep(asked.strings()),
        2 => texts.again(black_box(&file), names, items, &tables.attributes),
        _ => texts.ask(black_box(&file), names, items, &tables.attributes),
    };
    turns(rounds, call, values::forget);
}

fn grow(rounds: usize, paths: &[String]) {
    let names = Names::of("none");
    let files: Vec<Vec<u8>> = paths.iter().map(|p| std::fs::read(p).unwrap()).collect();
    let mut tables: Vec<Tables> = files.iter().map(|f| Tables::of(f.len())).collect();
    let mut per = vec![vec![]; files.len()];
    for _ in 0..rounds {
        for (i, file) in files.iter().enumerate() {
            // as many calls as read 16 MiB, by the same clock for all
            let times = (1 << 24) / file.len();
            let t = ran();
            (0..times).for_each(|_| measured(Side::Ours, black_box(file), &names, &mut tables[i]));
            per[i].push((ran() - t) / (times * file.len()) as f64);
        }
    }
    let last = per[files.len() - 1].clone();
    for v in &mut per {
        let mut over: Vec<f64> = last.iter().zip(&*v).map(|(x, y)| x / y).collect();
        let [low, middle, high] = quartiles(v);
        let [least, over, most] = quartiles(&mut over);
        println!("{middle:.4} {low:.4} {high:.4} {over:.4} {least:.4} {most:.4}");
    }
}

fn ask(names: &Names, rounds: usize, path: &str) {
    let file = std::fs::read(path).unwrap();
    let mut tables = Tables::of(file.len());
    let answer = tables.read(&file, names);
    equal::kept(&file, names.lent());
    let mut asked = pairs::Asked::of(&file, names, &tables, (answer.nodes, answer.attributes));
    let found = asked.equal().unwrap_or_else(|why| {
        println!("{path}: the answers differ: {why}");
        std::process::exit(1);
    });
    // what is asked, 20 times over, by the time of this thread
    let mut took = |way: usize| {
        let t = ran();
        for _ in 0..20 {
            match way {
                0 => pairs::PAIRS.iter().for_each(|(tag, name)| {
                    black_box(equal::finds(tag, name, names.lent()));
                }),
                1 => pairs::PAIRS.iter().for_each(|(tag, name)| {
                    black_box(asked.one(tag, name));
                }),
                _ => {
                    black_box(asked.all());
                }
            }
        }
        (ran() - t) / 20.0
    };
    let mut times: [Vec<f64>; 3] = Default::default();
    for round in 0..rounds {
        for k in 0..3 {
            let way = (round + k) % 3;
            times[way].push(took(way));
        }
    }
    let ratio = |way: usize| {
        let mut r: Vec<f64> = times[way].iter().zip(&times[2]).map(|(x, y)| x / y).collect();
        let [low, middle, high] = quartiles(&mut r);
        [middle, low, high]
    };
    let ratios = [ratio(0), ratio(1)].concat();
    let medians = times.map(|mut v| quartiles(&mut v)[1]);
    let words: Vec<String> = medians.into_iter().chain(ratios).map(|x| format!("{x:.4}")).collect();
    println!("{found} {}", words.join(" "));
    equal::forget();
}

fn count(side: &str, names: &Names, path: &str) {
    let side = match side {
        "freed" => Side::Freed,
        "rust" => Side::Rust,
        _ => Side::Ours,
    };
    let file = std::fs::read(path).unwrap();
    let mut tables = Tables::of(file.len());
    measured(side, black_box(&file), names, &mut tables);
    equal::forget();
}

fn main() {
    let args: Vec<String> = std::env::args().skip(1).collect();
    match args.as_slice() {
        [what, side, names, path] if what == "count" => count(side, &Names::of(names), path),
        [what, rounds, paths @ ..] if what == "grow" => grow(rounds.parse().unwrap(), paths),
        [what, names, rounds, path] if what == "ask" => {
            let (names, rounds, path) = (Names::of(names), rounds.parse().unwrap(), path.clone());
            std::thread::Builder::new().stack_size(4 << 30).spawn(move || ask(&names, rounds, &path)).unwrap().join().unwrap();
        }
        [what, names, items, rounds, path] if what == "values" => {
            values(&Names::of(names), &Names::items(items), rounds.parse().unwrap(), path);
        }
        [what, names, rounds, path] if what == "time" || what == "apart" => {
            let mode = if what == "apart" { ours::APART } else { ours::MERGED };
            let (names, rounds, path) = (Names::of(names), rounds.parse().unwrap(), path.clone());
            // the Rust drops its tree by recursion, once for each level
            std::thread::Builder::new().stack_size(4 << 30).spawn(move || time(&names, mode, rounds, &path)).unwrap().join().unwrap();
        }
        _ => panic!("see the head of main.rs"),
    }
}
