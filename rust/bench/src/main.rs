//! The proved library and its twin, timed side by side in one run; prints tables in Markdown.
//!
//! The first table is of calls on a box that is kept. In the others both sides go through replay, so
//! a line printed per call is in every figure: a request's cost is a difference, of an input with the
//! image, a begin and so many of the request, less the same input without them, over their number.
//!
//!     bench [SAMPLES]         the tables
//!     bench --images DIR      writes each policy's image there; prints its name, file and last role

mod clock;
mod kept;
mod policies;

use clock::{in_turn, Samples, Side};
use policies::Timed;
use std::hint::black_box;

/// How many of a request stand in an input that is timed.
const MANY: usize = 100;

fn main() {
    let policies = [
        policies::fresh(),
        policies::typical(),
        policies::full(),
        policies::deep(),
    ];
    let words: Vec<String> = std::env::args().skip(1).collect();
    match words.iter().map(String::as_str).collect::<Vec<_>>()[..] {
        [] => tables(&policies, 60),
        ["--images", folder] => images(&policies, folder).expect("images are written"),
        [passes] => tables(&policies, passes.parse().expect("a number of samples")),
        _ => panic!("bench [SAMPLES], or bench --images DIR"),
    }
}

/// Writes the images to a folder, for programs that time them by other means.
fn images(policies: &[Timed], folder: &str) -> std::io::Result<()> {
    for timed in policies {
        let path = format!("{folder}/{}.image", timed.name);
        std::fs::write(&path, &timed.image)?;
        println!("{} {path} {}", timed.name, timed.last);
    }
    Ok(())
}

/// All tables.
fn tables(policies: &[Timed], passes: usize) {
    println!("Best of {passes} samples a figure, the median in parentheses; library and twin in turn. The ratio is of the best.\n");
    println!("| policy | call on a box that is kept | library, ns | twin, ns | ratio |");
    println!("|---|---|---|---|---|");
    for timed in policies {
        kept::calls(timed, passes);
    }
    println!("\nBy replay; a load's figure is that of a whole replay of the image alone.\n");
    println!("| policy | call | library, ns | twin, ns | ratio |");
    println!("|---|---|---|---|---|");
    let loads: Vec<String> = policies
        .iter()
        .map(|timed| requests(timed, passes))
        .collect();
    println!("\n| policy | load of an image | library, ns | MB/s | twin, ns | MB/s | ratio |");
    println!("|---|---|---|---|---|---|---|");
    loads.iter().for_each(|line| println!("{line}"));
    println!("\n| roles | files | bytes of each expression | ask by the library, ns | by the twin, ns | ratio |");
    println!("|---|---|---|---|---|---|");
    growth(passes);
    println!("\n| text | bytes | library, MB/s | twin, MB/s | ratio |");
    println!("|---|---|---|---|---|");
    texts(passes);
}

/// An input: the image and records.
fn input(image: &[u8], records: &[u8]) -> Vec<u8> {
    let mut input = (image.len() as u16).to_le_bytes().to_vec();
    input.extend(image);
    input.extend(records);
    input
}

/// The inputs that are timed for a policy, in the order that [`requests`] takes them.
fn inputs(timed: &Timed) -> Vec<Vec<u8>> {
    let begun = [1, 0, 0, 1, 1, timed.last];
    let [granted, refused, change, bypass] = timed.records();
    let many = |record: &[u8]| [&begun[..], &record.repeat(MANY)].concat();
    let begins: Vec<u8> = (0..16).flat_map(|slot| [1, slot, 0]).collect();
    let ends: Vec<u8> = (0..16).flat_map(|slot| [2, slot]).collect();
    let records = [
        vec![],
        begun.to_vec(),
        many(&granted),
        many(&refused),
        many(&change),
        many(&bypass),
        begins.clone(),
        [begins, ends].concat(),
    ];
    let whole = |records: &Vec<u8>| input(&timed.image, records);
    records.iter().map(whole).collect()
}

/// Times an ask on policies that grow, and prints a line for each.
fn growth(passes: usize) {
    let sizes = [
        (1, 1, 0),
        (32, 1, 0),
        (1, 32, 0),
        (32, 32, 0),
        (8, 8, 8),
        (32, 32, 4),
        (32, 32, 8),
        (32, 32, 16),
    ];
    for (roles, files, terms) in sizes {
        let image = policies::grown(roles, files, terms);
        let begun = [1, 0, 0];
        let without = input(&image, &begun);
        let with = input(&image, &[&begun[..], &[3, 0, 0, 0].repeat(MANY)].concat());
        let samples = in_turn(passes, &mut [sides(&without), sides(&with)]);
        let [library, twin] = [0, 1].map(|side| {
            let [without, with] = [0, 1].map(|which| samples[which][side].best_and_median()[0]);
            (with - without) / MANY as f64
        });
        let bytes = (3 * terms).saturating_sub(1);
        let ratio = library / twin;
        println!("| {roles} | {files} | {bytes} | {library:.0} | {twin:.0} | {ratio:.2} |");
    }
}

/// Times a policy's calls, prints a line for each request, and gives the load's.
fn requests(timed: &Timed, passes: usize) -> String {
    let inputs = inputs(timed);
    let mut things: Vec<[Side; 2]> = inputs.iter().map(|input| sides(input)).collect();
    let samples = in_turn(passes, &mut things);
    let line = |call: &str, with: usize, without: usize, count: usize| {
        let figures = [0, 1].map(|side| {
            let with = samples[with][side].best_and_median();
            let without = samples[without][side].best_and_median();
            [0, 1].map(|k| (with[k] - without[k]) / count as f64)
        });
        print_line(timed.name, call, figures);
    };
    line("ask, granted", 2, 1, MANY);
    line("ask, refused (14)", 3, 1, MANY);
    line("change, granted", 4, 1, MANY);
    line("bypass, granted", 5, 1, MANY);
    line("begin", 6, 0, 16);
    line("end", 7, 6, 16);
    load_line(timed, &samples[0])
}

/// The two sides of a replay, the library's first.
fn sides(input: &[u8]) -> [Side<'_>; 2] {
    let mut room = vec![0; gate::longest_output(input.len())];
    assert_eq!(gate::replay(input), twin::replay(input));
    let library = move || {
        let length = gate::replay_into(black_box(input), &mut room);
        black_box(length).expect("it fits");
    };
    let twin = move || {
        black_box(twin::replay(black_box(input)));
    };
    [Box::new(library), Box::new(twin)]
}

fn print_line(policy: &str, call: &str, [library, twin]: [[f64; 2]; 2]) {
    println!(
        "| {policy} | {call} | {:.0} ({:.0}) | {:.0} ({:.0}) | {:.2} |",
        library[0],
        library[1],
        twin[0],
        twin[1],
        library[0] / twin[0]
    );
}

/// The load's line, with the image's size and the bytes a second of the best.
fn load_line(timed: &Timed, samples: &[Samples; 2]) -> String {
    let bytes = timed.image.len();
    let figures = [0, 1].map(|side| samples[side].best_and_median());
    let [library, twin] = figures
        .map(|[best, median]| format!("{best:.0} ({median:.0}) | {:.0}", megabytes(bytes, best)));
    let ratio = figures[0][0] / figures[1][0];
    let name = timed.name;
    format!("| {name} | {bytes} bytes | {library} | {twin} | {ratio:.2} |")
}

/// Megabytes a second of so many bytes in so many ns.
fn megabytes(bytes: usize, ns: f64) -> f64 {
    bytes as f64 * 1e3 / ns
}

/// Times texts and prints a line for each kind.
fn texts(passes: usize) {
    let typical = [
        "1|3&5",
        "(1|3)&5",
        "4[1..2]",
        "12 & 7[0..3] & 31",
        "2[0..4] | 9 & 11 | (3 | 4) & 5[2..2]",
        "0",
        "17&18&19&20",
        "",
    ];
    let typical: Vec<Vec<u8>> = typical
        .iter()
        .map(|text| text.as_bytes().to_vec())
        .collect();
    let deep = ["(".repeat(255), "1".to_string(), ")".repeat(255)].concat();
    let kinds = [
        ("typical lines", typical),
        ("255 pairs of parentheses", vec![deep.into_bytes()]),
    ];
    for (name, texts) in &kinds {
        let mut things = [text_sides(texts)];
        let samples = in_turn(passes, &mut things);
        let bytes: usize = texts.iter().map(Vec::len).sum();
        let speed = [0, 1].map(|side| {
            let figures = samples[0][side].best_and_median();
            figures.map(|ns| megabytes(bytes, ns))
        });
        let [library, twin] = speed;
        println!(
            "| {name} | {bytes} | {:.1} ({:.1}) | {:.1} ({:.1}) | {:.2} |",
            library[0],
            library[1],
            twin[0],
            twin[1],
            twin[0] / library[0]
        );
    }
}

/// The two sides of turning each text once, the library's first.
fn text_sides(texts: &[Vec<u8>]) -> [Side<'_>; 2] {
    let library = move || {
        let mut out = [0; gate::MOST_BYTES];
        for text in texts {
            black_box(gate::turn_text(black_box(text), &mut out));
        }
    };
    let twin = move || {
        let mut out = [0; gate::MOST_BYTES];
        for text in texts {
            black_box(twin::turn_text(black_box(text), &mut out));
        }
    };
    [Box::new(library), Box::new(twin)]
}
