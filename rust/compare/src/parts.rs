//! The parts of a run: each round of a part makes its calls from its own seed.

use crate::draw::Draw;
use crate::policies;
use crate::records::{input, For};
use crate::runner::Runner;
use crate::texts;
use twin::image::Policy;

/// What a round does.
type Round = fn(&mut Draw, &mut Runner) -> Result<(), String>;

/// A part's name, its rounds in a short run, and what a round does.
pub const PARTS: [(&str, usize, Round); 9] = [
    ("sequences", 3000, sequence),
    ("damaged images", 24, damaged_image),
    ("cut images", 24, cut_image),
    ("longest images", 4, longest_image),
    ("wrong expressions", 1200, wrong_expressions),
    ("cut and unknown records", 40, broken_records),
    ("room for the output", 20, rooms),
    ("texts", 4000, text),
    ("texts, every byte at every place", 8, every_byte),
];

/// A rich policy and a sequence of all requests.
fn sequence(draw: &mut Draw, runner: &mut Runner) -> Result<(), String> {
    let policy = policies::rich(draw);
    let count = 20 + draw.below(60);
    let records = For::policy(&policy).records(draw, count);
    runner.replay(&input(&policy.to_image(), &records))
}

/// A policy whose image has a few hundred bytes.
pub fn small(draw: &mut Draw) -> Policy {
    let n = 1 + draw.below(9);
    let (roles, files) = (1 + draw.below(2), 1 + draw.below(2));
    policies::policy(draw, n, roles, files)
}

/// A begin and an end, which tell the policy loaded from the fresh state.
const AFTER_LOAD: &[u8] = &[1, 0, 0, 2, 0];

/// An image with each byte altered in turn, and with a byte put in or taken out there.
fn damaged_image(draw: &mut Draw, runner: &mut Runner) -> Result<(), String> {
    let image = small(draw).to_image();
    for at in 0..image.len() {
        let byte = image[at];
        let drawn = draw.byte(256);
        for other in [byte ^ 1, byte.wrapping_add(1), 0, 49, 255, drawn] {
            let mut altered = image.clone();
            altered[at] = other;
            runner.replay(&input(&altered, AFTER_LOAD))?;
        }
        let mut longer = image.clone();
        longer.insert(at, draw.byte(6));
        runner.replay(&input(&longer, AFTER_LOAD))?;
        let mut shorter = image.clone();
        shorter.remove(at);
        runner.replay(&input(&shorter, AFTER_LOAD))?;
    }
    runner.replay(&input(&[&image[..], &[0]].concat(), AFTER_LOAD))
}

/// An image cut at every length: stated so, with records behind it, and by the input's end.
fn cut_image(draw: &mut Draw, runner: &mut Runner) -> Result<(), String> {
    let image = small(draw).to_image();
    let whole = input(&image, AFTER_LOAD);
    for length in 0..=image.len() {
        runner.replay(&input(&image[..length], AFTER_LOAD))?;
        runner.replay(&whole[..2 + length])?;
    }
    Ok(())
}

/// An image with every count at its most, as it is and damaged at some places.
fn longest_image(draw: &mut Draw, runner: &mut Runner) -> Result<(), String> {
    let policy = policies::policy(draw, 64, 32, 32);
    let records = For::policy(&policy).records(draw, 20);
    let image = policy.to_image();
    runner.replay(&input(&image, &records))?;
    for _ in 0..60 {
        let mut altered = image.clone();
        let at = draw.below(image.len());
        altered[at] = draw.byte(256);
        runner.replay(&input(&altered, &records))?;
        runner.replay(&input(&altered[..at], &records))?;
    }
    let mut over = image;
    over.resize(0xffff, draw.byte(2));
    runner.replay(&input(&over, &records))
}

/// Changes and bypasses with expressions damaged at every place, by a role that may alter.
fn wrong_expressions(draw: &mut Draw, runner: &mut Runner) -> Result<(), String> {
    let n = 1 + draw.below(64);
    let mut policy = policies::policy(draw, n, 1, 1);
    for part in &mut policy.files[0][16..] {
        part.clear();
    }
    let mut records = vec![1, 0, 0];
    records.extend(For::policy(&policy).damaged_everywhere(draw).concat());
    runner.replay(&input(&policy.to_image(), &records))
}

/// Records cut at every length, and with an unknown code put in.
fn broken_records(draw: &mut Draw, runner: &mut Runner) -> Result<(), String> {
    let policy = small(draw);
    let image = policy.to_image();
    let records = For::policy(&policy).records(draw, 8);
    for length in 0..=records.len() {
        runner.replay(&input(&image, &records[..length]))?;
        let mut unknown = records.clone();
        let code = draw.pick(&[0, 6, 7, 255]);
        unknown.insert(length, code);
        runner.replay(&input(&image, &unknown))?;
    }
    for length in 0..2 {
        let short = draw.bytes(length);
        runner.replay(&short)?;
    }
    let count = draw.below(40);
    let any = draw.bytes(count);
    runner.replay(&any)
}

/// A replay with every room for its output.
fn rooms(draw: &mut Draw, runner: &mut Runner) -> Result<(), String> {
    let policy = small(draw);
    let records = For::policy(&policy).records(draw, 3);
    let mut whole = input(&policy.to_image(), &records);
    runner.every_room(&whole)?;
    whole.push(draw.byte(256));
    runner.every_room(&whole)?;
    runner.every_room(&whole[..draw.below(12)])
}

/// Texts of every sort, mostly with room enough.
fn text(draw: &mut Draw, runner: &mut Runner) -> Result<(), String> {
    let items = draw.pick(&[0, 1, 2, 3, 5, 9, 14, 15, 16, 17, 40]);
    let legal = texts::legal(draw, items);
    let damaged = texts::damaged(draw, &legal);
    let long = texts::long(draw);
    let damaged_long = texts::damaged(draw, &long);
    let any = texts::any(draw);
    for text in [legal, damaged, long, damaged_long, any] {
        let room = match draw.below(12) {
            0 => draw.below(48),
            1 => 47,
            2 => 49 + draw.below(30),
            _ => 48,
        };
        runner.text(&text, room)?;
    }
    Ok(())
}

/// A short legal text with every byte at every place, and cut at every place.
fn every_byte(draw: &mut Draw, runner: &mut Runner) -> Result<(), String> {
    let items = 2 + draw.below(3);
    let legal = texts::legal(draw, items);
    for at in 0..legal.len() {
        runner.text(&legal[..at], 48)?;
        for byte in 0..=255 {
            let mut altered = legal.clone();
            altered[at] = byte;
            runner.text(&altered, 48)?;
        }
    }
    Ok(())
}
