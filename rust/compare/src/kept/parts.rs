//! The parts of a run on boxes that are kept: each round of a part makes its calls from its own seed.

use super::box_call::{load, BoxCall, PRINT};
use super::damage::{damage, DAMAGES};
use super::pair::{Kept, Pair, MOST_ROOM};
use super::prints::PRINT_ROOM;
use super::related::every_two;
use super::tally::BoxTally;
use crate::draw::Draw;
use crate::parts::small;
use crate::policies;
use crate::records::For;
use gate::{Mode, ParkBox};
use twin::image::Policy;

/// What a round does.
type Round = fn(&mut Draw, &mut BoxTally) -> Result<(), String>;

/// A part's name, its rounds in a short run, and what a round does.
pub fn parts<B: Kept>() -> [(&'static str, usize, Round); 11] {
    [
        ("a long life of a box", 22, life::<B>),
        ("all asked after each granted call", 10, all_asked::<B>),
        ("damaged and cut images over a box", 10, images::<B>),
        ("the longest images over a box", 3, longest_images::<B>),
        ("wrong expressions on a box", 120, wrong_expressions::<B>),
        ("expressions over 255 bytes", 60, long_expressions::<B>),
        ("prints", 300, prints::<B>),
        ("what is no record", 60, no_records::<B>),
        ("damaged boxes", 1500, damaged_box::<B>),
        ("any memory as a box", 40, any_memory::<B>),
        ("every two securons of a tree", 12, every_two::<B>),
    ]
}

/// Makes the call of a whole record, now with typed arguments and now as the record.
fn served<B: Kept>(
    draw: &mut Draw,
    pair: &mut Pair<B>,
    record: &[u8],
    tally: &mut BoxTally,
) -> Result<bool, String> {
    let call = match draw.one_in(2) {
        true => BoxCall::typed(record),
        false => BoxCall::Record(record),
    };
    let said = match record.first() {
        Some(&PRINT) => pair.call_in(&call, room(draw), tally)?,
        _ => pair.call(&call, tally)?,
    };
    Ok(said.number == 0)
}

/// The room for a print, mostly enough.
fn room(draw: &mut Draw) -> usize {
    match draw.below(12) {
        0 => draw.below(MOST_ROOM + 1),
        1 => PRINT_ROOM - 1,
        2 => PRINT_ROOM + 1 + draw.below(MOST_ROOM - PRINT_ROOM),
        3 => 0,
        _ => PRINT_ROOM,
    }
}

/// A policy in order is loaded.
fn loaded<B: Kept>(
    draw: &mut Draw,
    pair: &mut Pair<B>,
    policy: &Policy,
    tally: &mut BoxTally,
) -> Result<(), String> {
    match served(draw, pair, &load(&policy.to_image()), tally)? {
        true => Ok(()),
        false => Err("a policy in order was not loaded".to_string()),
    }
}

/// Policy after policy on one box, each with a sequence of all requests and now and then a load that
/// is refused; after one sequence in eight all is asked.
fn life<B: Kept>(draw: &mut Draw, tally: &mut BoxTally) -> Result<(), String> {
    let mut pair = Pair::<B>::fresh();
    for load in 0..30 {
        let policy = policies::rich(draw);
        loaded(draw, &mut pair, &policy, tally)?;
        if load > 0 {
            tally.met("a load over a state with a policy")?;
        }
        let drawn = For::kept(&policy);
        let slots = draw.pick(&[4, 16]);
        for record in drawn.begins(draw, slots) {
            served(draw, &mut pair, &record, tally)?;
        }
        for _ in 0..40 + draw.below(120) {
            let record = match draw.one_in(30) {
                true => wrong_load(draw, &policy),
                false => drawn.record(draw),
            };
            served(draw, &mut pair, &record, tally)?;
        }
        if draw.one_in(8) {
            pair.ask_all(tally)?;
        }
    }
    Ok(())
}

/// A load that is mostly refused.
fn wrong_load(draw: &mut Draw, policy: &Policy) -> Vec<u8> {
    let mut image = policy.to_image();
    let at = draw.below(image.len());
    match draw.one_in(2) {
        true => image[at] ^= 1 + draw.byte(255),
        false => image.truncate(at),
    }
    load(&image)
}

/// A small policy and some requests, and all asked after each that is granted and alters the box.
fn all_asked<B: Kept>(draw: &mut Draw, tally: &mut BoxTally) -> Result<(), String> {
    let mut pair = Pair::<B>::fresh();
    let policy = small(draw);
    loaded(draw, &mut pair, &policy, tally)?;
    pair.ask_all(tally)?;
    let drawn = For::kept(&policy);
    let mut records = drawn.begins(draw, 16);
    records.extend((0..12).map(|_| drawn.record(draw)));
    for record in records {
        let granted = served(draw, &mut pair, &record, tally)?;
        if granted && record[0] != 3 {
            pair.ask_all(tally)?;
        }
    }
    Ok(())
}

/// A box with a small policy and a session, and the policy.
fn begun<B: Kept>(draw: &mut Draw, tally: &mut BoxTally) -> Result<(Pair<B>, Policy), String> {
    let mut pair = Pair::fresh();
    let policy = small(draw);
    loaded(draw, &mut pair, &policy, tally)?;
    served(draw, &mut pair, &[1, 0, 0], tally)?;
    Ok((pair, policy))
}

/// An image with each byte altered in turn, and cut there, over a box that holds another policy.
fn images<B: Kept>(draw: &mut Draw, tally: &mut BoxTally) -> Result<(), String> {
    let (mut pair, _) = begun::<B>(draw, tally)?;
    let image = small(draw).to_image();
    for at in 0..image.len() {
        let byte = image[at];
        let drawn = draw.byte(256);
        for other in [byte ^ 1, byte.wrapping_add(1), 0, 49, 255, drawn] {
            let mut altered = image.clone();
            altered[at] = other;
            served(draw, &mut pair, &load(&altered), tally)?;
        }
        served(draw, &mut pair, &load(&image[..at]), tally)?;
    }
    let mut longer = image;
    longer.push(0);
    served(draw, &mut pair, &load(&longer), tally)?;
    longer.resize(65_536 + draw.below(200_000), 0);
    tally.met("an image over 65,535 bytes")?;
    pair.call(&BoxCall::Load(&longer), tally)?;
    longer.truncate(65_535);
    served(draw, &mut pair, &load(&longer), tally).map(drop)
}

/// Images with every count at its most, whole, damaged and cut, with requests after each.
fn longest_images<B: Kept>(draw: &mut Draw, tally: &mut BoxTally) -> Result<(), String> {
    let mut pair = Pair::<B>::fresh();
    let policy = policies::policy(draw, 64, 32, 32);
    let image = policy.to_image();
    loaded(draw, &mut pair, &policy, tally)?;
    let drawn = For::kept(&policy);
    for _ in 0..30 {
        let mut altered = image.clone();
        let at = draw.below(image.len());
        altered[at] = draw.byte(256);
        served(draw, &mut pair, &load(&altered), tally)?;
        served(draw, &mut pair, &load(&altered[..at]), tally)?;
        for record in drawn.begins(draw, 4) {
            served(draw, &mut pair, &record, tally)?;
        }
        for _ in 0..10 {
            let record = drawn.record(draw);
            served(draw, &mut pair, &record, tally)?;
        }
    }
    Ok(())
}

/// A box whose slot 0 may alter every row of file 0.
fn altering<B: Kept>(draw: &mut Draw, tally: &mut BoxTally) -> Result<(Pair<B>, For), String> {
    let n = 1 + draw.below(64);
    let mut policy = policies::policy(draw, n, 1, 1);
    for part in &mut policy.files[0][16..] {
        part.clear();
    }
    let mut pair = Pair::fresh();
    loaded(draw, &mut pair, &policy, tally)?;
    served(draw, &mut pair, &[1, 0, 0], tally)?;
    Ok((pair, For::kept(&policy)))
}

/// Changes and bypasses with expressions damaged at every place, by a role that may alter.
fn wrong_expressions<B: Kept>(draw: &mut Draw, tally: &mut BoxTally) -> Result<(), String> {
    let (mut pair, drawn) = altering::<B>(draw, tally)?;
    for record in drawn.damaged_everywhere(draw) {
        served(draw, &mut pair, &record, tally)?;
    }
    Ok(())
}

/// Expressions that are too long for a record, by typed calls: judged by their length alone.
fn long_expressions<B: Kept>(draw: &mut Draw, tally: &mut BoxTally) -> Result<(), String> {
    let (mut pair, _) = altering::<B>(draw, tally)?;
    let slot = draw.pick(&[0, 0, 0, 1, 16]);
    let mode = draw.pick(&Mode::ALL);
    for length in [255, 256, 257, 304, 512, 513 + draw.below(70_000)] {
        let long = draw.bytes(length);
        let short = draw.pick(&[&[][..], &[1, 0], &[1, 255], &[0; 49]]);
        tally.met("a first expression over 255 bytes")?;
        pair.call(&BoxCall::Change(slot, 0, mode, [&long, short]), tally)?;
        pair.call(&BoxCall::Bypass(slot, 0, mode, [&long, &long]), tally)?;
        pair.call_in(&BoxCall::Print(&long), room(draw), tally)?;
        tally.met("a second expression over 255 bytes")?;
        pair.call(&BoxCall::Change(slot, 0, mode, [short, &long]), tally)?;
        pair.call(&BoxCall::Bypass(slot, 0, mode, [short, &long]), tally)?;
    }
    Ok(())
}

/// Prints of every sort over a tree of any size, with every room; one damaged at every place; and
/// the longest of all.
fn prints<B: Kept>(draw: &mut Draw, tally: &mut BoxTally) -> Result<(), String> {
    let mut pair = Pair::<B>::fresh();
    let n = 1 + draw.below(64);
    let policy = policies::policy(draw, n, 1, 1);
    loaded(draw, &mut pair, &policy, tally)?;
    let drawn = For::kept(&policy);
    for _ in 0..40 {
        let record = drawn.record_of(draw, PRINT);
        served(draw, &mut pair, &record, tally)?;
    }
    let good = drawn.record_of(draw, PRINT);
    for at in 2..good.len() {
        let mut bad = good.clone();
        bad[at] = draw.pick(&[0, 1, 2, 3, 4, 5, 63, 64, 255, bad[at] ^ 1, bad[at] ^ 2]);
        served(draw, &mut pair, &bad, tally)?;
        served(draw, &mut pair, &cut(&good, at), tally)?;
    }
    loaded(draw, &mut pair, &policies::line(), tally)?;
    let longest = policies::longest_print(draw.pick(&[3, 4]));
    pair.call_in(&BoxCall::Print(&longest), PRINT_ROOM, tally)?;
    let record = BoxCall::Print(&longest).record();
    served(draw, &mut pair, &record, tally).map(drop)
}

/// A print's record with its expression cut at a place of the record.
fn cut(record: &[u8], at: usize) -> Vec<u8> {
    let mut record = record[..at].to_vec();
    record[1] = (at - 2) as u8;
    record
}

/// Records cut at every length, with a byte after them, with an unknown code; and drawn bytes.
fn no_records<B: Kept>(draw: &mut Draw, tally: &mut BoxTally) -> Result<(), String> {
    let (mut pair, policy) = begun::<B>(draw, tally)?;
    let drawn = For::kept(&policy);
    let mut records: Vec<Vec<u8>> = (0..8).map(|_| drawn.record(draw)).collect();
    records.push(load(b"SPT\x01\x00\x01\x00\x00"));
    for record in records {
        for length in 0..record.len() {
            pair.call(&BoxCall::Record(&record[..length]), tally)?;
        }
        let mut longer = record.clone();
        longer.push(draw.byte(256));
        pair.call(&BoxCall::Record(&longer), tally)?;
        longer.extend(&record);
        pair.call(&BoxCall::Record(&longer), tally)?;
        let mut unknown = record;
        unknown[0] = draw.pick(&[0, 7, 8, 9, 11, 17, 18, 19, 255]);
        pair.call(&BoxCall::Record(&unknown), tally)?;
    }
    for _ in 0..40 {
        let count = draw.below(12);
        let mut any = draw.bytes(count);
        if let Some(code) = any.first_mut().filter(|_| !draw.one_in(4)) {
            *code = draw.pick(&[0, 1, 2, 3, 4, 5, 6, 7, PRINT]);
        }
        pair.call(&BoxCall::Record(&any), tally)?;
    }
    Ok(())
}

/// A loaded box that is damaged in one part: requests of all kinds, what is no record, loads.
fn damaged_box<B: Kept>(draw: &mut Draw, tally: &mut BoxTally) -> Result<(), String> {
    let (pair, policy) = begun::<B>(draw, tally)?;
    let kind = draw.below(DAMAGES.len());
    let mut bytes = *pair.bytes();
    damage(draw, &mut bytes, kind);
    let mut pair = Pair::<B>::of(&bytes);
    tally.damaged(kind, pair.well_formed());
    on_made(draw, &mut pair, &For::kept(&policy), tally)
}

/// Memory that is all one byte, or drawn, or a box with all of one part drawn.
fn any_memory<B: Kept>(draw: &mut Draw, tally: &mut BoxTally) -> Result<(), String> {
    let policy = small(draw);
    let mut bytes = Box::new([draw.pick(&[0, 0, 1, 2, 255]); ParkBox::BYTES]);
    if draw.one_in(2) {
        bytes.iter_mut().for_each(|byte| *byte = draw.byte(256));
        tally.met("drawn memory")?;
    } else {
        tally.met("memory all of one byte")?;
    }
    let mut pair = Pair::<B>::of(&bytes);
    on_made(draw, &mut pair, &For::kept(&policy), tally)
}

/// All kinds of calls on a box that no call made.
fn on_made<B: Kept>(
    draw: &mut Draw,
    pair: &mut Pair<B>,
    drawn: &For,
    tally: &mut BoxTally,
) -> Result<(), String> {
    let ill = !pair.well_formed();
    for code in [1, 2, 3, 4, 5, PRINT] {
        let record = drawn.record_of(draw, code);
        let room = draw.below(MOST_ROOM + 1);
        let said = pair.call_in(&BoxCall::typed(&record), room, tally)?;
        if ill && said.number != 17 {
            return Err(format!("{said:?} of a state not well formed"));
        }
    }
    for _ in 0..draw.below(10) {
        let record = drawn.record(draw);
        served(draw, pair, &record, tally)?;
    }
    if draw.one_in(40) {
        pair.ask_all(tally)?;
    }
    pair.call(&BoxCall::Record(&[1, 0]), tally)?;
    let image = small(draw).to_image();
    let cut = &image[..draw.below(image.len())];
    served(draw, pair, &load(cut), tally)?;
    served(draw, pair, &load(&image), tally)?;
    if ill {
        tally.met("no record: a state not well formed")?;
        tally.met("a refused load over a state not well formed")?;
        tally.met("a load over a state not well formed")?;
    }
    let record = drawn.record(draw);
    served(draw, pair, &record, tally).map(drop)
}
