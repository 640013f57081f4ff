//! Boxes that no call makes: the bytes of a loaded one, damaged in one part (01, "Well formed
//! means").

use super::layout::{self, Bytes, Shelves, FILES, FILE_COUNT, ROLES, ROLE_COUNT};
use crate::draw::Draw;
use gate::ParkBox;

/// What a box is damaged by, each of which has to be met.
pub const DAMAGES: [&str; 21] = [
    "nothing",
    "another n",
    "n with a high byte",
    "a parent of the root",
    "a parent not smaller",
    "a parent from n on",
    "another count of roles",
    "another count of files",
    "a count with a high byte",
    "a slot that holds another role",
    "a slot that holds a role over 255",
    "a byte of a role",
    "a byte of a file",
    "a length of a role",
    "a length of a file",
    "a byte past an expression of a role",
    "a byte past an expression of a file",
    "room of an absent role",
    "room of an absent file",
    "one byte anywhere",
    "some bytes anywhere",
];

/// Damages the bytes of a box in one way. It has 1 to 31 roles and files.
pub fn damage(draw: &mut Draw, bytes: &mut Bytes, kind: usize) {
    let state = layout::read(bytes);
    let [n, roles, files] = [state.securons, state.role_count, state.file_count].map(usize::from);
    let any = 1 + draw.byte(255);
    let high = 1 + draw.below(7);
    match kind {
        0 => {}
        1 => bytes[layout::SECURONS] = draw.pick(&[0, 1, n as u8 - 1, n as u8 + 1, 64, 65, 255]),
        2 => bytes[layout::SECURONS + high] = any,
        3 => bytes[layout::PARENTS] = any,
        4 => {
            let securon = 1 + draw.below(n.max(2) - 1);
            bytes[layout::PARENTS + securon] = draw.pick(&[securon as u8, 63, 64, 255]);
        }
        5 => bytes[layout::PARENTS + n.min(63)] = any,
        6 | 7 => {
            let (at, count) = [(ROLE_COUNT, roles), (FILE_COUNT, files)][kind - 6];
            let count = count as u8;
            bytes[at] = draw.pick(&[0, count - 1, count + 1, 32, 33, 34, 64, 255]);
        }
        8 => bytes[draw.pick(&[ROLE_COUNT, FILE_COUNT]) + high] = any,
        9 => {
            bytes[layout::slot(draw.below(16))] =
                draw.pick(&[0, 1, roles as u8, roles as u8 + 1, 33, 255])
        }
        10 => bytes[layout::slot(draw.below(16)) + 1] = any,
        19 => bytes[draw.below(ParkBox::BYTES)] = draw.byte(256),
        20 => (0..1 + draw.below(20)).for_each(|_| {
            bytes[draw.below(ParkBox::BYTES)] = draw.byte(256);
        }),
        _ => {
            let shelves = [(ROLES, roles), (FILES, files)][(kind - 11) % 2];
            damage_expression(draw, bytes, shelves, (kind - 11) / 2);
        }
    }
}

/// Damages an expression of a role or of a file: a byte of it, its length, the room past it; or the
/// room of one that is not there.
fn damage_expression(draw: &mut Draw, bytes: &mut Bytes, on: (Shelves, usize), kind: usize) {
    let (shelves, count) = on;
    let place = draw.below(shelves.per);
    let one = match kind {
        3 => count + draw.below(32 - count),
        _ => draw.below(count),
    };
    let (stated, room) = (shelves.length(one, place), shelves.room(one, place));
    let length = bytes[stated];
    let past = usize::from(length).min(47);
    match kind {
        0 => bytes[room + draw.below(past + 1)] = draw.pick(&[0, 1, 2, 3, 4, 5, 63, 64, 255]),
        1 => bytes[stated] = draw.pick(&[0, length ^ 1, length + 1, 47, 48, 49, 255]),
        2 => bytes[room + past + draw.below(48 - past)] = 1 + draw.byte(255),
        _ if draw.one_in(3) => bytes[stated] = 1 + draw.byte(255),
        _ => bytes[room + draw.below(48)] = 1 + draw.byte(255),
    }
}
