//! The longest image (01, "Image": 51,815 bytes), and the cases that the program `vectors` makes of
//! it.

use crate::cases::line;
use twin::image::Policy;
use twin::State;

/// Where the role count and the file count stand.
const ROLE_COUNT: usize = 69;
const FILE_COUNT: usize = 20_454;

/// 48 bytes in order: two ranges and thirteen securons under 14 AND.
fn full_expression() -> Vec<u8> {
    let mut bytes = vec![3; 14];
    bytes.extend([2, 63, 0, 63, 2, 0, 63, 63, 1, 0, 1, 1, 1, 62, 1, 63]);
    bytes.extend([1, 5].repeat(9));
    bytes
}

/// The image: 64 securons in one line, 32 roles and 32 files, every expression of 48 bytes.
pub fn image() -> Vec<u8> {
    let policy = Policy {
        parents: (0..63).collect(),
        roles: vec![std::array::from_fn(|_| full_expression()); 32],
        files: vec![std::array::from_fn(|_| full_expression()); 32],
    };
    policy.to_image()
}

/// The cases: the image, a byte less, a byte more; wrong bytes far behind, the later ones before
/// the earlier; then wrong counts and a parent, in the same order.
pub fn written() -> String {
    let whole = image();
    let last = whole.len() - 1;
    let mut written = String::new();
    let mut load = |name: &str, image: &[u8]| {
        let answer = State::fresh().load(image);
        written += &format!("{name}:{}\n", line(answer));
    };
    load("the longest image", &whole);
    load("the longest, a byte less", &whole[..last]);
    load("the longest, a byte more", &[&whole[..], &[48]].concat());
    let mut late = whole.clone();
    late[last] = 64;
    load("the longest, its last byte wrong", &late);
    late[last - 1] = 3;
    late[last] = 1;
    load("the longest, not whole at its end", &late);
    late[last - 48] = 49;
    load("the longest, its last length 49", &late);
    let mut early = whole;
    early[FILE_COUNT] = 33;
    load("the longest, 33 files", &early);
    early[ROLE_COUNT] = 33;
    load("the longest, 33 roles", &early);
    early[ROLE_COUNT - 1] = 63;
    load("the longest, its last parent 63", &early);
    written
}
