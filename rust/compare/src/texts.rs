//! Texts of expressions: legal, damaged and long.

use crate::draw::Draw;

/// The signs of texts, and some that are in none.
const SIGNS: &[u8] = b"0123456789 &|()[]..09&|\t\n-x\x00\xff";

/// A legal text of so many items, with spaces or without; some items are in parentheses.
pub fn legal(draw: &mut Draw, items: usize) -> Vec<u8> {
    let spaces = draw.pick(&[0, 0, 5, 40]);
    let mut tokens = Vec::new();
    group(draw, items, &mut tokens);
    let mut text = Vec::new();
    for token in tokens {
        while draw.percent(spaces) {
            text.push(b' ');
        }
        text.extend(token.bytes());
    }
    while draw.percent(spaces) {
        text.push(b' ');
    }
    text
}

/// Items joined by `&` and `|`, a whole text as tokens.
fn group(draw: &mut Draw, items: usize, tokens: &mut Vec<String>) {
    let mut left = items;
    while left > 0 {
        let inside = 1 + draw.below(left);
        if draw.one_in(3) {
            tokens.push("(".to_string());
            group(draw, inside, tokens);
            tokens.push(")".to_string());
            left -= inside;
        } else {
            item(draw, tokens);
            left -= 1;
        }
        if left > 0 {
            tokens.push(draw.pick(&["&", "|"]).to_string());
        }
    }
}

/// A number or a range.
fn item(draw: &mut Draw, tokens: &mut Vec<String>) {
    tokens.push(draw.below(100).to_string());
    if draw.one_in(3) {
        for sign in ["[", "..", "]"] {
            tokens.push(sign.to_string());
            if sign != "]" {
                tokens.push(draw.below(100).to_string());
            }
        }
    }
}

/// A text with some bytes altered, put in or taken out, or cut.
pub fn damaged(draw: &mut Draw, text: &[u8]) -> Vec<u8> {
    let mut text = text.to_vec();
    for _ in 0..1 + draw.below(2) {
        let at = draw.below(text.len() + 1);
        let sign = draw.pick(SIGNS);
        match draw.below(5) {
            0 | 1 if at < text.len() => text[at] = sign,
            2 if at < text.len() => drop(text.remove(at)),
            3 => text.truncate(at),
            _ => text.insert(at, sign),
        }
    }
    text
}

/// A long text: about 512 bytes by spaces, by parentheses or by items.
pub fn long(draw: &mut Draw) -> Vec<u8> {
    let length = draw.pick(&[500, 510, 511, 512, 513, 514, 600, 2000]);
    match draw.below(5) {
        0 => vec![b' '; length],
        1 => vec![b'('; length],
        2 => {
            let pairs = draw.pick(&[100, 254, 255, 256]);
            [vec![b'('; pairs], b"7".to_vec(), vec![b')'; pairs]].concat()
        }
        3 => {
            let mut text = legal(draw, 6);
            text.resize(length.max(text.len()), b' ');
            text
        }
        _ => b"1&".iter().copied().cycle().take(length).collect(),
    }
}

/// A text of signs, in no order.
pub fn any(draw: &mut Draw) -> Vec<u8> {
    (0..draw.below(12)).map(|_| draw.pick(SIGNS)).collect()
}
