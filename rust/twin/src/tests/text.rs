//! Text: cases by hand, and every short text held against a reader of another make.

use super::help::{answer, Draw};
use crate::ast::Ast;
use crate::{turn_text, Answer};

/// Turns a text with 60 bytes of output, and looks that only what it made was written.
fn turn(text: &[u8]) -> Result<Vec<u8>, Answer> {
    let mut out = [0xaa; 60];
    let answer = turn_text(text, &mut out);
    let made = if answer.number == 0 { answer.place } else { 0 };
    assert!(out[made..].iter().all(|&byte| byte == 0xaa));
    match answer.number {
        0 => Ok(out[..made].to_vec()),
        _ => Err(answer),
    }
}

fn wrong(text: &str, place: usize) {
    assert_eq!(turn(text.as_bytes()), Err(answer(18, place)), "{text:?}");
}

fn right(text: &str, bytes: &[u8]) {
    assert_eq!(turn(text.as_bytes()), Ok(bytes.to_vec()), "{text:?}");
}

#[test]
fn texts_of_the_paper() {
    right("1|3&5", &[4, 1, 1, 3, 1, 3, 1, 5]);
    right("(1|3)&5", &[3, 4, 1, 1, 1, 3, 1, 5]);
    wrong("1&", 2);
    wrong("012", 1);
}

#[test]
fn blank_texts() {
    right("", &[]);
    right(" ", &[]);
    right(&" ".repeat(512), &[]);
}

#[test]
fn numbers() {
    right("0", &[1, 0]);
    right("7", &[1, 7]);
    right("10", &[1, 10]);
    right("63", &[1, 63]);
    right("99", &[1, 99]);
    wrong("100", 2);
    wrong("00", 1);
    wrong("1 2", 2);
    wrong("1 0", 2);
    wrong("10[100..1]", 5);
    wrong("10[1..011]", 7);
}

#[test]
fn ranges() {
    right("1[0..2]", &[2, 1, 0, 2]);
    right("12[34..56]", &[2, 12, 34, 56]);
    right("1[2..1]", &[2, 1, 2, 1]);
    right("99[99..0]", &[2, 99, 99, 0]);
    right(" 1 [ 0 .. 2 ] ", &[2, 1, 0, 2]);
    right("(1[0..2])", &[2, 1, 0, 2]);
    wrong("1[0. .2]", 4);
    wrong("1[0.2]", 4);
    wrong("1[0...2]", 5);
    wrong("1[0 0..2]", 4);
    wrong("1[]", 2);
    wrong("1[0]", 3);
    wrong("1[0&", 3);
    wrong("1[(0)..2]", 2);
    wrong("1[..2]", 2);
    wrong("1[0..]", 5);
    wrong("1[0..1)", 6);
    wrong("1[0..1&2]", 6);
    wrong("1.", 1);
    wrong("1..2", 1);
    wrong("[0..1]", 0);
    wrong("1]", 1);
}

#[test]
fn both_operators_group_to_the_left() {
    right("1&2&3", &[3, 3, 1, 1, 1, 2, 1, 3]);
    right("1|2|3", &[4, 4, 1, 1, 1, 2, 1, 3]);
    right("1&(2&3)", &[3, 1, 1, 3, 1, 2, 1, 3]);
    right("1|(2|3)", &[4, 1, 1, 4, 1, 2, 1, 3]);
}

#[test]
fn and_binds_tighter() {
    right("1|2&3|4", &[4, 4, 1, 1, 3, 1, 2, 1, 3, 1, 4]);
    right("1&2|3&4", &[4, 3, 1, 1, 1, 2, 3, 1, 3, 1, 4]);
    right("1&(2|3)&4", &[3, 3, 1, 1, 4, 1, 2, 1, 3, 1, 4]);
    right(
        "(1|2)&(3|4)|5[0..1]&6",
        &[4, 3, 4, 1, 1, 1, 2, 4, 1, 3, 1, 4, 3, 2, 5, 0, 1, 1, 6],
    );
}

#[test]
fn parentheses() {
    right("((7))", &[1, 7]);
    right(" ( 7 ) ", &[1, 7]);
    wrong("()", 1);
    wrong("( )", 2);
    wrong(")", 0);
    wrong("1)", 1);
    wrong("(1))", 3);
    wrong("(1)[", 3);
    wrong("1[0..2][", 7);
    wrong("1(", 1);
    wrong("(1)2", 3);
    wrong("(1)(", 3);
    wrong("(1]", 2);
}

#[test]
fn operators_out_of_place() {
    wrong("&1", 0);
    wrong(" |1", 1);
    wrong("1&&2", 2);
    wrong("1|&2", 2);
    wrong("1 & | 2", 4);
    wrong("(1&)", 3);
    wrong("(|1)", 1);
}

#[test]
fn other_bytes() {
    wrong("a", 0);
    wrong("1\t", 1);
    wrong("1\n", 1);
    wrong("1&-2", 2);
    wrong("1\u{e9}", 1);
    assert_eq!(turn(&[b'1', 0]), Err(answer(18, 1)));
    assert_eq!(turn(&[255]), Err(answer(18, 0)));
}

#[test]
fn texts_that_end_too_soon() {
    for text in [
        "(", "1|", "1[", "1[0", "1[0.", "1[0..", "1[0..2", "(1", "1 & ", "((1)",
    ] {
        wrong(text, text.len());
    }
}

#[test]
fn long_texts() {
    wrong(&"(".repeat(512), 512);
    wrong(&"(".repeat(513), 512);
    wrong(&" ".repeat(513), 512);
    wrong(&"x".repeat(513), 512);
    wrong(&"x".repeat(512), 0);
    let deep = ["(".repeat(255), "1".into(), ")".repeat(255)].concat();
    right(&deep, &[1, 1]);
    wrong(&deep[..510], 510);
    right(&[&deep[..], " "].concat(), &[1, 1]);
    wrong(&[&deep[..], ")"].concat(), 511);
    wrong(&[&deep[..], "  "].concat(), 512);
}

/// Terms joined by AND, and the bytes that they make.
fn joined(ones: usize, ranges: usize) -> (String, Vec<u8>) {
    let terms = [vec!["1"; ones], vec!["2[3..4]"; ranges]].concat();
    let mut bytes = vec![3; terms.len() - 1];
    bytes.extend([1, 1].repeat(ones));
    bytes.extend([2, 2, 3, 4].repeat(ranges));
    (terms.join("&"), bytes)
}

#[test]
fn forty_eight_bytes_and_no_more() {
    for (ones, ranges, count) in [(16, 0, 47), (13, 2, 48), (8, 5, 48), (3, 8, 48)] {
        let (text, bytes) = joined(ones, ranges);
        assert_eq!(bytes.len(), count);
        right(&text, &bytes);
    }
    for (ones, ranges) in [(17, 0), (15, 1), (10, 4), (0, 10), (250, 0)] {
        let (text, bytes) = joined(ones, ranges);
        assert!(bytes.len() > 48);
        assert_eq!(turn(text.as_bytes()), Err(answer(19, 0)), "{text}");
    }
    // 17 in brackets and to the right: the operators come first.
    let right_deep = ["1&(".repeat(16), "1".into(), ")".repeat(16)].concat();
    assert_eq!(turn(right_deep.as_bytes()), Err(answer(19, 0)));
}

#[test]
fn wrong_goes_before_too_long() {
    let (text, _) = joined(17, 0);
    wrong(&[&text[..], "&"].concat(), text.len() + 1);
    wrong(&[&text[..], "&x1"].concat(), text.len() + 1);
    let (text, _) = joined(200, 3);
    wrong(&[&text[..], "&10[10..100]"].concat(), text.len() + 10);
}

#[test]
fn short_output_goes_before_all() {
    for size in [0, 2, 47] {
        for text in ["", "1", "x", &" ".repeat(513)] {
            let mut out = vec![0xaa; size];
            assert_eq!(turn_text(text.as_bytes(), &mut out), answer(20, 0));
            assert!(out.iter().all(|&byte| byte == 0xaa));
        }
    }
    let mut out = [0xaa; 48];
    assert_eq!(turn_text(b"1&2", &mut out), answer(0, 5));
    assert_eq!(out[..6], [3, 1, 1, 1, 2, 0xaa]);
}

// A reader of another make: tokens first, then the grammar by recursion.

#[derive(Clone, Copy, Debug, PartialEq)]
enum Token {
    Number(u8),
    Sign(u8),
    Dots,
}

fn tokens(text: &[u8]) -> Option<Vec<Token>> {
    let mut tokens = Vec::new();
    let mut rest = text;
    while let Some(&byte) = rest.first() {
        let mut length = 1;
        match byte {
            b' ' => {}
            b'0'..=b'9' => {
                length = rest.iter().take_while(|b| b.is_ascii_digit()).count();
                let digits = std::str::from_utf8(&rest[..length]).ok()?;
                if length > 2 || (length == 2 && byte == b'0') {
                    return None;
                }
                tokens.push(Token::Number(digits.parse().ok()?));
            }
            b'.' if rest.get(1) == Some(&b'.') => {
                length = 2;
                tokens.push(Token::Dots);
            }
            b'&' | b'|' | b'(' | b')' | b'[' | b']' => tokens.push(Token::Sign(byte)),
            _ => return None,
        }
        rest = &rest[length..];
    }
    Some(tokens)
}

fn sign(tokens: &mut &[Token], wanted: u8) -> bool {
    let found = tokens.first() == Some(&Token::Sign(wanted));
    *tokens = &tokens[usize::from(found)..];
    found
}

fn number(tokens: &mut &[Token]) -> Option<u8> {
    let Some(&Token::Number(number)) = tokens.first() else {
        return None;
    };
    *tokens = &tokens[1..];
    Some(number)
}

fn ors(tokens: &mut &[Token]) -> Option<Ast> {
    let mut left = ands(tokens)?;
    while sign(tokens, b'|') {
        left = Ast::Or(Box::new(left), Box::new(ands(tokens)?));
    }
    Some(left)
}

fn ands(tokens: &mut &[Token]) -> Option<Ast> {
    let mut left = item(tokens)?;
    while sign(tokens, b'&') {
        left = Ast::And(Box::new(left), Box::new(item(tokens)?));
    }
    Some(left)
}

fn item(tokens: &mut &[Token]) -> Option<Ast> {
    if sign(tokens, b'(') {
        let inner = ors(tokens)?;
        return sign(tokens, b')').then_some(inner);
    }
    let s = number(tokens)?;
    if !sign(tokens, b'[') {
        return Some(Ast::One(s));
    }
    let i = number(tokens)?;
    if tokens.first() != Some(&Token::Dots) {
        return None;
    }
    *tokens = &tokens[1..];
    let j = number(tokens)?;
    sign(tokens, b']').then_some(Ast::Range(s, i, j))
}

/// The bytes of a legal text, of any number.
fn legal(text: &[u8]) -> Option<Vec<u8>> {
    let tokens = tokens(text)?;
    let mut rest = &tokens[..];
    if rest.is_empty() {
        return Some(Vec::new());
    }
    let ast = ors(&mut rest)?;
    rest.is_empty().then(|| ast.to_bytes())
}

/// Whether a legal text begins with this: one of these ends makes it legal.
fn begins_a_legal_text(text: &[u8]) -> bool {
    let opened = text.iter().filter(|&&b| b == b'(').count();
    ["", "1", "1..1]", "..1]", ".1]", "1]", "]"]
        .iter()
        .any(|end| {
            (0..=opened).any(|closed| {
                let whole = [text, end.as_bytes(), &vec![b')'; closed]].concat();
                legal(&whole).is_some()
            })
        })
}

/// The answer by the words of "Place for 18" and the order after it.
fn by_words(text: &[u8]) -> Result<Vec<u8>, Answer> {
    if let Some(at) = (0..text.len()).find(|&at| !begins_a_legal_text(&text[..=at])) {
        return Err(answer(18, at));
    }
    match legal(text) {
        None => Err(answer(18, text.len())),
        Some(bytes) if bytes.len() > 48 => Err(answer(19, 0)),
        Some(bytes) => Ok(bytes),
    }
}

const SIGNS: &[u8] = b"01 &|()[].x";

/// Every text that goes on from a beginning, up to a length.
fn try_all(text: &mut Vec<u8>, most: usize, tried: &mut usize) {
    for &byte in SIGNS {
        text.push(byte);
        *tried += 1;
        let begins = begins_a_legal_text(text);
        let found = turn(text);
        match legal(text) {
            Some(bytes) => assert_eq!(found, Ok(bytes), "{text:?}"),
            None => {
                let place = text.len() - usize::from(!begins);
                assert_eq!(found, Err(answer(18, place)), "{text:?}");
            }
        }
        if begins && text.len() < most {
            try_all(text, most, tried);
        }
        text.pop();
    }
}

#[test]
fn every_short_text_is_as_by_words() {
    let mut tried = 0;
    try_all(&mut Vec::new(), 7, &mut tried);
    assert!(tried > 50_000, "{tried}");
}

/// A legal text, drawn, with spaces here and there.
fn drawn(draw: &mut Draw, items: usize, text: &mut Vec<u8>) {
    let space = |draw: &mut Draw, text: &mut Vec<u8>| {
        if draw.one_in(6) {
            text.push(b' ');
        }
    };
    for at in 0..items {
        if at > 0 {
            space(draw, text);
            text.push(*draw.pick(b"&|"));
        }
        space(draw, text);
        if draw.one_in(4) {
            text.push(b'(');
            let inner = 1 + draw.below(3);
            drawn(draw, inner, text);
            space(draw, text);
            text.push(b')');
            continue;
        }
        text.extend(draw.below(100).to_string().bytes());
        if draw.one_in(4) {
            let (i, j) = (draw.below(100), draw.below(12));
            space(draw, text);
            text.extend(format!("[{i}..{j}]").bytes());
        }
    }
}

#[test]
fn drawn_texts_are_as_by_words() {
    let mut draw = Draw(41);
    let mut seen = [0; 3];
    for _ in 0..2500 {
        let mut text = Vec::new();
        let items = 1 + draw.below(9);
        drawn(&mut draw, items, &mut text);
        if draw.one_in(2) {
            let at = draw.below(text.len());
            text[at] = *draw.pick(SIGNS);
        }
        if draw.one_in(6) {
            text.truncate(draw.below(text.len() + 1));
        }
        let found = turn(&text);
        assert_eq!(found, by_words(&text), "{text:?}");
        seen[found.map_or_else(|wrong| usize::from(wrong.number) - 17, |_| 0)] += 1;
    }
    assert!(seen.iter().all(|&times| times > 50), "{seen:?}");
}
