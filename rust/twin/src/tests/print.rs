//! Prints: texts by hand, the shortest text that reads back, and the longest print of all.

use super::help::{answer, loaded, policy, tree_of, Draw};
use crate::ast::Ast;
use crate::code::{Kind, MOST_BYTES};
use crate::print::PRINT_ROOM;
use crate::{turn_text, Answer, Policy, State};

/// A byte that fills the output before a call.
const FILL: u8 = 0xaa;

/// A state over the tree of 01, "Examples by hand": securons 0 to 7, levels 0 to 2.
fn paper() -> State {
    loaded(&policy(&[], &[]))
}

/// A state over 64 securons in one line, so that levels go to 63.
fn line() -> State {
    loaded(&Policy {
        parents: (0..63).collect(),
        roles: vec![],
        files: vec![],
    })
}

/// Prints with so much room, and looks that only the text was written and no state altered.
fn printed(state: &State, expression: &[u8], room: usize) -> Result<String, Answer> {
    let before = state.clone();
    let mut out = vec![FILL; room];
    let answer = state.print(expression, &mut out);
    assert!(*state == before, "a print keeps the state");
    let made = if answer.number == 0 { answer.place } else { 0 };
    assert!(out[made..].iter().all(|&byte| byte == FILL));
    match answer.number {
        0 => Ok(String::from_utf8(out[..made].to_vec()).expect("plain text")),
        _ => Err(answer),
    }
}

/// The bytes that a text is read as, if it is legal.
fn read(text: &str) -> Option<Vec<u8>> {
    let mut out = [0; MOST_BYTES];
    let answer = turn_text(text.as_bytes(), &mut out);
    (answer.number == 0).then(|| out[..answer.place].to_vec())
}

/// That these bytes are printed as this text, and read back from it.
fn prints(bytes: &[u8], text: &str) {
    let print = printed(&paper(), bytes, PRINT_ROOM);
    assert_eq!(print.as_deref(), Ok(text), "{bytes:?}");
    assert_eq!(read(text).as_deref(), Some(bytes), "{text}");
}

/// A refused print.
fn refused(state: &State, bytes: &[u8], room: usize, number: u8, place: usize) {
    let expected = Err(answer(number, place));
    assert_eq!(printed(state, bytes, room), expected, "{bytes:?} in {room}");
}

#[test]
fn prints_of_the_papers() {
    prints(&[3, 3, 1, 1, 1, 3, 1, 5], "1&3&5");
    prints(&[3, 1, 1, 3, 1, 3, 1, 5], "1&(3&5)");
    prints(&[4, 1, 1, 3, 1, 3, 1, 5], "1|3&5");
    prints(&[3, 4, 1, 1, 1, 3, 1, 5], "(1|3)&5");
}

#[test]
fn nothing_and_terms() {
    prints(&[], "");
    prints(&[1, 0], "0");
    prints(&[1, 7], "7");
    prints(&[2, 0, 0, 0], "0[0..0]");
    prints(&[2, 1, 1, 2], "1[1..2]");
    prints(&[2, 7, 2, 2], "7[2..2]");
    let text = |bytes: &[u8]| printed(&line(), bytes, PRINT_ROOM).expect("in order");
    assert_eq!(text(&[1, 9]), "9");
    assert_eq!(text(&[1, 10]), "10");
    assert_eq!(text(&[1, 63]), "63");
    assert_eq!(text(&[2, 63, 9, 10]), "63[9..10]");
    assert_eq!(text(&[2, 40, 20, 50]), "40[20..50]");
    assert_eq!(text(&[2, 5, 0, 63]), "5[0..63]");
}

#[test]
fn each_operator_under_each_on_each_side() {
    prints(&[3, 1, 1, 1, 3], "1&3");
    prints(&[4, 1, 1, 1, 3], "1|3");
    // on the left: AND and OR under AND, AND and OR under OR
    prints(&[3, 3, 1, 1, 1, 2, 1, 3], "1&2&3");
    prints(&[3, 4, 1, 1, 1, 2, 1, 3], "(1|2)&3");
    prints(&[4, 3, 1, 1, 1, 2, 1, 3], "1&2|3");
    prints(&[4, 4, 1, 1, 1, 2, 1, 3], "1|2|3");
    // on the right
    prints(&[3, 1, 1, 3, 1, 2, 1, 3], "1&(2&3)");
    prints(&[3, 1, 1, 4, 1, 2, 1, 3], "1&(2|3)");
    prints(&[4, 1, 1, 3, 1, 2, 1, 3], "1|2&3");
    prints(&[4, 1, 1, 4, 1, 2, 1, 3], "1|(2|3)");
    // on both sides
    prints(&[3, 3, 1, 1, 1, 2, 3, 1, 3, 1, 4], "1&2&(3&4)");
    prints(&[3, 3, 1, 1, 1, 2, 4, 1, 3, 1, 4], "1&2&(3|4)");
    prints(&[3, 4, 1, 1, 1, 2, 3, 1, 3, 1, 4], "(1|2)&(3&4)");
    prints(&[3, 4, 1, 1, 1, 2, 4, 1, 3, 1, 4], "(1|2)&(3|4)");
    prints(&[4, 3, 1, 1, 1, 2, 3, 1, 3, 1, 4], "1&2|3&4");
    prints(&[4, 3, 1, 1, 1, 2, 4, 1, 3, 1, 4], "1&2|(3|4)");
    prints(&[4, 4, 1, 1, 1, 2, 3, 1, 3, 1, 4], "1|2|3&4");
    prints(&[4, 4, 1, 1, 1, 2, 4, 1, 3, 1, 4], "1|2|(3|4)");
}

#[test]
fn ranges_are_items_as_securons_are() {
    prints(&[3, 2, 1, 1, 2, 2, 2, 0, 2], "1[1..2]&2[0..2]");
    prints(&[3, 3, 2, 1, 1, 2, 1, 5, 1, 7], "1[1..2]&5&7");
    prints(&[3, 4, 2, 1, 1, 2, 1, 5, 2, 7, 0, 0], "(1[1..2]|5)&7[0..0]");
    prints(&[4, 1, 5, 4, 2, 1, 1, 2, 2, 7, 0, 0], "5|(1[1..2]|7[0..0])");
    prints(&[4, 3, 1, 4, 1, 6, 1, 7], "4&6|7");
}

#[test]
fn three_deep() {
    // one operator all through, on every path
    prints(&[3, 3, 3, 1, 1, 1, 2, 1, 3, 1, 4], "1&2&3&4");
    prints(&[3, 3, 1, 1, 3, 1, 2, 1, 3, 1, 4], "1&(2&3)&4");
    prints(&[3, 1, 1, 3, 3, 1, 2, 1, 3, 1, 4], "1&(2&3&4)");
    prints(&[3, 1, 1, 3, 1, 2, 3, 1, 3, 1, 4], "1&(2&(3&4))");
    prints(&[4, 4, 4, 1, 1, 1, 2, 1, 3, 1, 4], "1|2|3|4");
    prints(&[4, 4, 1, 1, 4, 1, 2, 1, 3, 1, 4], "1|(2|3)|4");
    prints(&[4, 1, 1, 4, 4, 1, 2, 1, 3, 1, 4], "1|(2|3|4)");
    prints(&[4, 1, 1, 4, 1, 2, 4, 1, 3, 1, 4], "1|(2|(3|4))");
    // AND, OR, AND and OR, AND, OR
    prints(&[3, 4, 3, 1, 1, 1, 2, 1, 3, 1, 4], "(1&2|3)&4");
    prints(&[3, 4, 1, 1, 3, 1, 2, 1, 3, 1, 4], "(1|2&3)&4");
    prints(&[3, 1, 1, 4, 3, 1, 2, 1, 3, 1, 4], "1&(2&3|4)");
    prints(&[3, 1, 1, 4, 1, 2, 3, 1, 3, 1, 4], "1&(2|3&4)");
    prints(&[4, 3, 4, 1, 1, 1, 2, 1, 3, 1, 4], "(1|2)&3|4");
    prints(&[4, 3, 1, 1, 4, 1, 2, 1, 3, 1, 4], "1&(2|3)|4");
    prints(&[4, 1, 1, 3, 4, 1, 2, 1, 3, 1, 4], "1|(2|3)&4");
    prints(&[4, 1, 1, 3, 1, 2, 4, 1, 3, 1, 4], "1|2&(3|4)");
    // one operator changes on the way
    prints(&[3, 3, 4, 1, 1, 1, 2, 1, 3, 1, 4], "(1|2)&3&4");
    prints(&[3, 1, 1, 3, 1, 2, 4, 1, 3, 1, 4], "1&(2&(3|4))");
    prints(&[3, 4, 4, 1, 1, 1, 2, 1, 3, 1, 4], "(1|2|3)&4");
    prints(&[3, 1, 1, 4, 1, 2, 4, 1, 3, 1, 4], "1&(2|(3|4))");
    prints(&[4, 4, 3, 1, 1, 1, 2, 1, 3, 1, 4], "1&2|3|4");
    prints(&[4, 1, 1, 4, 1, 2, 3, 1, 3, 1, 4], "1|(2|3&4)");
    prints(&[4, 3, 3, 1, 1, 1, 2, 1, 3, 1, 4], "1&2&3|4");
    prints(&[4, 1, 1, 3, 1, 2, 3, 1, 3, 1, 4], "1|2&(3&4)");
}

/// 01's places of 6 for a request's first expression, as a protection.
#[test]
fn what_is_not_in_order() {
    let state = paper();
    let wrong = |bytes: &[u8], place| refused(&state, bytes, PRINT_ROOM, 6, place);
    wrong(&[3, 1, 1], 3);
    wrong(&[1, 1, 1], 2);
    wrong(&[2, 1, 2, 1], 3);
    wrong(&[2, 1, 0, 3], 3);
    wrong(&[2, 1, 3, 3], 2);
    wrong(&[1, 8], 1);
    wrong(&[0], 0);
    wrong(&[5], 0);
    wrong(&[4, 1, 1, 9, 1, 3], 3);
    wrong(&[1], 1);
    wrong(&[4], 1);
    wrong(&[3; 48], 48);
    wrong(&[3; 49], 48);
    wrong(&[5; 49], 48);
    wrong(&[0; 255], 48);
    wrong(&[0; 70_000], 48);
    // the fresh state has the root alone
    refused(&State::fresh(), &[1, 1], PRINT_ROOM, 6, 1);
    refused(&State::fresh(), &[2, 0, 1, 1], PRINT_ROOM, 6, 2);
    assert_eq!(
        printed(&State::fresh(), &[2, 0, 0, 0], 512),
        Ok("0[0..0]".into())
    );
}

#[test]
fn refusals_go_17_6_20() {
    let state = paper();
    for room in [0, 1, 48, 511] {
        refused(&state, &[1, 1], room, 20, 0);
        refused(&state, &[], room, 20, 0);
        refused(&state, &[1, 8], room, 6, 1);
        refused(&state, &[3; 49], room, 6, 48);
    }
    for room in [512, 513, 4096] {
        assert_eq!(printed(&state, &[1, 1], room), Ok("1".into()));
        assert_eq!(printed(&state, &[], room), Ok(String::new()));
    }
    let mut ill = state;
    ill.parents[0] = 1;
    for room in [0, 511, 512] {
        refused(&ill, &[1, 1], room, 17, 0);
        refused(&ill, &[1, 8], room, 17, 0);
        refused(&ill, &[], room, 17, 0);
        refused(&ill, &[3; 49], room, 17, 0);
    }
}

/// Every expression of so many terms, all of them securon 1 to so many, of every shape.
fn shapes(terms: u8, first: u8) -> Vec<Ast> {
    if terms == 1 {
        return vec![Ast::One(first)];
    }
    let mut all = Vec::new();
    for left in 1..terms {
        for a in shapes(left, first) {
            for b in shapes(terms - left, first + left) {
                let [a, b] = [&a, &b].map(|side| Box::new(side.clone()));
                all.push(Ast::And(a.clone(), b.clone()));
                all.push(Ast::Or(a, b));
            }
        }
    }
    all
}

/// An expression with a pair of parentheses round each operand that has an operator, but for those
/// pairs that the bits of `without` leave out; and how many there could be.
fn bracketed(ast: &Ast, without: u32, pairs: &mut u32) -> String {
    let mut operand = |side: &Ast| {
        if matches!(side, Ast::One(_) | Ast::Range(..)) {
            return bracketed(side, without, pairs);
        }
        let left_out = without >> *pairs & 1 == 1;
        *pairs += 1;
        let inner = bracketed(side, without, pairs);
        if left_out {
            inner
        } else {
            format!("({inner})")
        }
    };
    match ast {
        Ast::One(s) => s.to_string(),
        Ast::Range(s, i, j) => format!("{s}[{i}..{j}]"),
        Ast::And(a, b) => operand(a) + "&" + &operand(b),
        Ast::Or(a, b) => operand(a) + "|" + &operand(b),
    }
}

/// "With parentheses only where the grouping needs them": of all ways to leave pairs out, the print
/// is the shortest that is still read as the same bytes, and no other is as short.
#[test]
fn the_print_is_the_shortest_text_that_reads_back() {
    let mut count = 0;
    for terms in 1..=6 {
        for ast in shapes(terms, 1) {
            let bytes = ast.to_bytes();
            let print = printed(&paper(), &bytes, PRINT_ROOM).expect("in order");
            let mut pairs = 0;
            bracketed(&ast, 0, &mut pairs);
            let texts = (0..1 << pairs).map(|without| bracketed(&ast, without, &mut 0));
            let reads: Vec<String> = texts
                .filter(|text| read(text) == Some(ast.to_bytes()))
                .collect();
            let least = reads.iter().map(String::len).min().expect("all pairs");
            let shortest: Vec<&String> = reads.iter().filter(|text| text.len() == least).collect();
            assert_eq!(shortest, [&print]);
            count += 1;
        }
    }
    // shapes of k terms: 2^(k - 1) times a Catalan number
    assert_eq!(count, 1 + 2 + 2 * 4 + 5 * 8 + 14 * 16 + 42 * 32);
}

/// The text without its pairs of parentheses, one by one.
fn one_pair_less(text: &str) -> Vec<String> {
    let mut open = Vec::new();
    let mut less = Vec::new();
    for (at, sign) in text.char_indices() {
        if sign == '(' {
            open.push(at);
        } else if sign == ')' {
            let from = open.pop().expect("it was opened");
            less.push([&text[..from], &text[from + 1..at], &text[at + 1..]].concat());
        }
    }
    less
}

#[test]
fn drawn_expressions_read_back_and_reprint_and_need_every_pair() {
    let mut draw = Draw(20_260_301);
    let (mut pairs, mut longest) = (0, 0);
    for round in 0..4_000 {
        let n = 1 + draw.below(64);
        let parents = draw.parents(n);
        let tree = tree_of(&parents);
        let state = loaded(&Policy {
            parents,
            roles: vec![],
            files: vec![],
        });
        let kind = [Kind::Protection, Kind::Privilege][round % 4 / 3];
        let bytes = draw.expression(kind, &tree);
        let text = printed(&state, &bytes, PRINT_ROOM).expect("in order");
        assert!(!text.contains(' '));
        assert_eq!(read(&text).as_deref(), Some(&bytes[..]), "{text}");
        let again = printed(&state, &read(&text).expect("legal"), PRINT_ROOM);
        assert_eq!(again.as_ref(), Ok(&text));
        for less in one_pair_less(&text) {
            assert_ne!(read(&less).as_deref(), Some(&bytes[..]), "{text}: {less}");
            pairs += 1;
        }
        longest = longest.max(text.len());
    }
    assert!(pairs > 1_000 && longest > 60, "{pairs} pairs, {longest}");
}

/// The longest print of each count of bytes up to 48, and an expression that has it. How an operand
/// is printed hangs on its first operator alone, so the longest for each operator and each count are
/// enough to make all longer ones of.
fn longest_prints() -> Vec<(usize, Option<Ast>)> {
    let terms = [Ast::One(63), Ast::Range(63, 10, 63)];
    let mut best: Vec<[Option<Ast>; 3]> = vec![[None, None, None]; MOST_BYTES + 1];
    let length = |ast: &Option<Ast>| ast.as_ref().map_or(0, |ast| ast.to_string().len());
    for count in 1..=MOST_BYTES {
        let mut here = [None, None, None];
        here[0] = terms
            .iter()
            .find(|term| term.to_bytes().len() == count)
            .cloned();
        for left in 1..count {
            for (a, b) in best[left]
                .iter()
                .flat_map(|a| best[count - 1 - left].iter().map(move |b| (a, b)))
            {
                let (Some(a), Some(b)) = (a, b) else { continue };
                let [and, or] = [Ast::And, Ast::Or]
                    .map(|join| Some(join(Box::new(a.clone()), Box::new(b.clone()))));
                for (place, made) in [(1, and), (2, or)] {
                    if length(&made) > length(&here[place]) {
                        here[place] = made;
                    }
                }
            }
        }
        best[count] = here;
    }
    let longest = |of: [Option<Ast>; 3]| of.into_iter().max_by_key(length).expect("three");
    best.into_iter()
        .map(longest)
        .map(|ast| (length(&ast), ast))
        .collect()
}

/// By hand: a securons and b ranges have 2a + 4b bytes and a + b - 1 operators, so 3a + 5b - 1 bytes.
/// Their print has at most 2a + 10b bytes for the terms, a + b - 1 for the operators, and a pair for
/// each operator but the first, which a row of one operator nested to the right needs: 5a + 13b - 5.
/// With 3a + 5b at most 49 that is most for 9 ranges and a securon: 117, of 47 bytes. With 48 bytes
/// (3 securons and 8 ranges) it is 114.
#[test]
fn the_longest_print_has_117_bytes() {
    let longest = longest_prints();
    let lengths: Vec<usize> = longest.iter().map(|(length, _)| *length).collect();
    let by_hand = |count: usize| {
        let of = |ranges: usize| {
            let left = (count + 1).checked_sub(5 * ranges)?;
            (left % 3 == 0).then(|| 5 * (left / 3) + 13 * ranges - 5)
        };
        (0..10).filter_map(of).max().unwrap_or(0)
    };
    assert_eq!(lengths[..6], [0, 0, 2, 0, 10, 5]);
    assert_eq!(lengths[5..], Vec::from_iter((5..=48).map(by_hand)));
    assert_eq!(lengths[46..], [106, 117, 114]);
    assert_eq!(lengths.iter().max(), Some(&117));
    for (count, length) in lengths.into_iter().enumerate().skip(2) {
        assert!(length <= 4 * count - 3, "{count}: {length}");
    }
    for (length, ast) in longest.into_iter().filter(|(length, _)| *length > 0) {
        let bytes = ast.expect("it has a length").to_bytes();
        let text = printed(&line(), &bytes, PRINT_ROOM).expect("in order");
        assert_eq!((text.len(), read(&text)), (length, Some(bytes)));
    }
}

#[test]
fn the_longest_prints_by_hand() {
    // 47 bytes: a & (b & (c & ..)) of nine ranges and a securon at the end
    let bytes = [&[3, 2, 63, 10, 63].repeat(9)[..], &[1, 63]].concat();
    let text = "63[10..63]&(".repeat(8) + "63[10..63]&63" + &")".repeat(8);
    assert_eq!((bytes.len(), text.len()), (47, 117));
    assert_eq!(printed(&line(), &bytes, PRINT_ROOM), Ok(text.clone()));
    assert_eq!(read(&text), Some(bytes));
    // 48 bytes: a | (b | (c | ..)) of eight ranges and three securons
    let front = [&[4, 2, 63, 10, 63].repeat(8)[..], &[4, 1, 63, 4, 1, 63]].concat();
    let bytes = [&front[..], &[1, 63]].concat();
    let text = "63[10..63]|(".repeat(8) + "63|(63|63" + &")".repeat(9);
    assert_eq!((bytes.len(), text.len()), (48, 114));
    assert_eq!(printed(&line(), &bytes, PRINT_ROOM), Ok(text.clone()));
    assert_eq!(read(&text), Some(bytes));
    // the most securons: sixteen, of 47 bytes
    let bytes = [&[3, 1, 63].repeat(15)[..], &[1, 63]].concat();
    let text = "63&(".repeat(14) + "63&63" + &")".repeat(14);
    assert_eq!((bytes.len(), text.len()), (47, 75));
    assert_eq!(printed(&line(), &bytes, PRINT_ROOM), Ok(text));
}
