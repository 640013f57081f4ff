//! The cases of crates/vectors by the twin: the same calls in the same words, also on states that
//! only a caller can make. The words are told in the first lines of crates/vectors/stdin.

use crate::longest;
use crate::runner::from_hex;
use twin::ast;
use twin::code::{Kind, MOST_BYTES};
use twin::{Answer, Slot, State, Tree};

/// The most bytes that a call has.
pub const MOST: usize = 128;

/// What the program `vectors` has to write for these lines: an answer for each case, and those on
/// the longest image at last.
pub fn written(lines: &str) -> Result<String, String> {
    let mut state = State::fresh();
    let mut written = String::new();
    for line in lines.lines().filter(|line| !line.starts_with('#')) {
        let (name, call) = line.split_once(": ").unwrap_or((line, line));
        let said = called(&mut state, call).map_err(|why| format!("{line}: {why}"))?;
        if !name.is_empty() {
            let said = said.ok_or(format!("{line}: a name, and nothing to write"))?;
            written += &format!("{name}:{said}\n");
        }
    }
    Ok(written + &longest::written())
}

/// A call on the state, and what it writes.
fn called(state: &mut State, call: &str) -> Result<Option<String>, String> {
    let (word, bytes) = call.split_once(' ').unwrap_or((call, ""));
    let bytes = from_hex(bytes).ok_or("no hex")?;
    if bytes.len() > MOST {
        return Err(format!("{} bytes", bytes.len()));
    }
    if let Some(said) = on_expression(word, &bytes) {
        return said.map(Some);
    }
    if let Some(answer) = request(state, word, &bytes)? {
        return Ok(Some(line(answer)));
    }
    match (word, &bytes[..]) {
        ("five", []) => Ok(Some(five(state))),
        ("stored", [place]) => Ok(Some(format!(
            " {} 0",
            state.file_lengths[0][usize::from(*place)]
        ))),
        _ => alter(state, word, &bytes).map(|()| None),
    }
}

/// An answer at a line's end.
pub fn line(answer: Answer) -> String {
    format!(" {} {}", answer.number, answer.place)
}

/// The tree of 01, "Examples by hand".
fn tree() -> Tree {
    let mut parents = [0; 64];
    parents[3..7].copy_from_slice(&[1, 1, 2, 2]);
    Tree::new(8, &parents).expect("a tree")
}

/// The calls on expressions over that tree.
fn on_expression(word: &str, bytes: &[u8]) -> Option<Result<String, String>> {
    let tree = tree();
    let said = match word {
        "privilege" => ast::parse(bytes, Kind::Privilege, &tree).map(|_| " 0 0".to_string()),
        "protection" => ast::parse(bytes, Kind::Protection, &tree).map(|_| " 0 0".to_string()),
        "SET" => ast::parse(bytes, Kind::Privilege, &tree).map(|parsed| {
            let set = parsed.map_or(0, |ast| ast.privilege_set(&tree));
            let members = (0..64).filter(|u| set >> u & 1 == 1);
            members.map(|u| format!(" {u}")).collect()
        }),
        "T1" | "T2" => {
            let Some((held, protection)) = counted(bytes) else {
                return Some(Err("no held set".to_string()));
            };
            let held = held.iter().fold(0, |set, u| set | 1 << u);
            ast::parse(protection, Kind::Protection, &tree).map(|parsed| {
                let met = parsed.map_or(word == "T1", |ast| {
                    ast::met_by_value(&ast.value(&tree), held)
                });
                if met { " met" } else { " not met" }.to_string()
            })
        }
        _ => return None,
    };
    Some(Ok(said.unwrap_or_else(|place| format!(" 6 {place}"))))
}

/// Load and the requests; the bytes of change and bypass are those of 01's records 04 and 05.
fn request(state: &mut State, word: &str, bytes: &[u8]) -> Result<Option<Answer>, String> {
    let numbers: Vec<usize> = bytes.iter().map(|&byte| usize::from(byte)).collect();
    Ok(Some(match (word, &numbers[..]) {
        ("load", _) => state.load(bytes),
        ("begin", &[slot, role]) => state.begin(slot, role),
        ("end", &[slot]) => state.end(slot),
        ("ask", &[slot, file, mode]) => state.ask(slot, file, mode),
        ("change" | "bypass", &[slot, file, mode, ..]) => {
            let (first, rest) = counted(&bytes[3..]).ok_or("no first expression")?;
            let (second, rest) = counted(rest).ok_or("no second expression")?;
            if !rest.is_empty() {
                return Err("bytes left over".to_string());
            }
            match word {
                "change" => state.change(slot, file, mode, first, second),
                _ => state.bypass(slot, file, mode, first, second),
            }
        }
        _ => return Ok(None),
    }))
}

/// The bytes whose number stands in front of them, and those after.
fn counted(bytes: &[u8]) -> Option<(&[u8], &[u8])> {
    let (&count, rest) = bytes.split_first()?;
    rest.split_at_checked(usize::from(count))
}

/// The numbers of begin, end, ask, change and bypass, as a well-formed state grants them all, then
/// with a slot number over 15 and all else wrong; the state is left as it is.
fn five(state: &State) -> String {
    let fresh = || state.clone();
    let granted = [
        fresh().begin(1, 0),
        fresh().end(0),
        fresh().ask(0, 0, 4),
        fresh().change(0, 0, 4, &[], &[]),
        fresh().bypass(0, 0, 4, &[], &[]),
    ];
    let refused = [
        fresh().begin(16, 255),
        fresh().end(16),
        fresh().ask(16, 255, 255),
        fresh().change(255, 255, 255, &[5], &[5]),
        fresh().bypass(255, 255, 255, &[5], &[5]),
    ];
    let numbers = |answers: [Answer; 5]| answers.map(|a| format!(" {}", a.number)).concat();
    numbers(granted) + ";" + &numbers(refused)
}

/// A state to begin with, or a part of it altered.
fn alter(state: &mut State, word: &str, bytes: &[u8]) -> Result<(), String> {
    match (word, bytes) {
        ("fresh", []) => *state = State::fresh(),
        ("base", []) => *state = base(),
        ("role", [role, place, length, bytes @ ..]) => {
            let (role, place) = (usize::from(*role), usize::from(*place));
            state.role_lengths[role][place] = *length;
            state.role_bytes[role][place] = room(bytes);
        }
        ("file", [file, place, length, bytes @ ..]) => {
            let (file, place) = (usize::from(*file), usize::from(*place));
            state.file_lengths[file][place] = *length;
            state.file_bytes[file][place] = room(bytes);
        }
        ("securons", [n]) => state.securons = *n,
        ("parent", [securon, parent]) => state.parents[usize::from(*securon)] = *parent,
        ("counts", [roles, files]) => (state.role_count, state.file_count) = (*roles, *files),
        ("hold", [slot, role]) => {
            state.slots[usize::from(*slot)] = Slot {
                taken: true,
                role: *role,
            };
        }
        _ => return Err("no such call".to_string()),
    }
    Ok(())
}

/// The tree of 01's examples, two roles and two files whose expressions are all empty; slot 0 holds
/// role 0. Made part by part, without a load.
fn base() -> State {
    let mut state = State::fresh();
    state.securons = 8;
    state.parents[3..7].copy_from_slice(&[1, 1, 2, 2]);
    (state.role_count, state.file_count) = (2, 2);
    state.slots[0].taken = true;
    state
}

/// Bytes, and zero past them.
fn room(bytes: &[u8]) -> [u8; MOST_BYTES] {
    let mut room = [0; MOST_BYTES];
    room[..bytes.len()].copy_from_slice(bytes);
    room
}
