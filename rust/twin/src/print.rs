//! An expression printed back as text: 02, request [1], over the text of 01, "In text".

use crate::answer::{number, Answer};
use crate::ast::{self, Ast};
use crate::code::Kind;
use crate::state::State;
use std::fmt;

/// The least room for a print (02, [1]: "20 for a buffer under 512 bytes").
pub const PRINT_ROOM: usize = 512;

impl State {
    /// print(expression): the text at the front of the output, its length the place; the rest of the
    /// output keeps its content, and the state is not altered (02, [1]). Order: 17, 6, 20.
    pub fn print(&self, expression: &[u8], out: &mut [u8]) -> Answer {
        match self.try_print(expression, out.len()) {
            Err(refusal) => refusal,
            Ok(text) => {
                out[..text.len()].copy_from_slice(text.as_bytes());
                Answer::at(number::DONE, text.len())
            }
        }
    }

    /// The text of an expression, judged as a protection; none for length 0. (Apart from its caller, so
    /// that a print leaves the code of the requests as fast as it is without one.)
    #[inline(never)]
    fn try_print(&self, expression: &[u8], room: usize) -> Result<String, Answer> {
        let tree = self.tree()?;
        let wrong = |place| Answer::at(number::EXPRESSION, place);
        let ast = ast::parse(expression, Kind::Protection, &tree).map_err(wrong)?;
        if room < PRINT_ROOM {
            return Err(Answer::plain(number::BUFFER));
        }
        Ok(ast.map_or(String::new(), |ast| ast.to_string()))
    }
}

/// The text of an expression: no spaces, and parentheses where the grouping needs them only (02, [1]).
/// Both operators group to the left and `&` binds tighter (01, "In text"). So an operand is a bracketed
/// item where it stands on the right under its own operator, and an OR wherever it stands under AND.
impl fmt::Display for Ast {
    fn fmt(&self, f: &mut fmt::Formatter<'_>) -> fmt::Result {
        match self {
            Ast::One(s) => write!(f, "{s}"),
            Ast::Range(s, i, j) => write!(f, "{s}[{i}..{j}]"),
            Ast::And(a, b) => {
                item(f, a, matches!(**a, Ast::Or(..)))?;
                write!(f, "&")?;
                item(f, b, matches!(**b, Ast::Or(..) | Ast::And(..)))
            }
            Ast::Or(a, b) => {
                item(f, a, false)?;
                write!(f, "|")?;
                item(f, b, matches!(**b, Ast::Or(..)))
            }
        }
    }
}

/// An operand, in parentheses if it is bracketed.
fn item(f: &mut fmt::Formatter<'_>, operand: &Ast, bracketed: bool) -> fmt::Result {
    match bracketed {
        true => write!(f, "({operand})"),
        false => write!(f, "{operand}"),
    }
}
