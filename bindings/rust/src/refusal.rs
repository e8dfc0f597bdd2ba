//! Why a call gave nothing: a question of the library that was answered "no", or a text that no tape takes. Either names the line and the
//! token.
use crate::question::Question;
use crate::tape::locate;
use std::fmt;

/// Why a call gave nothing. Nothing has changed then.
#[derive(Debug, Clone, PartialEq, Eq)]
#[non_exhaustive]
pub enum Refusal {
    /// The library answered a question with "no".
    Asked {
        /// The first question that was answered so.
        question: Question,
        /// Where: an offset in the tape, of [`Question::NotStraight`] the number of a line, of [`Question::StoreDamaged`] that of a cell,
        /// all from 0. It is 0 where the question has no place.
        place: u64,
        /// The number of the line that the place is in, from 0.
        line: Option<usize>,
        /// The number of the token that the place is in, from 0 in its line.
        token: Option<usize>,
    },
    /// A token has a text that no tape takes. The library was not called.
    Text {
        /// What is wrong with the text.
        fault: Fault,
        /// The number of the token's line, from 0.
        line: usize,
        /// The number of the token in its line, from 0.
        token: usize,
    },
    /// A name of more than 255 bytes in a list of start values, which has room for a length of one byte. The library was not called.
    LongName {
        /// The number of the entry, from 0.
        entry: usize,
    },
}

/// What is wrong with a text that no tape takes.
#[derive(Debug, Clone, Copy, PartialEq, Eq)]
pub enum Fault {
    /// It is empty.
    Empty,
    /// It has a character outside 20 to 7E (hexadecimal).
    Character {
        /// The first such character.
        character: char,
        /// Its offset in the text, in bytes.
        offset: usize,
    },
    /// It has more than 65,535 bytes.
    Long {
        /// How many it has.
        length: usize,
    },
}

impl Refusal {
    /// The refusal that the library answered of a tape.
    pub(crate) fn answered(number: u64, place: u64, tape: &[u8]) -> Refusal {
        let question = Question::answered(number);
        let (line, token) = match question {
            Question::NotStraight => (usize::try_from(place).ok(), None),
            q if q.is_of_the_tape() => usize::try_from(place).map_or((None, None), |at| locate(tape, at)),
            _ => (None, None),
        };
        Refusal::Asked { question, place, line, token }
    }

    /// The number of the question, where the library asked one.
    pub fn number(&self) -> Option<u8> {
        self.question().map(Question::number)
    }

    /// The question, where the library asked one.
    pub fn question(&self) -> Option<Question> {
        match *self {
            Refusal::Asked { question, .. } => Some(question),
            _ => None,
        }
    }

    /// The place, where the library asked a question.
    pub fn place(&self) -> Option<u64> {
        match *self {
            Refusal::Asked { place, .. } => Some(place),
            _ => None,
        }
    }

    /// The number of the line that earned it, from 0, where one did.
    pub fn line(&self) -> Option<usize> {
        match *self {
            Refusal::Asked { line, .. } => line,
            Refusal::Text { line, .. } => Some(line),
            Refusal::LongName { .. } => None,
        }
    }

    /// The number of the token in that line, from 0, where one earned it.
    pub fn token(&self) -> Option<usize> {
        match *self {
            Refusal::Asked { token, .. } => token,
            Refusal::Text { token, .. } => Some(token),
            Refusal::LongName { .. } => None,
        }
    }
}

impl fmt::Display for Refusal {
    fn fmt(&self, f: &mut fmt::Formatter<'_>) -> fmt::Result {
        match self {
            Refusal::Asked { question, place, .. } => write!(f, "refused {} at {place}: {question}", question.number())?,
            Refusal::Text { fault, .. } => write!(f, "no tape takes this text: {fault}")?,
            Refusal::LongName { entry } => write!(f, "the name of entry {entry} has more than 255 bytes")?,
        }
        match (self.line(), self.token()) {
            (Some(line), Some(token)) => write!(f, " (lines[{line}].tokens[{token}])"),
            (Some(line), None) => write!(f, " (lines[{line}])"),
            _ => Ok(()),
        }
    }
}

impl std::error::Error for Refusal {}

impl fmt::Display for Fault {
    fn fmt(&self, f: &mut fmt::Formatter<'_>) -> fmt::Result {
        match self {
            Fault::Empty => write!(f, "it is empty"),
            Fault::Character { character, offset } => write!(f, "{character:?} at offset {offset} is outside 20 to 7E"),
            Fault::Long { length } => write!(f, "it has {length} bytes, more than 65,535"),
        }
    }
}
