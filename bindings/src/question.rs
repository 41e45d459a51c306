//! Refusals: which question failed, and on what values.

use crate::geometry::Kind;
use core::error::Error;
use core::fmt;

macro_rules! questions {
    ($($number:literal $name:ident $text:literal,)*) => {
        /// The questions of the library, by what is wrong where one fails.
        ///
        /// `docs/QUESTIONS.md` of the repository has each question in full,
        /// and the order in which each call asks.
        ///
        /// ```
        /// use kf::Question;
        /// assert_eq!(Question::from_number(4), Some(Question::Magic));
        /// assert_eq!(Question::Magic.number(), 4);
        /// assert_eq!(Question::Magic.to_string(), "wrong magic number");
        /// assert_eq!(Question::ALL.len(), 33);
        /// ```
        #[derive(Debug, Clone, Copy, PartialEq, Eq, Hash, PartialOrd, Ord)]
        #[non_exhaustive]
        #[repr(u32)]
        pub enum Question {
            $(
                #[doc = concat!($number, ": ", $text, ".")]
                $name = $number,
            )*
        }

        impl Question {
            /// All questions, in the order of their numbers.
            pub const ALL: &'static [Question] = &[$(Question::$name,)*];

            /// The question of a number, if this crate knows it.
            pub const fn from_number(number: u32) -> Option<Question> {
                match number {
                    $($number => Some(Question::$name),)*
                    _ => None,
                }
            }

            /// What is wrong where the question fails.
            pub const fn text(self) -> &'static str {
                match self {
                    $(Question::$name => $text,)*
                }
            }
        }
    };
}

questions! {
    1 BadGeometry "the version is not 4 or 5, the block size is no power of two from 512 to 65,536, or the group lies too far out for a 64-bit address",
    2 ShortBuffer "the buffer is shorter than a block header",
    3 NoTree "a volume of this version has no such tree",
    4 Magic "wrong magic number",
    5 Crc "wrong CRC32C",
    6 Uuid "the block has the UUID of another volume",
    7 OwningGroup "the block names another owning group",
    8 Address "the block names another address",
    9 Level "the block is at another level",
    10 Records "the block claims more records or entries than fit it",
    11 Levels "the levels of the tree are not 1 to 9",
    12 Scratch "the stack or the scratch is too short",
    13 Visits "max(agblocks, 64) blocks were visited, and another is due",
    14 Outside "the block does not lie whole in the image",
    15 Full "there is no room for the block, or for its records, in the lists lent",
    16 PlanLevels "the tree would have more than 9 levels",
    17 BlockNumbers "not as many block numbers as planned blocks",
    18 Output "the output is shorter than the planned blocks",
    19 ListLength "the length of the list is not a multiple of its record's",
    20 RmapOrder "a record of the reverse map is bad or out of order",
    21 ExtentOrder "a record of the shared counts or a free extent is bad or out of order",
    22 Extent "the extent is empty, ends past block 2,147,483,648 or ends past file offset 2^54",
    23 Overlap "a held block or a clashing record is in the way of the take",
    24 Missing "no record of the extent's owner and flags contains it",
    25 Staging "the extent meets a staging record",
    26 Room "a new list, the free extents, or a sheet or its changes do not fit what was lent",
    27 Unheld "a block of the extent is not held",
    28 Owners "a shared record over the extent has 4,294,967,295 owners already",
    29 Asked "the block numbers asked do not ascend strictly, or there are fewer places for answers",
    30 Sequence "the block's sequence number is above the volume's last one",
    31 NotInExtent "the block does not lie in the extent",
    32 SheetCrc "a block of the sheet has a wrong CRC32C, or the last one is not whole",
    33 SheetRule "the sheet or the list of changes is empty or breaks a rule",
}

impl Question {
    /// Its number: the answer of the C interface.
    pub const fn number(self) -> u32 {
        self as u32
    }
}

impl fmt::Display for Question {
    fn fmt(&self, f: &mut fmt::Formatter<'_>) -> fmt::Result {
        f.write_str(self.text())
    }
}

/// What was expected of a field of a block header, and what was found.
#[derive(Debug, Clone, Copy, PartialEq, Eq, Hash)]
#[non_exhaustive]
pub struct Values {
    /// What the field should be.
    pub expected: u64,
    /// What it is.
    pub found: u64,
}

impl Values {
    /// The two values.
    pub const fn new(expected: u64, found: u64) -> Values {
        Values { expected, found }
    }
}

/// A refusal: the number of the question that failed and, where both are
/// numbers, what was expected and what was found.
///
/// ```
/// use kf::{Question, Refusal, Values};
/// let refusal = Refusal::new(Question::Magic, Some(Values::new(0x524D_4233, 0)));
/// assert_eq!(
///     refusal.to_string(),
///     "wrong magic number (4): expected 0x524d4233, found 0x00000000",
/// );
/// let refusal = Refusal::new(Question::Unheld, None);
/// assert_eq!(refusal.to_string(), "a block of the extent is not held (27)");
/// ```
#[derive(Clone, Copy, PartialEq, Eq, Hash)]
#[non_exhaustive]
pub struct Refusal {
    /// The number of the question that failed; all before it held.
    pub number: u32,
    /// The two values; questions 4, 5, 7 to 10 and 30 have them.
    pub values: Option<Values>,
}

impl Refusal {
    /// A refusal by a question.
    pub const fn new(question: Question, values: Option<Values>) -> Refusal {
        Refusal {
            number: question.number(),
            values,
        }
    }

    /// The question that failed; none where the library is newer than this
    /// crate and has a number that it does not know.
    pub const fn question(&self) -> Option<Question> {
        Question::from_number(self.number)
    }

    /// From the number and the figures of a refused call.
    pub(crate) fn from_figures(number: u32, said: &[u64; 4]) -> Refusal {
        let values = match number {
            4 | 5 | 7..=10 | 30 => Some(Values::new(said[0], said[1])),
            _ => None,
        };
        Refusal { number, values }
    }
}

/// With the question's name, since `main` prints an error so.
impl fmt::Debug for Refusal {
    fn fmt(&self, f: &mut fmt::Formatter<'_>) -> fmt::Result {
        f.debug_struct("Refusal")
            .field("number", &self.number)
            .field("question", &self.question())
            .field("values", &self.values)
            .finish()
    }
}

impl fmt::Display for Refusal {
    fn fmt(&self, f: &mut fmt::Formatter<'_>) -> fmt::Result {
        match self.question() {
            Some(q) => write!(f, "{q} ({})", self.number)?,
            None => write!(f, "refused by question {}", self.number)?,
        }
        let Some(Values { expected, found }) = self.values else {
            return Ok(());
        };
        match self.question() {
            Some(Question::Magic | Question::Crc) => {
                write!(f, ": expected {expected:#010x}, found {found:#010x}")
            }
            Some(Question::Records | Question::Sequence) => {
                write!(f, ": expected {expected} at most, found {found}")
            }
            _ => write!(f, ": expected {expected}, found {found}"),
        }
    }
}

impl Error for Refusal {}

/// The answer of a call: what it gave, or its refusal.
pub(crate) fn answer<T>(number: u32, said: &[u64; 4], done: T) -> Result<T, Refusal> {
    match number {
        0 => Ok(done),
        n => Err(Refusal::from_figures(n, said)),
    }
}

/// A refused walk or lookup: of which tree, why, and after how many visits.
///
/// ```
/// use kf::{Kind, Question, Refusal, Values, WalkRefusal};
/// let level = Refusal::new(Question::Level, Some(Values::new(0, 1)));
/// let refused = WalkRefusal::new(Kind::Rmap, level, 3);
/// assert_eq!(
///     refused.to_string(),
///     "reverse map: the block is at another level (9): expected 0, found 1, after 3 visits",
/// );
/// ```
#[derive(Debug, Clone, Copy, PartialEq, Eq, Hash)]
#[non_exhaustive]
pub struct WalkRefusal {
    /// The tree that was walked, or looked up in.
    pub kind: Kind,
    /// Why it was refused.
    pub refusal: Refusal,
    /// The blocks visited, a refused one among them unless 13 refused it.
    pub visits: usize,
}

impl WalkRefusal {
    /// A refusal of a walk.
    pub const fn new(kind: Kind, refusal: Refusal, visits: usize) -> WalkRefusal {
        WalkRefusal {
            kind,
            refusal,
            visits,
        }
    }
}

impl fmt::Display for WalkRefusal {
    fn fmt(&self, f: &mut fmt::Formatter<'_>) -> fmt::Result {
        let visits = if self.visits == 1 { "visit" } else { "visits" };
        write!(
            f,
            "{}: {}, after {} {visits}",
            self.kind, self.refusal, self.visits
        )
    }
}

impl Error for WalkRefusal {}

#[cfg(test)]
mod tests {
    use super::*;
    use alloc::collections::BTreeSet;
    use alloc::format;
    use alloc::string::ToString;
    use alloc::vec::Vec;

    #[test]
    fn questions() {
        let numbers: Vec<u32> = Question::ALL.iter().map(|q| q.number()).collect();
        assert_eq!(numbers, (1..=33).collect::<Vec<u32>>());
        let mut texts = BTreeSet::new();
        for &q in Question::ALL {
            assert_eq!(Question::from_number(q.number()), Some(q));
            assert_eq!(q.to_string(), q.text());
            assert!(texts.insert(q.text()), "{q:?} has a text of its own");
        }
        assert_eq!(Question::from_number(0), None);
        assert_eq!(Question::from_number(34), None);
    }

    #[test]
    fn refusals() {
        let said = [1, 0xFEED, 3, 0];
        let text = |number| Refusal::from_figures(number, &said).to_string();
        assert_eq!(
            text(4),
            "wrong magic number (4): expected 0x00000001, found 0x0000feed"
        );
        assert_eq!(
            text(5),
            "wrong CRC32C (5): expected 0x00000001, found 0x0000feed"
        );
        assert_eq!(text(6), "the block has the UUID of another volume (6)");
        assert_eq!(
            text(7),
            "the block names another owning group (7): expected 1, found 65261"
        );
        assert_eq!(
            text(8),
            "the block names another address (8): expected 1, found 65261"
        );
        assert_eq!(
            text(10),
            "the block claims more records or entries than fit it (10): \
             expected 1 at most, found 65261"
        );
        assert_eq!(
            text(30),
            "the block's sequence number is above the volume's last one (30): \
             expected 1 at most, found 65261"
        );
        assert_eq!(text(11), "the levels of the tree are not 1 to 9 (11)");
        assert_eq!(
            format!("{:?}", Refusal::new(Question::Missing, None)),
            "Refusal { number: 24, question: Some(Missing), values: None }"
        );
        assert_eq!(text(99), "refused by question 99");
        assert_eq!(Refusal::from_figures(99, &said).question(), None);
        for &q in Question::ALL {
            let has_values = matches!(q.number(), 4 | 5 | 7..=10 | 30);
            let refusal = Refusal::from_figures(q.number(), &said);
            assert_eq!(refusal.values.is_some(), has_values);
            assert_eq!(refusal, Refusal::new(q, refusal.values));
        }
        let outside = Refusal::new(Question::Outside, None);
        let walk = |visits| WalkRefusal::new(Kind::Refcount, outside, visits).to_string();
        let begun = "shared counts: the block does not lie whole in the image (14), after";
        assert_eq!(walk(0), format!("{begun} 0 visits"));
        assert_eq!(walk(1), format!("{begun} 1 visit"));
        assert_eq!(walk(2), format!("{begun} 2 visits"));
    }
}
