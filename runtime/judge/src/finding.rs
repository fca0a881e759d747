//! What a judge finds: the first thing that isn't as it should be, with its file and line.

use muoswyld::names::{Name, Names};
use std::fmt;
use std::path::PathBuf;

/// What isn't as it should be.
#[derive(Clone, Debug, PartialEq, Eq, thiserror::Error)]
#[non_exhaustive]
pub enum Cause {
    /// There is no journal with a whole line.
    #[error("there is no journal with a whole line")]
    NoJournals,
    /// A file can't be read, or a temporary one can't be written.
    #[error("{0}")]
    Unread(String),
    /// The first line isn't that of a journal.
    #[error("this is no first line of a journal")]
    NoHead,
    /// A line isn't one of a journal.
    #[error("this is no line of a journal: {0}")]
    NoLine(String),
    /// Two journals are of one name.
    #[error("{0} has two journals")]
    Twice(Name),
    /// Its founding isn't that of the others.
    #[error("{0} has another founding than the other journals")]
    OtherFounding(Name),
    /// A time is before that of the line before.
    #[error("the time is before that of the line before")]
    Backwards,
    /// The node can't be opened, or gives no answer.
    #[error("the node gives no answer: {0}")]
    NoAnswer(String),
    /// The node answers something else.
    #[error("the node answers {answers:?}, and the journal has {journal:?}")]
    OtherAnswer {
        /// What the proved node answers.
        answers: String,
        /// What the journal has.
        journal: String,
    },
    /// A line stands after the one that ends a journal.
    #[error("the journal goes on after its end")]
    AfterEnd,
    /// A letter was heard of a name without a journal.
    #[error("letter {number} of {from} was heard, and there is no journal of {from}")]
    NoSender {
        /// Whose letter.
        from: Name,
        /// Its number.
        number: u64,
    },
    /// A letter was heard that no journal has before it.
    #[error("letter {number} of {from} was heard, and its journal doesn't have it before this")]
    NoLetter {
        /// Whose letter.
        from: Name,
        /// Its number.
        number: u64,
    },
    /// A letter was heard with other bytes, or for others.
    #[error("letter {number} of {from} was sent with other bytes, or to others")]
    OtherLetter {
        /// Whose letter.
        from: Name,
        /// Its number.
        number: u64,
    },
    /// A name was given up that didn't stop before.
    #[error("{0} was given up, and its journal doesn't end before this")]
    NotStopped(Name),
    /// A life began before the one before it stopped.
    #[error("this life began, and the journal of {0} doesn't end before it")]
    NotReturned(Name),
    /// A life has no journal, and no empty one stands for it.
    #[error("{0} stopped, and its journal isn't there; if it was killed before its first line, name an empty file in its place")]
    NoJournal(Name),
    /// A life took another number than the next.
    #[error("entry {number} was taken after entry {last}")]
    Gap {
        /// What was taken before.
        last: u64,
        /// What was taken now.
        number: u64,
    },
    /// A life's first entry isn't where its list begins.
    #[error("entry {0} was taken first: a founder's first is 1, another's is its own join")]
    Beginning(u64),
    /// Two lives took different entries at a number.
    #[error("another life took another entry at {0}")]
    OtherEntry(u64),
    /// A sender's requests aren't in turn.
    #[error("request {request} of {from} was taken, and not request {wanted}")]
    OutOfTurn {
        /// The sender.
        from: Name,
        /// Its request.
        request: u64,
        /// The one that was next.
        wanted: u64,
    },
    /// What was answered as sent stands elsewhere.
    #[error(
        "request {request} was answered to stand at {number}, and something else stands there"
    )]
    OtherSend {
        /// The request.
        request: u64,
        /// The number of the answer.
        number: u64,
    },
    /// A list follows another one, of which there is no journal.
    #[error("this list follows {0} others, and the one before it has no journal")]
    NoListBefore(u32),
    /// A list follows another one, in which no entry ended it.
    #[error("this list follows one in which no entry that was taken ended it")]
    NotEnded,
    /// What is said of the list that follows isn't what the entry says that ended the list.
    #[error(
        "the journal has {has} as the {what}, and by the entry that ended the list it is {wanted}"
    )]
    OtherList {
        /// What it is about.
        what: &'static str,
        /// What the journal says.
        has: String,
        /// What the entry says.
        wanted: String,
    },
    /// The entry that ends a list names others than its members.
    #[error(
        "entry {number} ends the list, and says that its members are {said}; they are {members}"
    )]
    OtherMembers {
        /// The entry.
        number: u64,
        /// The members that it names.
        said: Names,
        /// The members there.
        members: Names,
    },
    /// A life says that its list ended, and took no entry that ended it.
    #[error("the list is said to end, and no entry ended it before")]
    NoEnd,
    /// A life took the entry that ended its list, and didn't say so.
    #[error("entry {0} ended the list before this, and the journal doesn't say which one follows")]
    NoNext(u64),
    /// The end of a list isn't where it was for another life.
    #[error("entry {number} ended the list here, and for another life entry {other} did")]
    OtherEnd {
        /// The entry.
        number: u64,
        /// The other life's.
        other: u64,
    },
    /// A journal comes after its list was judged to its end.
    #[error("this journal comes after all lives of its list were over")]
    Late,
    /// A founder of a list didn't come to the end of the one before.
    #[error(
        "this list was begun, and the journal of {0} doesn't come to the end of the one before"
    )]
    NotThere(Name),
    /// `play` ended badly.
    #[error("play gives no text: {0}")]
    NoText(String),
    /// `play` prints another line.
    #[error("play prints {prints:?}, and the journals come to {journals:?}")]
    OtherText {
        /// What it prints.
        prints: String,
        /// The line of the journals.
        journals: String,
    },
    /// `play` says otherwise from where on nothing is claimed.
    #[error("play says {play:?}, and the judge {judge:?}")]
    OtherVerdict {
        /// What `play` says.
        play: String,
        /// What was reckoned here.
        judge: String,
    },
}

/// The first thing that isn't as it should be, and where.
#[derive(Clone, Debug, PartialEq, Eq)]
pub struct Finding {
    /// The file; empty if it is of no file.
    pub file: PathBuf,
    /// The line, from 1; 0 if it is of no line.
    pub line: u64,
    /// What.
    pub cause: Cause,
}

impl Finding {
    /// One of a file's line.
    pub(crate) fn at(file: &std::path::Path, line: u64, cause: Cause) -> Finding {
        Finding {
            file: file.to_path_buf(),
            line,
            cause,
        }
    }

    /// One of no line.
    pub(crate) fn of(cause: Cause) -> Finding {
        Finding {
            file: PathBuf::new(),
            line: 0,
            cause,
        }
    }
}

impl fmt::Display for Finding {
    fn fmt(&self, f: &mut fmt::Formatter<'_>) -> fmt::Result {
        if !self.file.as_os_str().is_empty() {
            write!(f, "{}:", self.file.display())?;
        }
        if self.line > 0 {
            write!(f, "{}:", self.line)?;
        }
        if !self.file.as_os_str().is_empty() {
            f.write_str(" ")?;
        }
        write!(f, "{}", self.cause)
    }
}

impl std::error::Error for Finding {}
