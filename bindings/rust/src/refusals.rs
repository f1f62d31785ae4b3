//! Why a call was refused.

use std::error::Error;
use std::fmt;

/// Why a call was refused: the first of the rules' tests that failed. A refused call has changed no word of any buffer.
///
/// ```
/// use sotjarn::Refusal;
///
/// assert_eq!(Refusal::Quantum.code(), 8);
/// assert_eq!(Refusal::from_code(8), Some(Refusal::Quantum));
/// assert_eq!(Refusal::from_code(29), None);
/// assert_eq!(Refusal::Quantum.fault(), "the quantum is outside its range");
/// assert_eq!(Refusal::Quantum.remedy(), "give 1 to 1,000,000 steps");
/// assert_eq!(Refusal::Quantum.to_string(), "refused by 8: the quantum is outside its range; give 1 to 1,000,000 steps");
/// ```
#[derive(Clone, Copy, Debug, PartialEq, Eq, PartialOrd, Ord, Hash)]
#[repr(u32)]
pub enum Refusal {
    /// Length of rows isn't a multiple of 4, a list's length differs from the row count, or more than 65,536 rows.
    TableLengths = 1,
    /// A field's kind is wrong in some row.
    FieldKind = 2,
    /// Rows don't ascend strictly.
    RowOrder = 3,
    /// A list names a row that isn't there, or doesn't ascend strictly.
    RowNumbers = 4,
    /// Plan: kind, low bits, length, node count or depth is wrong, or words are left over.
    PlanForm = 5,
    /// Plan: a variable above ?15, one that is not bound where it must be, a key that is no column, or a repeat.
    PlanVariables = 6,
    /// Output holds less than one row, k rows, one group or 16 registers, by ending; a state buffer under 11 words; or a report on registers
    /// under 62.
    BufferLengths = 7,
    /// Quantum outside its range.
    Quantum = 8,
    /// State empty, of wrong kinds, branch, depth or length, or of a year that is not read.
    StateForm = 9,
    /// State that the uncut run doesn't pass through.
    StateNotPassed = 10,
    /// Threshold of wrong length, with another ending than top, or with a word of kind 3 other than unbound.
    Threshold = 11,
    /// Merge: a list that no turn or merge by this plan can have made; or the plan ends in rows. Report: a list that is no registers.
    MergedLists = 12,
    /// Merge: a count would pass 2^64 − 1, or a sum leave −2^63 to 2^63 − 1.
    Totals = 13,
    /// Merge: the kept buffer is too short for the result.
    KeptLength = 14,
    /// Making tables: the upload's length isn't a multiple of 4, or it has more than 65,536 rows.
    UploadLength = 15,
    /// Making tables: a buffer is too short for the tables or the report.
    MadeLengths = 16,
    /// Queue: two entries of one owner, the joining one included; one without steps in the line or with steps set aside; a top-up of 0
    /// or for an owner who is not set aside.
    Entries = 17,
    /// Queue: a list too short for 32 entries, or more than 32 in all with the joining one.
    QueueRoom = 18,
    /// Queue: serving an empty line.
    EmptyLine = 19,
    /// View: the grant has a word that is no name, or does not ascend strictly.
    Grant = 20,
    /// View: a buffer is too short for the visible rows.
    ViewLengths = 21,
    /// A survey's number above 28 bits, or a state of another survey. It stands after 9 and before 10.
    Survey = 22,
    /// A row's year outside 1 to 9,999, after 2; or a plan's above 9,999, after 6.
    Year = 23,
    /// Growing a wood: more than 32,768 stems, or a year outside 1 to 9,999.
    Stems = 24,
    /// Growing a wood: a buffer is too short for it.
    GrownLengths = 25,
    /// Numbering strings: ends that fall or do not end with the bytes, a string that is none of its kind, or too many.
    Strings = 26,
    /// Numbering strings: a buffer is too short for the dictionary or the numbers.
    NumberedLengths = 27,
    /// A dictionary that is not right, or a string of it that is none of its kind.
    Dictionary = 28,
}

/// All of them, by their numbers from 1 on.
const ALL: [Refusal; 28] = [
    Refusal::TableLengths,
    Refusal::FieldKind,
    Refusal::RowOrder,
    Refusal::RowNumbers,
    Refusal::PlanForm,
    Refusal::PlanVariables,
    Refusal::BufferLengths,
    Refusal::Quantum,
    Refusal::StateForm,
    Refusal::StateNotPassed,
    Refusal::Threshold,
    Refusal::MergedLists,
    Refusal::Totals,
    Refusal::KeptLength,
    Refusal::UploadLength,
    Refusal::MadeLengths,
    Refusal::Entries,
    Refusal::QueueRoom,
    Refusal::EmptyLine,
    Refusal::Grant,
    Refusal::ViewLengths,
    Refusal::Survey,
    Refusal::Year,
    Refusal::Stems,
    Refusal::GrownLengths,
    Refusal::Strings,
    Refusal::NumberedLengths,
    Refusal::Dictionary,
];

impl Refusal {
    /// The number that the rules give it.
    pub fn code(self) -> u32 {
        self as u32
    }

    /// The refusal of a number, if the rules have one.
    pub fn from_code(code: u32) -> Option<Refusal> {
        ALL.into_iter().find(|refusal| refusal.code() == code)
    }

    /// What is wrong, in a few words.
    pub fn fault(self) -> &'static str {
        match self {
            Refusal::TableLengths => "the lengths of the tables do not fit together, or there are more than 65,536 rows",
            Refusal::FieldKind => "a field of some row has the wrong kind",
            Refusal::RowOrder => "the rows do not ascend strictly",
            Refusal::RowNumbers => "a list of row numbers names a row that is not there, or its rows do not ascend strictly",
            Refusal::PlanForm => {
                "the form of the plan is wrong: a kind, a count, its length or a condition's size, or words are left over"
            }
            Refusal::PlanVariables => "a variable of the plan is above ?15, is not bound, or is repeated",
            Refusal::BufferLengths => "the output, the state buffer or a report on registers is too short",
            Refusal::Quantum => "the quantum is outside its range",
            Refusal::StateForm => "the state is empty, its kinds, branch, depth or length are wrong, or its year is not being read",
            Refusal::StateNotPassed => "the query never passes through this state",
            Refusal::Threshold => "the threshold is not one row of a best-of query",
            Refusal::MergedLists => "a list is not one that this plan makes, or the plan delivers plain rows",
            Refusal::Totals => "a count would pass 2^64 - 1, or a sum leave -2^63 to 2^63 - 1",
            Refusal::KeptLength => "the kept buffer is too short for the merged list",
            Refusal::UploadLength => "the length of the upload is no multiple of 4, or it has more than 65,536 rows",
            Refusal::MadeLengths => "a buffer is too short for the tables or the report",
            Refusal::Entries => {
                "two entries have one owner, an entry is in the list that its steps do not belong to, or a top-up is 0 or for an \
                 owner who is not set aside"
            }
            Refusal::QueueRoom => "a list has no room for 32 entries, or there would be more than 32 in all",
            Refusal::EmptyLine => "the line is empty",
            Refusal::Grant => "the grant has a word that is no name, or its words do not ascend strictly",
            Refusal::ViewLengths => "a buffer is too short for the visible rows",
            Refusal::Survey => "the survey's number is above 28 bits, or the state is of another survey",
            Refusal::Year => "a row's year is outside 1 to 9,999, or the plan's is above 9,999",
            Refusal::Stems => "more than 32,768 stems are asked for, or a year outside 1 to 9,999",
            Refusal::GrownLengths => "a buffer is too short for the wood",
            Refusal::Strings => {
                "the strings' ends fall or do not end with the bytes, a string is no UTF-8 or no name, or there are more than \
                 1,073,741,823"
            }
            Refusal::NumberedLengths => "a buffer is too short for the dictionary or the numbers",
            Refusal::Dictionary => "the dictionary's ends, its UTF-8, its names or its order are wrong",
        }
    }

    /// What to do about it.
    pub fn remedy(self) -> &'static str {
        match self {
            Refusal::TableLengths => "lend four words a row, and in each list one number a row",
            Refusal::FieldKind => {
                "make every year a number, every subject and predicate a name, and every object a name, a number or a text"
            }
            Refusal::RowOrder => "sort the rows as unsigned words by year, subject, predicate, object, and leave out repeats",
            Refusal::RowNumbers => {
                "write the lists anew from these rows: one by year, predicate, object, subject, one by year, object, subject, \
                 predicate"
            }
            Refusal::PlanForm => {
                "keep to 1 to 4 branches, 1 to 8 patterns, conditions of 31 nodes and 8 deep, 1 to 16 columns, k up to 64, \
                 1 to 4 keys, 4 group variables, and 256 words in all"
            }
            Refusal::PlanVariables => {
                "use ?0 to ?15; bind a condition's variables in its own branch and the ending's in some branch; \
                 take keys from the columns; name no column or group variable twice"
            }
            Refusal::BufferLengths => {
                "lend a state buffer of 11 words, an output for one row, k rows, one group or 16 registers, as the plan ends, \
                 and 62 words for a report"
            }
            Refusal::Quantum => "give 1 to 1,000,000 steps",
            Refusal::StateForm => {
                "give the words that opening or the last turn wrote, as many as it said; after done there are none"
            }
            Refusal::StateNotPassed => "send the state with the plan and the tables that it came from, or open the query anew",
            Refusal::Threshold => "send none, or the last row of a full list merged by the same plan",
            Refusal::MergedLists => {
                "merge whole lists of turns of the same plan; join the lists of a row query end to end instead; ask for reports \
                 on merged registers alone"
            }
            Refusal::Totals => "merge each list once; such totals no survey reaches",
            Refusal::KeptLength => "lend a longer buffer: the words of both lists are always enough",
            Refusal::UploadLength => "send four words a row, and at most 65,536 rows",
            Refusal::MadeLengths => {
                "for n uploaded rows lend 4 n words for rows, n for each list and 2 n for the report: that is always enough"
            }
            Refusal::Entries => {
                "lend both lists as the last call left them; let an owner join once at a time, and top up, by at least one step, \
                 whoever is set aside"
            }
            Refusal::QueueRoom => "lend 32 entries for each list, and let others join when somebody has left",
            Refusal::EmptyLine => "serve again when somebody has joined or was topped up",
            Refusal::Grant => "sort the granted names as unsigned words, each once",
            Refusal::ViewLengths => "for tables of n rows lend 4 n words for rows and n for each list: that is always enough",
            Refusal::Survey => {
                "number the surveys below 268,435,456; open the query anew over this survey, and let go what was kept of the other"
            }
            Refusal::Year => "give rows a year from 1 to 9,999; ask for such a year, or for every year with 0",
            Refusal::Stems => "ask for at most 32,768 stems, and give the year as a plain number from 1 to 9,999",
            Refusal::GrownLengths => "for n stems lend 8 n words for rows and 2 n for each list: that is exactly enough",
            Refusal::Strings => {
                "give each string's end, the last being the number of bytes, and names as IRIs in <> have them, none of them empty"
            }
            Refusal::NumberedLengths => {
                "for b bytes and n strings lend b bytes, and n words for the ends, the numbers and the places each: that is always \
                 enough"
            }
            Refusal::Dictionary => "lend bytes and ends as numbering left them, with the kind that they were numbered as",
        }
    }
}

impl fmt::Display for Refusal {
    fn fmt(&self, f: &mut fmt::Formatter<'_>) -> fmt::Result {
        write!(f, "refused by {}: {}; {}", self.code(), self.fault(), self.remedy())
    }
}

impl Error for Refusal {}
