//! The second program: the rules of documents 01 and 02 once more, plain and slow, with every level stored in full.
//! It shares no line with the proved library; both read the same scripts and files and must print the same bytes.
//!
//! - [`answer`]     an answer: its number and its two places; a refusal, case by case
//! - [`state`]      D, operations, levels, the stored numbers of vertices and faces, and the 64 level ends
//! - [`map`]        the table with its surviving darts: partner, successor, face-next, the dart before, cycles
//! - [`operation`]  one operation on one edge, and its undoing
//! - [`kernel`]     an edge judged at its turn; a list of edges; the edges a sweep takes
//! - [`pyramid`]    the levels, each stored in full, with the history
//! - [`decide`]     is a state from outside, with its table and history, a pyramid?
//! - [`kept`]       the levels kept from call to call, and when they are dropped
//! - [`two_ways`]   the levels kept and the levels derived are the same, or the program stops
//! - [`counts`]     surviving darts, vertices, faces, Euler number
//! - [`lent`]       the lent slices: lengths, what is written, what is zeroed
//! - [`plan`]       the map of a plan, and its first kernel
//! - [`ends`]       is a base table, with its edges' ends, that of a pyramid?
//! - [`lookup`]     a dart's successor at a level: from the level as it is stored, and by a walk
//! - [`record`]     the stitches and the yarn of one zone
//! - [`merges`]     which two records each operation merges: zones as sets of base vertices
//! - [`costs`]      what each zone of the present level costs, from the numbers as they stand
//! - [`sheets`]     the lent sheets: do an accepted start and these operations give them?
//! - [`calls`]      the eleven calls
//! - [`yarn`]       five of them with the sheets
//! - [`scan`]       the bytes of a file from left to right
//! - [`file_read`]  what a file means
//! - [`file_write`] a pyramid's file
//! - [`levels`]     the program `levels`
//! - [`drawing`]    the program `plan`
//! - [`script`]     the lines of a script
//! - [`rooms`]      what the program `zones` holds and lends
//! - [`zones`]      the program `zones`

pub mod answer;
pub mod calls;
pub mod costs;
pub mod counts;
pub mod decide;
pub mod drawing;
pub mod ends;
pub mod file_read;
pub mod file_write;
pub mod kept;
pub mod kernel;
pub mod lent;
pub mod levels;
pub mod lookup;
pub mod map;
pub mod merges;
pub mod operation;
pub mod plan;
pub mod pyramid;
pub mod record;
pub mod rooms;
pub mod scan;
pub mod script;
pub mod sheets;
pub mod state;
pub mod two_ways;
pub mod yarn;
pub mod zones;
