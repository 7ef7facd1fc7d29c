//! The second program tried against documents 01 and 02.
//!
//! - `support`     what a call is lent and what it leaves; maps; chance
//! - `worked`      K1 to K12
//! - `accepted`    what an accepted call leaves in every lent slice
//! - `refusals`    each answer from each call, with its place and what is left; the order of answers
//! - `culprits`    answer 3 with both its places; tables that are no permutation, from every call
//! - `no_pyramid`  answer 4: the table of seventeen tests, and faults of shape
//! - `every_small` every table and history of up to 6 darts against the words of document 01
//! - `stored`      the numbers of vertices and faces that a state stores, right and wrong
//! - `sweeping`    an empty loop's two faces; the sweep is a kernel of removals, by every base of up to 8 darts
//! - `undoing`, `any_order`, `files`, `cycles`  random pyramids over maps of up to 12 darts
//! - `lookups`     the successor at a level: what is found, each refusal, and their order
//! - `ends`        tables and edges' ends that come from no pyramid; every one of up to 6 darts
//! - `yarn`        the calls with sheets: merges, undo, each answer and their order
//! - `merging`     the same on random pyramids: zones and places, stitches of every level, undo, any order, damage
//! - `costs`       what a script shows of each zone, of any numbers
//! - `closed_form` sheets judged a second way, without undoing
//! - `plans`       the calls on a plan: bases, first kernels against areas found by flooding, answers
//! - `drawings`    the program `plan`
//! - `kept`        the levels kept from call to call: after which call which, and what drops them
//! - `two_ways`    the levels kept and the levels derived: they agree, and a difference stops the program
//! - `rubbish`     random numbers anywhere never stop the program
//! - `reader`      the file's form, fault by fault
//! - `levels`      the program `levels`
//! - `scripts`     the program `zones`
//! - `commands`    the commands as they are started

mod accepted;
mod any_order;
mod closed_form;
mod commands;
mod costs;
mod culprits;
mod cycles;
mod drawings;
mod ends;
mod every_small;
mod files;
mod kept;
mod levels;
mod lookups;
mod merging;
mod no_pyramid;
mod plans;
mod reader;
mod refusals;
mod rubbish;
mod scripts;
mod stored;
mod support;
mod sweeping;
mod two_ways;
mod undoing;
mod worked;
mod yarn;
