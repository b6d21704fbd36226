// Shows an image of the splice log as text or as a page, for people who have to understand one.
// It relies on tests/second for the paper's limits, bytes and rules, and writes to no image.
//
//   spell               bytes as paths that can be read
//   rules, survey, check every reachable node of any bytes, and each broken rule with its node
//   trace               the way of one lookup, and the entry that decides
//   below, gap          the records below a path; what cannot be told where an image is damaged
//   compare, moving     what differs between two images; what a move did to its records
//   report, way         the two text outputs
//   page, card, key     the page
//   arguments, run, save the command line, and how a page is written
//   samples             small images, built by hand, for the tests
#![forbid(unsafe_code)]
#![deny(warnings)]

pub mod arguments;
pub mod below;
pub mod card;
pub mod check;
pub mod compare;
pub mod gap;
pub mod key;
pub mod moving;
pub mod page;
pub mod report;
pub mod rules;
pub mod run;
pub mod samples;
pub mod save;
pub mod spell;
pub mod survey;
pub mod trace;
pub mod way;
