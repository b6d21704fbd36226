// The second program: judges a store that somebody else wrote. It is written from the paper
// alone and shares no code with the store, so that the same mistake has to be made twice.
// No module here panics on any bytes, and none is unsafe.
//
//   limits, path, image, tree     the paper's numbers, strings, bytes and nodes
//   sound, meaning                is an image sound, and what does it mean
//   plain, program                the plain path map, and the line language over it
//   contract, upkeep              is one call right, from what is seen of it
//   pieces, batch                 a list of calls as bytes, and whether it went as the calls one by one
//   subject, script, calls, moves a store under test, and calls for it
//   judge, grid, questions        lists of calls, corners with aimed calls, every combination of arguments
//   whole, quarter                clears and listings of everything; stores as full as they may be
//   batches, stats                batches, and what was tried
//   paper, longer                 the paper's thirteen cases, and those of longer values
//   rng, words, feature, corner   what images and calls are made of, and what they are to show
//   plan, generate, cuts          sound images from a seed, and some that are hard to cut
//   lines                         scripts for the program from a seed
//   mutate                        damaged images, one for each rule
//   pack, reference, lazy, swing  simple stores to test the judge with, right or wrong
//   fault, wrong, wrong_limit     how the reference store may be wrong: upkeep that only seems to be done, the empty path
//                                 misunderstood, and the limit of a value
//   listed                        batches, right or wrong
//   examples, upkept, antt        small images and changes, printed for the proof checker
#![forbid(unsafe_code)]
#![deny(warnings)]

pub mod antt;
pub mod batch;
pub mod batches;
pub mod calls;
pub mod contract;
pub mod corner;
pub mod cuts;
pub mod examples;
pub mod fault;
pub mod feature;
pub mod generate;
pub mod grid;
pub mod image;
pub mod judge;
pub mod lazy;
pub mod limits;
pub mod lines;
pub mod listed;
pub mod longer;
pub mod meaning;
pub mod moves;
pub mod mutate;
mod mutate_bytes;
mod mutate_tree;
pub mod pack;
pub mod paper;
pub mod path;
pub mod pieces;
pub mod plain;
pub mod plan;
pub mod program;
pub mod quarter;
pub mod questions;
pub mod reference;
pub mod rng;
pub mod script;
pub mod sound;
pub mod stats;
pub mod subject;
pub mod swing;
pub mod tree;
pub mod upkeep;
pub mod upkept;
pub mod whole;
pub mod words;
pub mod wrong;
pub mod wrong_limit;
