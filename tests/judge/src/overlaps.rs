// Arrays that are only read may overlap each other, as include/splicelog.h says: one store as both of same's, a path that lies within the
// store, and two strings in one array. Each such call must do what it does with copies, which is judged elsewhere.

use crate::raw::{self, apart, Text};
use crate::{splicelog_same, Library};
use second::calls::Known;
use second::contract::same_answer;
use second::limits::*;
use second::rng::Rng;
use second::subject::{Numbers, Subject};
use second::{generate, words};

/// Makes such calls on this many images; how many calls were made.
pub fn run(seed: u64, images: usize) -> Result<usize, String> {
    let mut rng = Rng::new(seed);
    let mut calls = 0;
    for index in 0..images {
        calls += on_image(&mut rng).map_err(|call| {
            format!("seed {seed}, image {index}: {call} with arrays that overlap")
        })?;
    }
    Ok(calls)
}

/// The error is the name of the call that does something else.
fn on_image(rng: &mut Rng) -> Result<usize, &'static str> {
    let image = generate::random(rng.word());
    same(&image)?;
    let within = strings_within(rng, &image);
    within.iter().try_for_each(|string| reads(&image, string))?;
    writes(rng, &image)?;
    Ok(2 + 3 * within.len() + 2 * PARTS)
}

/// One array as both stores, and as a store and its beginning.
fn same(image: &[u8]) -> Result<(), &'static str> {
    for other in [image, &image[..NODES_LEAST * NODE]] {
        // SAFETY: both are only read.
        let answer =
            unsafe { splicelog_same(image.as_ptr(), image.len(), other.as_ptr(), other.len()) };
        let expected = same_answer(image, other);
        if apart(answer) != (expected.number, expected.beside) {
            return Err("same");
        }
    }
    Ok(())
}

/// Strings within the store: present paths where one stands whole there, any bytes, and none.
fn strings_within<'a>(rng: &mut Rng, image: &'a [u8]) -> Vec<&'a [u8]> {
    let known = Known::of(image);
    let found = |path: &Vec<u8>| image.windows(path.len()).find(|bytes| bytes == path);
    let mut within: Vec<&[u8]> = known.paths.iter().take(4).filter_map(found).collect();
    let at = rng.below(image.len() - PATH_LIMIT);
    within.push(&image[at..at + rng.below(PATH_LIMIT)]);
    within.push(&image[at..at]);
    within
}

/// get, next and next from the same string on, with a path that lies within the store.
fn reads(image: &[u8], path: &[u8]) -> Result<(), &'static str> {
    let (mut store, own) = (image.to_vec(), path.to_vec());
    let (mut expected, mut buffer) = ([3; NEXT_BUFFER], [3; NEXT_BUFFER]);
    let told = Library.get(&mut store, &own, &mut expected);
    if (raw::get(image, Text::of(path), &mut buffer), buffer) != (told, expected) {
        return Err("get");
    }
    for after in [&path[..0], path] {
        let told = Library.next(&mut store, &own, &own[..after.len()], &mut expected);
        let answer = raw::next(image, Text::of(path), Text::of(after), &mut buffer);
        if (answer, buffer) != (told, expected) {
            return Err("next");
        }
    }
    Ok(())
}

/// How many ways for two strings to overlap are tried.
const PARTS: usize = 4;

/// put and move with both strings in one array, one beginning within the other.
fn writes(rng: &mut Rng, image: &[u8]) -> Result<(), &'static str> {
    let array = words::near(rng, &Known::of(image).paths);
    let at = rng.below(array.len());
    let parts: [(&[u8], &[u8]); PARTS] = [
        (&array, &array[at..]),
        (&array[at..], &array),
        (&array, &array[..at]),
        (&array, &array),
    ];
    for (first, second) in parts {
        let value = &second[..second.len().min(VALUE_LIMIT)];
        let own = (first.to_vec(), second.to_vec(), value.to_vec());
        if made(image, put, first, value) != made(image, put, &own.0, &own.2) {
            return Err("put");
        }
        if made(image, rename, first, second) != made(image, rename, &own.0, &own.1) {
            return Err("move");
        }
    }
    Ok(())
}

fn put(store: &mut [u8], path: &[u8], value: &[u8], work: &mut [u8]) -> Numbers {
    Library.put(store, path, value, work)
}

fn rename(store: &mut [u8], from: &[u8], to: &[u8], work: &mut [u8]) -> Numbers {
    Library.move_(store, from, to, work)
}

/// The answer of a call and what it leaves.
fn made(
    image: &[u8],
    call: impl Fn(&mut [u8], &[u8], &[u8], &mut [u8]) -> Numbers,
    first: &[u8],
    second: &[u8],
) -> (Numbers, Vec<u8>, Vec<u8>) {
    let mut store = image.to_vec();
    let mut work = vec![0xC3; WORK_PER_NODE * (image.len() / NODE) + 3];
    let numbers = call(&mut store, first, second, &mut work);
    (numbers, store, work)
}
