// Calls of every kind on the deepest, widest and fullest images, clears of everything among them, each judged by the contract: generated
// images are seldom so large.

use crate::stack::deep_images;
use second::calls::{self, Known};
use second::contract::check_same;
use second::moves::Kind;
use second::plain::{Answer, Call};
use second::rng::Rng;
use second::script::tried;
use second::stats::Stats;
use second::subject::Subject;
use second::whole::Unit;
use second::{pack, sound};

/// The most calls on what a call has left.
const LATER: usize = 2;

/// Makes this many short lists of calls on each image.
pub fn run(subject: &mut dyn Subject, seed: u64, lists: usize) -> Result<Stats, String> {
    let mut stats = Stats::default();
    for (name, image) in deep_images() {
        let mut rng = Rng::new(seed);
        let mut listed = (0..lists).try_for_each(|_| list(subject, &mut rng, &image, &mut stats));
        listed = listed.and_then(|()| wipe(subject, &mut rng, &image, &mut stats));
        listed = listed.and_then(|()| same(subject, image));
        listed.map_err(|what| format!("{name}, seed {seed}: {what}"))?;
    }
    Ok(stats)
}

/// One call on the image, and a few on what it leaves.
fn list(
    subject: &mut dyn Subject,
    rng: &mut Rng,
    image: &[u8],
    stats: &mut Stats,
) -> Result<(), String> {
    let mut store = image.to_vec();
    for _ in 0..rng.between(1, 1 + LATER) {
        let call = next_call(rng, &Known::of(&store));
        tried(subject, rng, &mut store, &call, stats)?;
    }
    Ok(())
}

fn wipe(
    subject: &mut dyn Subject,
    rng: &mut Rng,
    image: &[u8],
    stats: &mut Stats,
) -> Result<(), String> {
    let mut unit = Unit {
        subject,
        rng,
        stats,
    };
    unit.try_on(image)
}

/// A move half the time: it changes the most.
fn next_call(rng: &mut Rng, known: &Known) -> Call {
    let kind = rng.pick(Kind::ALL).filter(|_| rng.chance(1, 2));
    let aimed = kind.and_then(|kind| kind.aim(rng, known));
    match rng.chance(1, 3) {
        true => aimed.unwrap_or_else(|| calls::upkeep(rng, known)),
        false => aimed.unwrap_or_else(|| calls::random(rng, known)),
    }
}

/// The image and the same map packed hold the same paths.
fn same(subject: &mut dyn Subject, mut image: Vec<u8>) -> Result<(), String> {
    let sound = sound::judge(&image).expect("the image is sound");
    let mut packed = pack::image(&sound.table, sound.n).expect("the map fits");
    let before = (image.clone(), packed.clone());
    let (number, beside) = subject.same(&mut image, &mut packed);
    let answer = Answer { number, beside };
    check_same((&before.0, &image), (&before.1, &packed), answer)
}
