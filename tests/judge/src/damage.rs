// Every byte of small images, changed in several ways: check must find unsound what the second program finds unsound, and count what it
// counts where the image is sound all the same. Such an image is read whole too, and some of the unsound ones.

use crate::reading;
use second::contract::{check_answer, image_judged};
use second::examples;
use second::limits::NODE;
use second::plain::Answer;
use second::subject::Subject;

/// How many changed images were sound and how many not.
#[derive(Clone, Copy, Debug, Default)]
pub struct Stats {
    pub sound: usize,
    pub unsound: usize,
    pub read: reading::Stats,
}

/// How many changed images that are unsound there are for each one that is read.
const UNSOUND_A_READING: usize = 64;

/// Changes every byte of node 0 and of the reachable nodes of each example. An error names the byte.
pub fn run(subject: &mut dyn Subject) -> Result<Stats, String> {
    let mut stats = Stats::default();
    for example in examples::all() {
        let Ok(sound) = image_judged(&example.image) else {
            continue;
        };
        let nodes = std::iter::once(0).chain(sound.used.iter().map(|node| usize::from(*node)));
        let mut places = nodes.flat_map(|node| node * NODE..(node + 1) * NODE);
        let mut image = example.image.clone();
        places
            .try_for_each(|at| changed(subject, &mut image, at, &mut stats))
            .map_err(|what| format!("{}: {what}", example.name))?;
    }
    Ok(stats)
}

/// One byte in each other value that is near or telling, and then as it was.
fn changed(
    subject: &mut dyn Subject,
    image: &mut [u8],
    at: usize,
    stats: &mut Stats,
) -> Result<(), String> {
    let byte = image[at];
    let values = [byte ^ 1, byte ^ 0x80, byte.wrapping_add(1), 0, 0x2F, 0xFF];
    for value in values.iter().filter(|value| **value != byte) {
        image[at] = *value;
        let (number, beside) = subject.check(image);
        let (answer, expected) = (
            Answer { number, beside },
            check_answer(&image_judged(image)),
        );
        if answer != expected {
            return Err(format!(
                "byte {at} made {value}: check answers {answer:?}, expected {expected:?}"
            ));
        }
        match expected.accepted() {
            true => stats.sound += 1,
            false => stats.unsound += 1,
        }
        if expected.accepted() || stats.unsound.is_multiple_of(UNSOUND_A_READING) {
            let read = reading::read(subject, image, &mut stats.read);
            read.map_err(|what| format!("byte {at} made {value}: {what}"))?;
        }
    }
    image[at] = byte;
    Ok(())
}
