// Generated images: each preset shows its feature, all are sound, and the two readings of
// what an image means agree.

use second::feature::Feature;
use second::generate;
use second::meaning::lookup;
use second::rng::Rng;
use second::sound::{judge, Sound};
use second::words;

fn sound(image: &[u8]) -> Sound {
    judge(image).unwrap_or_else(|rule| panic!("unsound: {}", rule.name()))
}

#[test]
fn every_preset_shows_its_feature() {
    for feature in Feature::ALL {
        for seed in 0..6 {
            let image = generate::preset(*feature, seed);
            let shown = feature.shown_by(&image, &sound(&image));
            assert!(shown, "{} with seed {seed}", feature.name());
        }
    }
}

#[test]
fn random_images_are_sound() {
    let mut levels = [0; 9];
    for seed in 0..300 {
        let sound = sound(&generate::random(seed));
        levels[usize::from(sound.levels())] += 1;
    }
    assert!(levels[1..].iter().all(|count| *count > 0), "{levels:?}");
}

#[test]
fn lookup_and_table_agree() {
    for seed in 0..200 {
        let image = generate::random(seed);
        let sound = sound(&image);
        for (path, value) in &sound.table {
            assert_eq!(lookup(&image, path).as_ref(), Some(value), "seed {seed}");
        }
        let mut rng = Rng::new(seed);
        for _ in 0..200 {
            let path = words::path(&mut rng);
            let row = sound.table.get(&path).cloned();
            assert_eq!(lookup(&image, &path), row, "seed {seed}");
        }
    }
}

#[test]
fn a_tree_written_again_is_the_same_image() {
    for seed in 0..100 {
        let image = generate::random(seed);
        let sound = sound(&image);
        let mut again = image.clone();
        let live = sound.table.len() as u16;
        sound.tree.write(live, &mut again).expect("it fits");
        assert!(again == image, "seed {seed}");
    }
}
