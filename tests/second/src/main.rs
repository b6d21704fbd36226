// The command line of the second program: prints the antt file, judges and reads images, runs
// the line language, from an image and to one if so asked, and writes generated or damaged images
// to standard output.
#![forbid(unsafe_code)]
#![deny(warnings)]

use second::feature::Feature;
use second::plain::Plain;
use second::sound::{judge, Rule};
use second::{antt, generate, lines, mutate, path, program};
use std::io::{Read, Write};
use std::process::ExitCode;

const USAGE: &str = "\
usage: second antt                   the examples as antt data
       second sound FILE             is the image sound; the first broken rule if not
       second table FILE             the paths of a sound image with their values
       second program [--from IMAGE] [--to IMAGE] < LINES
                                     the line language with the plain map behind it, on the map of
                                     an image of 64 nodes; and an image of the map that is left
       second script SEED            random lines for the program
       second script SEED FILE       the same, near the paths of a sound image
       second generate PRESET SEED   a sound image; PRESET random, program (one of 64 nodes, for
                                     the program), or a feature's name
       second mutate RULE SEED       a damaged image
       second mutate RULE SEED FILE  the image damaged
       second names                  the presets and the rules";

fn main() -> ExitCode {
    let arguments: Vec<String> = std::env::args().skip(1).collect();
    let words: Vec<&str> = arguments.iter().map(|a| &a[..]).collect();
    match answer(&words) {
        Ok(bytes) => print(&bytes),
        Err(what) => {
            eprintln!("{what}");
            ExitCode::FAILURE
        }
    }
}

fn print(bytes: &[u8]) -> ExitCode {
    match std::io::stdout().write_all(bytes) {
        Ok(()) => ExitCode::SUCCESS,
        Err(_) => ExitCode::FAILURE,
    }
}

fn answer(words: &[&str]) -> Result<Vec<u8>, String> {
    match words {
        ["antt"] => Ok(antt::file().into_bytes()),
        ["sound", file] => sound(&read(file)?),
        ["table", file] => table(&read(file)?),
        ["program", options @ ..] => program(&Program::of(options)?),
        ["script", seed] => Ok(lines::script(number(seed)?, Vec::new())),
        ["script", seed, file] => script_near(number(seed)?, &read(file)?),
        ["generate", preset, seed] => generated(preset, number(seed)?),
        ["mutate", rule, seed] => mutated(rule, number(seed)?),
        ["mutate", rule, seed, file] => damaged(rule, number(seed)?, &read(file)?),
        ["names"] => Ok(names().into_bytes()),
        _ => Err(USAGE.into()),
    }
}

fn read(file: &str) -> Result<Vec<u8>, String> {
    std::fs::read(file).map_err(|error| format!("{file}: {error}"))
}

fn input() -> Result<Vec<u8>, String> {
    let mut input = Vec::new();
    let read = std::io::stdin().read_to_end(&mut input);
    read.map_err(|error| error.to_string())?;
    Ok(input)
}

fn number(seed: &str) -> Result<u64, String> {
    seed.parse().map_err(|_| format!("{seed} is no number"))
}

fn sound(image: &[u8]) -> Result<Vec<u8>, String> {
    let sound = judge(image).map_err(|rule| format!("unsound: {}", rule.name()))?;
    let told = format!(
        "sound: {} nodes, {} levels, {} paths, {} nodes in use with node 0, {} messages waiting\n",
        sound.n,
        sound.levels(),
        sound.table.len(),
        sound.used.len() + 1,
        sound.waiting
    );
    Ok(told.into_bytes())
}

fn table(image: &[u8]) -> Result<Vec<u8>, String> {
    let sound = judge(image).map_err(|rule| format!("unsound: {}", rule.name()))?;
    let mut printed = Vec::new();
    for (found, value) in &sound.table {
        printed.extend(path::to_text(found));
        printed.extend(format!(" {}\n", program::shown(value)).into_bytes());
    }
    Ok(printed)
}

/// Where the program's store comes from, and where it goes.
#[derive(Default)]
struct Program<'a> {
    from: Option<&'a str>,
    to: Option<&'a str>,
}

impl<'a> Program<'a> {
    fn of(options: &[&'a str]) -> Result<Program<'a>, String> {
        let mut program = Program::default();
        for option in options.chunks(2) {
            match option {
                ["--from", file] => program.from = Some(file),
                ["--to", file] => program.to = Some(file),
                _ => return Err(USAGE.into()),
            }
        }
        Ok(program)
    }
}

fn program(options: &Program<'_>) -> Result<Vec<u8>, String> {
    let mut map = match options.from {
        Some(file) => {
            program::loaded(&read(file)?).map_err(|number| format!("{file}: refused {number}"))?
        }
        None => Plain::new(program::PROGRAM_NODES),
    };
    let printed = program::run_on(&mut map, &input()?);
    if let Some(file) = options.to {
        let image = program::saved(&map).ok_or("the map fits no image")?;
        std::fs::write(file, image).map_err(|error| format!("{file}: {error}"))?;
    }
    Ok(printed)
}

fn script_near(seed: u64, image: &[u8]) -> Result<Vec<u8>, String> {
    let sound = judge(image).map_err(|rule| format!("unsound: {}", rule.name()))?;
    Ok(lines::script(seed, sound.table.into_keys().collect()))
}

fn generated(preset: &str, seed: u64) -> Result<Vec<u8>, String> {
    match preset {
        "random" => return Ok(generate::random(seed)),
        "program" => return Ok(generate::of_nodes(program::PROGRAM_NODES, seed)),
        _ => {}
    }
    let feature = Feature::named(preset).ok_or(format!("no preset {preset}"))?;
    Ok(generate::preset(feature, seed))
}

/// This image with the rule broken; not every image has a place for it.
fn damaged(rule: &str, seed: u64, image: &[u8]) -> Result<Vec<u8>, String> {
    let rule = Rule::named(rule).ok_or(format!("no rule {rule}"))?;
    let damaged = mutate::damage(rule, image, seed);
    damaged.ok_or(format!("the image has no place to break {}", rule.name()))
}

/// Generated images are tried until one has a place for the damage.
fn mutated(rule: &str, seed: u64) -> Result<Vec<u8>, String> {
    let rule = Rule::named(rule).ok_or(format!("no rule {rule}"))?;
    let mut seeds = (0..100).map(|more| seed.wrapping_add(more << 32));
    let damaged = seeds.find_map(|seed| mutate::damage(rule, &generate::random(seed), seed));
    damaged.ok_or(format!("no image had a place to break {}", rule.name()))
}

fn names() -> String {
    let presets = Feature::ALL.iter().map(|f| f.name());
    let rules = Rule::ALL.iter().map(|r| r.name());
    let lines = |title: &str, names: Vec<&str>| format!("{title}\n  {}\n", names.join("\n  "));
    let presets = ["random", "program"].into_iter().chain(presets);
    lines("presets", presets.collect()) + &lines("rules", rules.collect())
}
