// Runs a command: reads the images, makes the text or the page, and says the status.
// It relies on the file system, and on `save` for the page: an image is never written.

use crate::arguments::{Command, Moved, USAGE};
use crate::compare::Comparison;
use crate::moving::Moving;
use crate::page::{self, Opening, Side};
use crate::report;
use crate::save::save;
use crate::spell;
use crate::survey::Survey;
use crate::way::{self, Asked};
use second::limits::{NODE, NODES_MOST};
use std::fs::File;
use std::io::Read;
use std::path::Path;

pub const FINE: u8 = 0;
pub const UNSOUND_OR_ABSENT: u8 = 1;
pub const BAD_USAGE: u8 = 2;

/// What is printed, and the status.
#[derive(Clone, Debug)]
pub struct Done {
    pub text: String,
    pub status: u8,
}

/// An error is one line, and its status is 2.
pub fn run(command: &Command) -> Result<Done, String> {
    match command {
        Command::Help => Ok(done(USAGE.into(), true)),
        Command::Report { image } => {
            let bytes = read(image)?;
            let survey = Survey::take(&bytes);
            Ok(done(report::report(&name(image), &survey), survey.sound()))
        }
        Command::Lookup { image, path } => lookup(image, path),
        Command::Page { image, path, page } => one_page(image, path.as_deref(), page),
        Command::Compare {
            before,
            after,
            path,
            moved,
            page,
        } => {
            let opening = Opening {
                path: path.as_deref(),
                moved: moved.as_ref(),
            };
            two_images(before, after, &opening, page)
        }
    }
}

fn done(text: String, fine: bool) -> Done {
    let status = match fine {
        true => FINE,
        false => UNSOUND_OR_ABSENT,
    };
    Done { text, status }
}

fn lookup(image: &Path, text: &str) -> Result<Done, String> {
    let hint = match Path::new(text).is_file() {
        true => format!(" ({text} is a file too: to compare two images add --html FILE)"),
        false => String::new(),
    };
    let path = spell::parse_asked(text).map_err(|why| why + &hint)?;
    let bytes = read(image)?;
    let survey = Survey::take(&bytes);
    let asked = Asked::of(&survey, &path);
    let mut told = way::tell(&name(image), &survey, &asked);
    if !hint.is_empty() {
        told += &format!("\n{}\n", hint.trim());
    }
    Ok(done(told, survey.sound() && asked.found()))
}

fn one_page(image: &Path, path: Option<&str>, file: &Path) -> Result<Done, String> {
    let bytes = read(image)?;
    let survey = Survey::take(&bytes);
    let mut text = report::summary(&name(image), &survey) + &report::findings(&survey);
    let mut fine = survey.sound();
    if let Some(path) = path {
        let parsed = spell::parse_asked(path);
        let bytes = parsed.map_err(|why| format!("{why} (nor is it a file)"))?;
        let asked = Asked::of(&survey, &bytes);
        text += &format!("{}\n", way::answer(&survey, &asked));
        if !asked.found() && !bytes.is_empty() {
            text += &format!("({path} is no file, so it was taken for a path)\n");
        }
        fine = fine && asked.found();
    }
    let side = Side {
        name: &name(image),
        survey: &survey,
    };
    save(file, &[image], &page::one(&side, path))?;
    Ok(done(text, fine))
}

fn two_images(
    before: &Path,
    after: &Path,
    opening: &Opening<'_>,
    file: &Path,
) -> Result<Done, String> {
    let (bytes_before, bytes_after) = (read(before)?, read(after)?);
    let (length_before, length_after) = (bytes_before.len(), bytes_after.len());
    if length_before != length_after {
        let (before, after) = (before.display(), after.display());
        let (size_before, size_after) = (report::size(length_before), report::size(length_after));
        return Err(format!(
            "{before} has {size_before} and {after} has {size_after}: no call changes a store's \
             length"
        ));
    }
    let (was, is) = (Survey::take(&bytes_before), Survey::take(&bytes_after));
    let comparison = Comparison::of(&was, &is);
    let sides = [
        Side {
            name: &name(before),
            survey: &was,
        },
        Side {
            name: &name(after),
            survey: &is,
        },
    ];
    let (answers, found) = answers(&sides, opening)?;
    save(
        file,
        &[before, after],
        &page::two(&sides, &comparison, opening),
    )?;
    let mut text = String::new();
    for side in &sides {
        text += &report::summary(side.name, side.survey);
        text += &report::findings(side.survey);
    }
    for (heading, numbers) in comparison.words() {
        text += &format!("{heading}: {numbers}\n");
    }
    let moving = opening
        .moved
        .and_then(|moved| Moving::of([&was, &is], &comparison, moved));
    text += &moving.map_or(String::new(), |moving| moving.records() + "\n");
    Ok(done(text + &answers, was.sound() && is.sound() && found))
}

/// What the path is before, and what it, or where it was moved, is after; and whether there is
/// anything there in either.
fn answers(sides: &[Side<'_, '_>; 2], opening: &Opening<'_>) -> Result<(String, bool), String> {
    if let Some(Moved { from, to }) = opening.moved {
        spell::parse(from)?;
        spell::parse(to)?;
    }
    let Some(path) = opening.path else {
        return Ok((String::new(), true));
    };
    let followed = opening
        .moved
        .map_or(path.into(), |moved| moved.follow(path));
    let (mut text, mut found) = (String::new(), false);
    for (side, word, path) in [
        (&sides[0], "before", path),
        (&sides[1], "after", &followed[..]),
    ] {
        let asked = Asked::of(side.survey, &spell::parse_asked(path)?);
        text += &format!("{word}: {}\n", way::answer(side.survey, &asked));
        found = found || asked.found();
    }
    Ok((text, found))
}

fn name(file: &Path) -> String {
    let last = file.file_name().unwrap_or(file.as_os_str());
    last.to_string_lossy().into_owned()
}

/// At most one byte more than a store may have: enough to see that it is none.
fn read(file: &Path) -> Result<Vec<u8>, String> {
    let told = |error: std::io::Error| format!("{}: {error}", file.display());
    let mut bytes = Vec::new();
    let most = (NODES_MOST * NODE) as u64 + 1;
    let opened = File::open(file).map_err(told)?;
    opened.take(most).read_to_end(&mut bytes).map_err(told)?;
    Ok(bytes)
}
