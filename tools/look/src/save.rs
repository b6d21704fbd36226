// Writes a page beside its file and renames it over that, so that a full disk leaves the old page.
// It relies on the file system. A file that is there and is no page of look, or that is one of the
// images, is refused: then nothing is written.

use crate::page::BEGINNING;
use std::fs::{self, File, OpenOptions};
use std::io::{self, Read, Write};
use std::os::unix::fs::MetadataExt;
use std::path::{Path, PathBuf};

/// An error is one line.
pub fn save(file: &Path, images: &[&Path], page: &str) -> Result<(), String> {
    let told = |error: io::Error| format!("{}: {error}", file.display());
    let target = target(file, images)?;
    let beside = target.with_file_name(format!(".look-{}.new", std::process::id()));
    let new = OpenOptions::new()
        .write(true)
        .create_new(true)
        .open(&beside);
    let written = write(new.map_err(told)?, page).and_then(|()| fs::rename(&beside, &target));
    written.map_err(|error| {
        let _ = fs::remove_file(&beside);
        told(error)
    })
}

/// Where the page goes: a link to an old page leads to that page.
fn target(file: &Path, images: &[&Path]) -> Result<PathBuf, String> {
    let name = file.display();
    if fs::symlink_metadata(file).is_err() {
        return Ok(file.into());
    }
    if images.iter().any(|image| is_same(file, image)) {
        return Err(format!("{name} is an image, and no image is written over"));
    }
    match is_page(file) {
        true => fs::canonicalize(file).map_err(|error| format!("{name}: {error}")),
        false => Err(format!("{name} is there and is no page of look: it stays")),
    }
}

/// One file, whatever its names are.
fn is_same(file: &Path, image: &Path) -> bool {
    let place = |file| fs::metadata(file).map(|told| (told.dev(), told.ino()));
    matches!((place(file), place(image)), (Ok(a), Ok(b)) if a == b)
}

/// What is no plain file is not opened: a pipe would wait for its writer.
fn is_page(file: &Path) -> bool {
    if !fs::metadata(file).is_ok_and(|told| told.is_file()) {
        return false;
    }
    let mut front = Vec::new();
    let most = BEGINNING.len() as u64;
    let read = File::open(file).and_then(|opened| opened.take(most).read_to_end(&mut front));
    read.is_ok() && front == BEGINNING.as_bytes()
}

fn write(mut new: File, page: &str) -> io::Result<()> {
    new.write_all(page.as_bytes())?;
    new.sync_all()
}
