// Writes the images that `browse` and the tests look at into a directory: one with messages
// waiting, one before and one after a move, a large one and an unsound one.
// They are built by hand on tests/second's tree: small, and with the faults that a test needs.
// tools/lesson makes a pair of images by the library itself.

use look::samples;
use std::path::Path;
use std::process::ExitCode;

fn main() -> ExitCode {
    let Some(directory) = std::env::args().nth(1) else {
        eprintln!("usage: samples DIRECTORY");
        return ExitCode::from(2);
    };
    for (name, image) in samples::all() {
        let file = Path::new(&directory).join(name);
        if let Err(error) = std::fs::write(&file, image) {
            eprintln!("{}: {error}", file.display());
            return ExitCode::from(2);
        }
    }
    ExitCode::SUCCESS
}
