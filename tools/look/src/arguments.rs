// The command line taken apart. With --html a second name is an image if it is a file's, else a
// path. It relies on being told which names are files; whether they can be read is for `run`.

use std::ffi::{OsStr, OsString};
use std::path::PathBuf;

pub const USAGE: &str = "\
usage: look IMAGE                       every reachable node as text, and each broken rule
       look IMAGE PATH                  the way of the lookup of PATH, and the entry that decides
       look IMAGE [PATH] --html FILE    the image as one page, opened at PATH
       look BEFORE AFTER [PATH] [--moved FROM TO] --html FILE
                                        two images side by side, what changed marked; with --moved
                                        a path below FROM is followed to its name below TO
       look --help

PATH is written r1/c7/t1; a lone / is the empty path, which every record is below. With --html a
second name is an image if there is a file of that name, and a path if not. In what is printed,
[r1/c7/]t1 is a path whose front r1/c7/ is lifted: the node does not store it. A / behind other
bytes is a byte 00; ‹FF› is a byte that no path may hold. A node owns the strings from its low
pivot up to, and not including, its high pivot. Messages are numbered, oldest first. Values are in
hexadecimal, - for the empty one. Words after -- are no options.

The page takes a path in its field or in its address: FILE#path=r1/c7/t1

FILE is replaced where it is a page of look. What else stands there stays, and images always do.

Status: 0; 1 for an unsound image, or a path that has no value and nothing below it, with two
images in neither; 2 for bad usage, an unreadable file, or a FILE that is refused.
";

#[derive(Clone, Debug, PartialEq, Eq)]
pub enum Command {
    Help,
    Report {
        image: PathBuf,
    },
    Lookup {
        image: PathBuf,
        path: String,
    },
    Page {
        image: PathBuf,
        path: Option<String>,
        page: PathBuf,
    },
    Compare {
        before: PathBuf,
        after: PathBuf,
        path: Option<String>,
        moved: Option<Moved>,
        page: PathBuf,
    },
}

/// The two paths of a move, as they were written.
#[derive(Clone, Debug, PartialEq, Eq)]
pub struct Moved {
    pub from: String,
    pub to: String,
}

impl Moved {
    /// The name after the move of what a path names before it.
    pub fn follow(&self, path: &str) -> String {
        match path.strip_prefix(&self.from[..]) {
            Some(rest) if rest.is_empty() || rest.starts_with('/') => format!("{}{rest}", self.to),
            _ => path.into(),
        }
    }
}

/// The words of the command line, the options taken out.
#[derive(Default)]
struct Words<'w> {
    names: Vec<&'w OsString>,
    page: Option<PathBuf>,
    moved: Option<Moved>,
}

pub fn parse(words: &[OsString], is_file: fn(&OsStr) -> bool) -> Result<Command, String> {
    let mut found = Words::default();
    let mut words = words.iter();
    while let Some(word) = words.next() {
        match word.to_str() {
            Some("--help" | "-h") => return Ok(Command::Help),
            Some("--") => found.names.extend(words.by_ref()),
            Some("--html") if found.page.is_some() => return bad("--html is given twice"),
            Some("--html") => match words.next() {
                Some(file) => found.page = Some(file.into()),
                None => return bad("--html needs a FILE"),
            },
            Some("--moved") if found.moved.is_some() => return bad("--moved is given twice"),
            Some("--moved") => match (words.next(), words.next()) {
                (Some(from), Some(to)) => found.moved = Some(moved(from, to)),
                _ => return bad("--moved needs FROM and TO"),
            },
            Some(option) if option.starts_with("--") => {
                return bad(&format!("{option} is no option"))
            }
            _ => found.names.push(word),
        }
    }
    command(found, is_file)
}

fn moved(from: &OsStr, to: &OsStr) -> Moved {
    let (from, to) = (text(from), text(to));
    Moved { from, to }
}

fn text(word: &OsStr) -> String {
    word.to_string_lossy().into_owned()
}

fn command(found: Words<'_>, is_file: fn(&OsStr) -> bool) -> Result<Command, String> {
    let Words { names, page, moved } = found;
    let alone = moved.is_none();
    match (&names[..], page) {
        ([before, after, rest @ ..], Some(page)) if rest.len() < 2 && is_file(after) => {
            Ok(Command::Compare {
                before: before.into(),
                after: after.into(),
                path: rest.first().map(|path| text(path)),
                moved,
                page,
            })
        }
        ([image, rest @ ..], Some(page)) if rest.len() < 2 && alone => Ok(Command::Page {
            image: image.into(),
            path: rest.first().map(|path| text(path)),
            page,
        }),
        ([image], None) if alone => Ok(Command::Report {
            image: image.into(),
        }),
        ([image, path], None) if alone => Ok(Command::Lookup {
            image: image.into(),
            path: text(path),
        }),
        ([], _) => bad("no image is named"),
        ([_, name, _], Some(_)) => bad(&format!("{} is no file", text(name))),
        _ if !alone => bad("--moved needs two images and --html FILE"),
        _ => bad("too many names"),
    }
}

fn bad(what: &str) -> Result<Command, String> {
    Err(format!("{what} (look --help tells the usage)"))
}

#[cfg(test)]
mod tests {
    use super::*;

    /// Names that begin with `file` are files.
    fn parsed(line: &str) -> Result<Command, String> {
        let words: Vec<OsString> = line.split_whitespace().map(OsString::from).collect();
        parse(&words, |name| text(name).starts_with("file"))
    }

    #[test]
    fn each_form_is_told_apart() {
        assert_eq!(parsed("x --help").unwrap(), Command::Help);
        assert!(matches!(parsed("a"), Ok(Command::Report { .. })));
        assert!(matches!(parsed("a r1/c7"), Ok(Command::Lookup { .. })));
        assert!(matches!(parsed("a -- --x"), Ok(Command::Lookup { .. })));
        assert!(matches!(
            parsed("a --html f"),
            Ok(Command::Page { path: None, .. })
        ));
        for bad in [
            "",
            "a b c",
            "a --html",
            "--html f",
            "a --x",
            "a --html f --html g",
            "a b c --html f",
            "a file b c --html f",
            "a --moved r1 r2",
            "a b --moved r1 r2 --html f",
            "a file --moved r1",
            "a file --moved r1 r2 --moved r1 r2 --html f",
        ] {
            let what = parsed(bad).unwrap_err();
            assert!(!what.contains('\n'), "{bad}");
        }
    }

    #[test]
    fn with_a_page_a_file_is_an_image_and_another_name_a_path() {
        let of = |line: &str| parsed(line).unwrap();
        let (path, page) = (Some("r1/c7".to_string()), PathBuf::from("f"));
        let one = Command::Page {
            image: "a".into(),
            path: path.clone(),
            page: page.clone(),
        };
        assert_eq!(of("a r1/c7 --html f"), one);
        let two = |path, moved| Command::Compare {
            before: "a".into(),
            after: "file".into(),
            path,
            moved,
            page: page.clone(),
        };
        let renumbered = Moved {
            from: "r1/c7".into(),
            to: "r1/c9".into(),
        };
        for (path, name) in [
            ("r1/c7", "r1/c9"),
            ("r1/c7/t1", "r1/c9/t1"),
            ("r1/c70", "r1/c70"),
            ("r1", "r1"),
        ] {
            assert_eq!(renumbered.follow(path), name);
        }
        assert_eq!(of("--html f a file"), two(None, None));
        assert_eq!(of("a file r1/c7 --html f"), two(path.clone(), None));
        assert_eq!(
            of("a file r1/c7 --moved r1/c7 r1/c9 --html f"),
            two(path, Some(renumbered))
        );
    }
}
