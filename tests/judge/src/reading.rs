// Reads whole images: every value by get and every path by next must be those of the second program's table, check must count them, and
// an image must be refused by 2 exactly when the second program finds it unsound. Lists of calls seldom hit a present path; this hits
// them all.

use second::feature::Feature;
use second::limits::{GET_BUFFER, NEXT_BUFFER};
use second::path::beginnings;
use second::rng::Rng;
use second::sound::{self, Rule};
use second::subject::{Numbers, Subject};
use second::tree::Table;
use second::{generate, mutate, plain};

/// What the bytes after an answer's own are: get and next must leave them.
const LATER: u8 = 0xA5;

/// How many images were sound and how many not, and the calls made on them.
#[derive(Clone, Copy, Debug, Default)]
pub struct Stats {
    pub sound: usize,
    pub unsound: usize,
    pub calls: usize,
}

/// Reads an image for each feature and one for each way to damage an image, this many times over. An error names the image.
pub fn run(subject: &mut dyn Subject, seed: u64, rounds: usize) -> Result<Stats, String> {
    let mut stats = Stats::default();
    for round in 0..rounds as u64 {
        let mut rng = Rng::new(seed ^ round.wrapping_mul(0xD134_2543_DE82_EF95));
        for feature in Feature::ALL {
            let image = generate::preset(*feature, rng.word());
            let name = format!("seed {seed}, round {round}, {}", feature.name());
            read(subject, &image, &mut stats).map_err(|what| format!("{name}: {what}"))?;
            for rule in Rule::ALL {
                let damaged = mutate::damage(*rule, &image, rng.word());
                let damaged = damaged.unwrap_or_else(|| mutate::flip(&image, rng.word()));
                let name = format!("{name}, damaged by {}", rule.name());
                read(subject, &damaged, &mut stats).map_err(|what| format!("{name}: {what}"))?;
            }
        }
    }
    Ok(stats)
}

/// Reads one image by every call that only reads.
pub fn read(subject: &mut dyn Subject, image: &[u8], stats: &mut Stats) -> Result<(), String> {
    let mut reader = Reader {
        subject,
        store: image.to_vec(),
        calls: 0,
    };
    match sound::judge(image) {
        Ok(sound) => {
            stats.sound += 1;
            reader.check((0, sound.table.len() as u32))?;
            reader.all(&sound.table)?;
        }
        Err(rule) => {
            stats.unsound += 1;
            reader
                .refused(rule)
                .map_err(|what| format!("{what} ({})", rule.name()))?;
        }
    }
    stats.calls += reader.calls;
    match reader.store == image {
        true => Ok(()),
        false => Err("a call that reads changed the store".into()),
    }
}

struct Reader<'a> {
    subject: &'a mut dyn Subject,
    store: Vec<u8>,
    calls: usize,
}

type Judged = Result<(), String>;

impl Reader<'_> {
    /// An image with a broken rule, by every call that only reads.
    fn refused(&mut self, rule: Rule) -> Judged {
        let number = match rule {
            Rule::StoreSize => plain::NO_LENGTHS,
            _ => plain::NO_SOUND,
        };
        self.check((number, 0))?;
        self.get(b"a\0", (number, 0), None)?;
        self.next(b"a\0", &[], (number, 0), None)?;
        self.next(&[], &[], (number, 0), None)
    }

    fn check(&mut self, expected: Numbers) -> Judged {
        self.calls += 1;
        match self.subject.check(&mut self.store) {
            found if found == expected => Ok(()),
            found => Err(format!("check: {found:?}, expected {expected:?}")),
        }
    }

    /// Every path of the table by get, all by next from the empty path, all below each first component, and the first below each beginning.
    fn all(&mut self, table: &Table) -> Judged {
        self.list(table, &[])?;
        let mut top: &[u8] = &[];
        for (path, value) in table {
            self.get(path, (0, value.len() as u32), Some(value))?;
            for beginning in beginnings(path) {
                let found = plain::next(table, beginning, &[]).unwrap_or(path);
                self.next(beginning, &[], (0, found.len() as u32), Some(found))?;
            }
            let first = beginnings(path).next().unwrap_or(path);
            if first != top {
                top = first;
                self.list(table, top)?;
            }
        }
        Ok(())
    }

    /// From the empty string on, until nothing is left below the path.
    fn list(&mut self, table: &Table, path: &[u8]) -> Judged {
        let mut after: &[u8] = &[];
        while let Some(found) = plain::next(table, path, after) {
            self.next(path, after, (0, found.len() as u32), Some(found))?;
            after = found;
        }
        self.next(path, after, (plain::NO_PRESENT, 0), None)
    }

    fn get(&mut self, path: &[u8], expected: Numbers, bytes: Option<&[u8]>) -> Judged {
        let mut buffer = [LATER; GET_BUFFER];
        let answer = self.subject.get(&mut self.store, path, &mut buffer);
        self.judge("get", path, (answer, &buffer), (expected, bytes))
    }

    fn next(
        &mut self,
        path: &[u8],
        after: &[u8],
        expected: Numbers,
        bytes: Option<&[u8]>,
    ) -> Judged {
        let mut buffer = [LATER; NEXT_BUFFER];
        let store = &mut self.store;
        let answer = self.subject.next(store, path, after, &mut buffer);
        self.judge("next", after, (answer, &buffer), (expected, bytes))
    }

    fn judge(
        &mut self,
        call: &str,
        path: &[u8],
        found: (Numbers, &[u8]),
        expected: (Numbers, Option<&[u8]>),
    ) -> Judged {
        self.calls += 1;
        let mut buffer = vec![LATER; found.1.len()];
        let bytes = expected.1.unwrap_or(&[]);
        buffer[..bytes.len()].copy_from_slice(bytes);
        if found == (expected.0, &buffer[..]) {
            return Ok(());
        }
        Err(format!(
            "{call} of {path:02X?}: {found:02X?}, expected {expected:02X?}"
        ))
    }
}
