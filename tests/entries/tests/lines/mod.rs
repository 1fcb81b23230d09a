//! The programs `carry`, `bring` and `read` and the lines that they print.

use crate::writes::writes_of;
use lafindry_entries::{ensure, refused_by, report, Failure, Histogram, Refused, Setting, Tally};
use lafindry_reference::generate::cases::Made;
use lafindry_reference::vectors::{Answer, Case, Entry};
use lafindry_reference::MOST_BYTES;
use std::collections::BTreeSet;
use std::path::{Path, PathBuf};
use std::process::Stdio;
use std::{fs, io};

/// The entries that have a program.
pub const ENTRIES: [Entry; 3] = [Entry::Carry, Entry::BringBack, Entry::ReadAlong];

/// The name of an entry's program.
fn name_of(entry: Entry) -> &'static str {
    match entry {
        Entry::Carry => "carry",
        Entry::ReadAlong => "read",
        _ => "bring",
    }
}

/// The files that these programs read, in the order of the documents.
pub const FILES: [&str; 4] = ["s1", "s2", "em", "tr"];

/// A place in the repository.
pub fn place(name: &str) -> PathBuf {
    Path::new(env!("CARGO_MANIFEST_DIR")).join("../..").join(name)
}

/// Says where an error occurred.
pub fn at(path: &Path) -> impl Fn(io::Error) -> Failure + '_ {
    move |error| Failure(format!("{}: {error}", path.display()))
}

/// Where a program stands.
pub fn program(name: &str) -> Result<PathBuf, Failure> {
    let folder = std::env::var("LAFINDRY_PROGRAM_DIR").unwrap_or("target/bin".to_string());
    let path = place(&folder).join(name);
    let text = format!("{} is missing: run make test, or set LAFINDRY_PROGRAM_DIR", path.display());
    ensure(path.is_file(), text)?;
    Ok(path)
}

/// The line that the program of an entry prints for an answer.
fn line_of(entry: Entry, answer: &Answer) -> String {
    match answer {
        Answer::Ok { value, filler, .. } if entry == Entry::Carry => format!("carried {value} {filler}\n"),
        Answer::Ok { value, filler, .. } if entry == Entry::ReadAlong => format!("read {value} {filler}\n"),
        Answer::Ok { value, .. } => format!("brought {value}\n"),
        Answer::Refused(refusal) => format!("{refusal}\n"),
    }
}

/// The number and the document of the refusal that the program of an entry
/// printed, both 0 where it accepted; none if it is no such line.
fn printed_by(entry: Entry, line: &[u8]) -> Option<Refused> {
    let words: Vec<&str> = std::str::from_utf8(line).ok()?.split_whitespace().collect();
    match (entry, &words[..]) {
        (Entry::Carry, ["carried", _, _])
        | (Entry::BringBack, ["brought", _])
        | (Entry::ReadAlong, ["read", _, _]) => Some((0, 0)),
        (_, ["refused", number, document, _]) => Some((number.parse().ok()?, document.parse().ok()?)),
        _ => None,
    }
}

/// The case of an entry with the output that its program lends.
pub fn case_of(entry: Entry, documents: Vec<Vec<u8>>) -> Case {
    Case { entry, documents, output_length: MOST_BYTES }
}

/// The reference's answer to a case.
pub fn answer_to(case: &Case) -> Result<Answer, Failure> {
    case.run().map_err(|message| Failure(format!("{case}\nthe reference: {message}")))
}

/// A folder of its own to run programs in; it is removed at the end.
pub struct Folder(PathBuf);

impl Folder {
    /// Makes the folder of a test.
    pub fn new(test: &str) -> Result<Folder, Failure> {
        let name = format!("lafindry-programs-{}-{test}", std::process::id());
        let path = std::env::temp_dir().join(name);
        fs::create_dir(&path).map_err(at(&path))?;
        Ok(Folder(path))
    }

    /// Where it is.
    pub fn path(&self) -> &Path {
        &self.0
    }

    /// Writes documents into files that a program reads; those that are left out
    /// are not there.
    pub fn put(&self, files: &[&str], documents: &[Vec<u8>], left_out: &[usize]) -> Result<(), Failure> {
        for (number, document) in documents.iter().enumerate() {
            let path = self.0.join(files[number]);
            match left_out.contains(&number) {
                true if path.exists() => fs::remove_file(&path),
                true => Ok(()),
                false => fs::write(&path, document),
            }
            .map_err(at(&path))?;
        }
        Ok(())
    }
}

impl Drop for Folder {
    fn drop(&mut self) {
        // What stays behind is no failure of a program.
        let _ = fs::remove_dir_all(&self.0);
    }
}

/// Runs the programs, and keeps what they printed. In its tally the reference's
/// answers are the expected ones, a vector's where there is one, and the
/// library's those that the programs print.
pub struct Run {
    folder: Folder,
    tally: Tally,
    lines: BTreeSet<String>,
}

impl Run {
    /// The run of a test.
    pub fn new(test: &str) -> Result<Run, Failure> {
        let (tally, lines) = (Tally::default(), BTreeSet::new());
        Ok(Run { folder: Folder::new(test)?, tally, lines })
    }

    /// Fails unless the program of a case prints the line of an answer by one
    /// write, where the files of some documents are left out.
    pub fn ensure_line_without(
        &mut self,
        left_out: &[usize],
        case: &Case,
        answer: &Answer,
    ) -> Result<(), Failure> {
        self.folder.put(&FILES, &case.documents, left_out)?;
        let name = name_of(case.entry);
        let line = line_of(case.entry, answer);
        let writes = writes_of(&program(name)?, self.folder.path(), Stdio::null())?;
        let printed = writes.first().and_then(|first| printed_by(case.entry, first));
        match printed {
            Some(printed) if writes == [line.as_bytes()] => {
                self.tally.count(case.entry, refused_by(answer), printed);
            }
            _ => {
                let writes: Vec<_> = writes.iter().map(|bytes| String::from_utf8_lossy(bytes)).collect();
                return Err(Failure(format!("{case}\n{name} wrote {writes:?}, not {:?}", [line])));
            }
        }
        self.lines.insert(line);
        Ok(())
    }

    /// The same with all files.
    pub fn ensure_line(&mut self, case: &Case, answer: &Answer) -> Result<(), Failure> {
        self.ensure_line_without(&[], case, answer)
    }

    /// The same with all files and the reference's answer, which it gives.
    pub fn compare(&mut self, case: &Case) -> Result<Answer, Failure> {
        let answer = answer_to(case)?;
        self.ensure_line(case, &answer)?;
        Ok(answer)
    }

    /// The same where the tree is a source tree that was damaged: for bringing
    /// back and reading along, another one than an image.
    pub fn compare_damaged(&mut self, case: &Case) -> Result<(), Failure> {
        let made = if case.entry == Entry::Carry { Made::Damaged } else { Made::Other };
        self.tally.count_change(case.entry, case.documents.len() - 1, made);
        self.compare(case).map(drop)
    }

    /// Compares carrying a tree, whose answer it gives, and bringing its image
    /// back and reading it, where it has one.
    pub fn round_trip(&mut self, setting: &Setting, tree: &[u8]) -> Result<Answer, Failure> {
        let answer = self.compare(&setting.case(Entry::Carry, tree, MOST_BYTES))?;
        if let Answer::Ok { output: image, .. } = &answer {
            self.compare(&setting.case(Entry::BringBack, image, MOST_BYTES))?;
            self.compare(&setting.case(Entry::ReadAlong, image, MOST_BYTES))?;
        }
        Ok(answer)
    }

    /// Fails unless some lines, given without their ends, are among those
    /// printed.
    pub fn ensure_printed(&self, lines: &[&str]) -> Result<(), Failure> {
        let missing = lines.iter().find(|line| !self.lines.contains(&format!("{line}\n")));
        ensure(missing.is_none(), format!("{missing:?} was not printed"))
    }

    /// Prints how many lines there were, and gives how many of each answer.
    pub fn finish(self, title: &str) -> Result<Histogram, Failure> {
        report(&format!("{title}: {} different ones", self.lines.len()));
        self.tally.finish(title)
    }
}
