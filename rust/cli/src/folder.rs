//! A directory given in the place of a file: every file in it and below it, so
//! that none is passed over because of its name.

use crate::glob::Glob;
use std::ffi::OsString;
use std::fs;
use std::path::Path;

/// A file's name, or the reason why a directory has none.
pub type Named = Result<OsString, (OsString, String)>;

/// Files to be judged, and how many were left out.
#[derive(Default)]
pub struct Expanded {
    pub files: Vec<Named>,
    left_out: LeftOut,
}

/// What directories have besides, counted.
#[derive(Default)]
struct LeftOut {
    hidden: usize,
    links: usize,
    special: usize,
    unmatched: usize,
}

impl Expanded {
    /// `left out: 2 names that begin with a dot, 1 link to a directory`, if
    /// anything was.
    pub fn left_out(&self) -> Option<String> {
        let counted = |count: usize, one: &str, many: &str| {
            (count > 0).then(|| format!("{count} {}", if count == 1 { one } else { many }))
        };
        let LeftOut {
            hidden,
            links,
            special,
            unmatched,
        } = self.left_out;
        let parts = [
            counted(
                hidden,
                "name that begins with a dot",
                "names that begin with a dot",
            ),
            counted(links, "link to a directory", "links to directories"),
            counted(
                special,
                "that is no regular file",
                "that are no regular files",
            ),
            counted(
                unmatched,
                "file that --only leaves out",
                "files that --only leaves out",
            ),
        ];
        let parts: Vec<String> = parts.into_iter().flatten().collect();
        (!parts.is_empty()).then(|| format!("left out: {}", parts.join(", ")))
    }
}

/// The names with each directory replaced by its files, in order; the reason
/// for one that has none or can't be read.
pub fn expanded(names: &[OsString], only: Option<&Glob>) -> Expanded {
    let mut expanded = Expanded::default();
    for name in names {
        if name == "-" || !Path::new(name).is_dir() {
            expanded.files.push(Ok(name.clone()));
            continue;
        }
        let before = expanded.files.len();
        expanded.add(Path::new(name), Path::new(name), only);
        if expanded.files.len() == before {
            let reason = match only {
                Some(_) => "no file in this directory is one of --only",
                None => "there is no file in this directory",
            };
            expanded.files.push(Err((name.clone(), reason.to_string())));
        }
    }
    expanded
}

pub fn has_directory(names: &[OsString]) -> bool {
    names
        .iter()
        .any(|name| name != "-" && Path::new(name).is_dir())
}

impl Expanded {
    /// Adds the files below a directory, by their names. One that can't be read
    /// is told, and the others are taken all the same.
    fn add(&mut self, top: &Path, folder: &Path, only: Option<&Glob>) {
        let entries = fs::read_dir(folder).and_then(Iterator::collect::<Result<Vec<_>, _>>);
        let mut entries = match entries {
            Ok(entries) => entries,
            Err(error) => {
                let name = folder.as_os_str().to_os_string();
                return self.files.push(Err((name, error.to_string())));
            }
        };
        entries.sort_by_key(fs::DirEntry::file_name);
        for entry in entries {
            let path = entry.path();
            if entry.file_name().as_encoded_bytes().starts_with(b".") {
                self.left_out.hidden += 1;
                continue;
            }
            let kind = entry.file_type();
            let is_link = kind.as_ref().is_ok_and(fs::FileType::is_symlink);
            if kind.is_ok_and(|kind| kind.is_dir()) {
                self.add(top, &path, only);
            } else if is_link && path.is_dir() {
                self.left_out.links += 1;
            } else if path.exists() && !path.is_file() {
                self.left_out.special += 1;
            } else if only.is_some_and(|only| !only.matches(below(top, &path))) {
                self.left_out.unmatched += 1;
            } else {
                // A link that leads nowhere is told when it is read.
                self.files.push(Ok(path.into_os_string()));
            }
        }
    }
}

/// A file's path from the directory that was given on.
fn below<'a>(top: &Path, path: &'a Path) -> &'a [u8] {
    let below = path.strip_prefix(top).unwrap_or(path);
    below.as_os_str().as_encoded_bytes()
}
