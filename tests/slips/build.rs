//! Makes the wrong versions of the independent implementation: for each entry of wrong.txt a copy
//! of ../src/law with one line changed, and one file that names them all. Of a version only the file
//! that changes and those that use it are copied; the others are the law's own.

use std::fmt::Write;
use std::path::{Path, PathBuf};
use std::{env, fs};

const LAW: &str = "../src/law";
const LIST: &str = "wrong.txt";
/// What a version may be caught by with nothing to compare with; src/main.rs has a way for each.
const FLAWS: [&str; 25] = [
    "breaks demand 3",
    "breaks a chain",
    "breaks a rule",
    "hangs on the header",
    "misplaces a part",
    "misses the rail",
    "hangs on arrival",
    "moves a segment",
    "gives no part back",
    "moves a value",
    "hangs on the cut",
    "narrows twice",
    "misses a value",
    "looks behind",
    "falls back",
    "moves in a cut",
    "misses a sample",
    "hangs on the columns",
    "pairs otherwise",
    "changes in a cut",
    "misses a setup",
    "reads back otherwise",
    "has no normal line",
    "hangs on the spelling",
    "takes a byte more",
];

/// One entry of the list; a line left out has no wrong one.
struct Entry {
    title: String,
    file: String,
    flaws: Vec<String>,
    right: String,
    wrong: String,
}

fn main() {
    println!("cargo:rerun-if-changed={LAW}");
    println!("cargo:rerun-if-changed={LIST}");
    let out = PathBuf::from(env::var("OUT_DIR").expect("cargo sets OUT_DIR"));
    let files = law_files();
    let list = fs::read_to_string(LIST).expect("wrong.txt is beside build.rs");
    let (mut modules, mut names) = (String::new(), String::new());
    for (number, entry) in entries(&list).iter().enumerate() {
        let folder = out.join(format!("wrong_{number}"));
        write_copy(&folder, &files, entry);
        let module = folder.join("mod.rs");
        let Entry { title, flaws, .. } = entry;
        let can_show = can_show(&files_behind(&entry.file, &files));
        writeln!(modules, "#[path = {module:?}]\nmod wrong_{number};").expect("a string grows");
        writeln!(
            names,
            "Version {{ title: {title:?}, can_show: {can_show}, flaws: &{flaws:?}, calls: calls_of!(wrong_{number}) }},"
        )
        .expect("a string grows");
    }
    let text = format!("{modules}\npub const WRONG: &[Version] = &[\n{names}];\n");
    fs::write(out.join("wrong.rs"), text).expect("OUT_DIR takes files");
}

/// The cases that can show a version, by the files that change with it; some change the calls of one kind
/// of case alone.
fn can_show(copied: &[&str]) -> &'static str {
    match copied {
        ["join.rs"] => "cases::is_join",
        ["setup.rs"] => "cases::is_setup",
        _ => "|_| true",
    }
}

/// The files of the implementation: name and text. mod.rs only names the others.
fn law_files() -> Vec<(String, String)> {
    let folder = fs::read_dir(LAW).expect("../src/law is a folder");
    let read = |path: &Path| fs::read_to_string(path).expect("a source file is text");
    folder
        .map(|entry| entry.expect("a folder lists its files"))
        .map(|entry| (entry.file_name().to_string_lossy().into_owned(), read(&entry.path())))
        .filter(|(name, _)| name != "mod.rs")
        .collect()
}

/// Entries are parted by blank lines; lines that start with `#` are remarks.
fn entries(list: &str) -> Vec<Entry> {
    let lines: Vec<&str> = list.lines().filter(|line| !line.starts_with('#')).collect();
    let groups = lines.split(|line| line.is_empty()).filter(|group| !group.is_empty());
    groups
        .map(|group| {
            let title = group[0].to_string();
            let part = |sign: &str| group.iter().skip(2).find_map(|line| line.strip_prefix(sign));
            assert!(
                (3..=4).contains(&group.len()),
                "{LIST}: \"{title}\" has too few or many lines"
            );
            let right =
                part("- ").unwrap_or_else(|| panic!("{LIST}: \"{title}\" has no right line"));
            let wrong = part("+ ").unwrap_or("").to_string();
            let (file, flaws) = group[1].split_once(", ").unwrap_or((group[1], ""));
            let flaws: Vec<&str> = flaws.split(", ").filter(|flaw| !flaw.is_empty()).collect();
            for flaw in &flaws {
                assert!(FLAWS.contains(flaw), "{LIST}: \"{title}\": \"{flaw}\" is no flaw");
            }
            let flaws = flaws.into_iter().map(str::to_string).collect();
            Entry { title, file: file.to_string(), flaws, right: right.to_string(), wrong }
        })
        .collect()
}

/// Writes the copy of one entry: the files that change with it, and the file that names all.
fn write_copy(folder: &Path, files: &[(String, String)], entry: &Entry) {
    fs::create_dir_all(folder).expect("OUT_DIR takes folders");
    assert!(files.iter().any(|(name, _)| *name == entry.file), "{LIST}: no file {}", entry.file);
    let copied = files_behind(&entry.file, files);
    let mut modules = String::new();
    for (name, text) in files {
        let module = module(name);
        if !copied.contains(&name.as_str()) {
            modules += &format!("pub use tessarquin_tests::law::{module};\n");
            continue;
        }
        modules += &format!("pub mod {module};\n");
        let text = if *name == entry.file { changed(text, entry) } else { text.clone() };
        fs::write(folder.join(name), text).expect("OUT_DIR takes files");
    }
    fs::write(folder.join("mod.rs"), modules).expect("OUT_DIR takes files");
}

/// A file and those that use it, by whatever way.
fn files_behind<'a>(file: &'a str, files: &'a [(String, String)]) -> Vec<&'a str> {
    let mut found = vec![file];
    let mut next = 0;
    while next < found.len() {
        let [path, name] = [":", ";"].map(|end| format!("super::{}{end}", module(found[next])));
        let users = files.iter().filter(|(_, text)| text.contains(&path) || text.contains(&name));
        let new: Vec<&str> = users.map(|(user, _)| user.as_str()).collect();
        found.extend(new.into_iter().filter(|user| !found.contains(user)).collect::<Vec<_>>());
        next += 1;
    }
    found
}

fn module(file: &str) -> &str {
    file.strip_suffix(".rs").expect("the law's files are Rust")
}

/// The text with the entry's line changed.
fn changed(text: &str, entry: &Entry) -> String {
    let found = text.lines().filter(|line| line.trim() == entry.right).count();
    assert!(found == 1, "{LIST}: \"{}\": its right line is found {found} times", entry.title);
    let change = |line| if str::trim(line) == entry.right { &entry.wrong } else { line };
    text.lines().map(change).collect::<Vec<_>>().join("\n")
}
