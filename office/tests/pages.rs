//! What the repository's pages show is so. The pages are `README.md`, `CONTRIBUTING.md`, `docs/*.md` and `office/README.md`, but not
//! `docs/PORT.md` and `docs/DESIGN-PASS.md`, which have the text of another commit beside today's; a test for each rule, in the
//! forms that the pages keep to:
//!
//! - Paths. A word in backquotes that begins with a folder of `FOLDERS` is a path from the top, in `office/README.md` one that
//!   begins with a folder of `OWN` from `office/`. It is there. Left aside are what the build makes (`target/`) and words with
//!   a placeholder in capitals, as `crates/NAME/specs/`.
//! - Names. Names of definitions and laws stand before their file in brackets: `` `one` (`crates/x/specs/File.antt`) `` or
//!   `` `one`, `two` and `three` (`crates/x/proofs/File.antt`) ``. The file declares them.
//! - Calls. `` `crate::name` `` is a function, a type, a trait, a constant or a module in that crate's `src/`.
//! - Vectors. On a line with the word Vector or Vectors, `` `# room 50` `` begins a line of `crates/vectors/stdin`.
//! - Crates. `docs/ARCHITECTURE.md` shows them between the lines `<!-- crates -->` and `<!-- /crates -->`, each on a line
//!   `name ── one, two, three` with the crates of the repository that it uses and that none of these uses in turn, or `name ──`
//!   where there is none. Other lines are headings. It is what `crates.txt` has.
//! - Commands. A line `office ...` or `$ office ...` of a block (indented or fenced) is run, unless it has a placeholder in
//!   capitals, and ends with status 0. What follows it up to the next command or the end of the block is what it prints; a
//!   last line `...` stands for any more. A page's commands run one after another in a folder that has `examples/`. Where
//!   `refused` stands first in what is printed the status is 1, and so in prose: `` `office ...` gives refusal 13 ``. Any other
//!   `` `office ...` `` in prose begins with a command that there is.
//! - Files. The examples of the formats in `docs/FILES.md` are taken, and its ranges are those of the command.
//! - Tests. Where a line of a block runs `cargo test` with `--test FILE NAME`, `office/tests/FILE.rs` has `fn NAME`; in
//!   backquotes in prose too.
//! - Targets. Each `make name` is a target of the Makefile. Where a line that names one ends in "prints", the block behind it
//!   is what the target prints.
#![cfg(unix)]

#[path = "tools/run.rs"]
mod run;

use office::{calls, house, losses, meters, table};
use run::{read, scratch, top};
use std::collections::{BTreeMap, BTreeSet};
use std::path::Path;
use std::process::Command;

const FOLDERS: [&str; 6] = ["crates/", "docs/", "examples/", "office/", "model/", "tools/"];
/// Pages with the text of another commit beside today's.
const OF_OTHER_COMMITS: [&str; 2] = ["docs/PORT.md", "docs/DESIGN-PASS.md"];
/// From the folder of `office/README.md`.
const OWN: [&str; 4] = ["src/", "tests/", "include/", "../"];

struct Page {
    name: String,
    text: String,
}

fn pages() -> Vec<Page> {
    let docs = std::fs::read_dir(top().join("docs")).expect("the pages are there");
    let docs = docs.map(|file| format!("docs/{}", file.expect("a file").file_name().to_string_lossy()));
    let own = |name: &String| name.ends_with(".md") && !OF_OTHER_COMMITS.contains(&name.as_str());
    let mut names: Vec<String> = docs.filter(own).collect();
    names.sort();
    names.extend(["README.md", "CONTRIBUTING.md", "office/README.md"].map(String::from));
    let there = names.into_iter().filter(|name| top().join(name).exists());
    let pages: Vec<Page> = there.map(|name| Page { text: read(&name), name }).collect();
    assert!(pages.len() >= 7, "some pages were not found");
    pages
}

/// A run of indented or fenced lines, without their indent, and the line of prose before it.
struct Block {
    lead: String,
    lines: Vec<String>,
}

/// Where a line of a page stands.
#[derive(Clone, Copy, PartialEq)]
enum State {
    Prose,
    Indented,
    Fenced,
}

impl State {
    /// The state of the next line, and that line as its block has it. An indented block begins behind a blank line; blank
    /// lines between its lines belong to it.
    fn with(self, line: &str, behind_blank: bool) -> (State, Option<&str>) {
        let fence = line.trim_start().starts_with("```");
        match (self, line.strip_prefix("    ")) {
            (State::Fenced, _) if fence => (State::Prose, None),
            (State::Fenced, _) => (State::Fenced, Some(line)),
            _ if fence => (State::Fenced, None),
            (State::Indented, Some(own)) => (State::Indented, Some(own)),
            (State::Prose, Some(own)) if behind_blank => (State::Indented, Some(own)),
            (State::Indented, None) if line.trim().is_empty() => (State::Indented, Some("")),
            _ => (State::Prose, None),
        }
    }
}

impl Page {
    fn blocks(&self) -> Vec<Block> {
        let mut blocks: Vec<Block> = Vec::new();
        let (mut state, mut lead, mut behind_blank) = (State::Prose, "", true);
        for line in self.text.lines() {
            let (next, own) = state.with(line, behind_blank);
            behind_blank = line.trim().is_empty();
            if state == State::Prose && next != State::Prose {
                blocks.push(Block { lead: lead.to_string(), lines: Vec::new() });
            }
            match (own, blocks.last_mut()) {
                (Some(own), Some(block)) => block.lines.push(own.to_string()),
                _ if !behind_blank => lead = line,
                _ => {}
            }
            state = next;
        }
        blocks.iter_mut().for_each(|block| trim_end(&mut block.lines));
        blocks
    }

    /// What stands in backquotes on the page, in blocks too.
    fn quoted(&self) -> impl Iterator<Item = &str> {
        self.text.lines().flat_map(quoted)
    }
}

/// What stands in backquotes in a line.
fn quoted(line: &str) -> impl Iterator<Item = &str> {
    line.split('`').skip(1).step_by(2)
}

fn trim_end(lines: &mut Vec<String>) {
    while lines.last().is_some_and(|line| line.trim().is_empty()) {
        lines.pop();
    }
}

/// A part of a word that stands for something else: capitals alone, as FILE or N.
fn is_placeholder(part: &str) -> bool {
    let letters = part.trim_matches(|c: char| !c.is_ascii_alphanumeric());
    !letters.is_empty() && letters.bytes().all(|b| b.is_ascii_uppercase())
}

/// Fails with all that a rule has found wrong, each line with its page.
fn assert_none(found: Vec<String>) {
    assert!(found.is_empty(), "\n{}", found.join("\n"));
}

#[test]
fn paths_are_there() {
    let mut missing = Vec::new();
    let mut seen = 0;
    for page in pages() {
        for word in page.quoted().flat_map(str::split_whitespace) {
            let own = page.name == "office/README.md" && OWN.iter().any(|folder| word.starts_with(folder));
            let plain = word.chars().all(|c| c.is_ascii_alphanumeric() || "._-/".contains(c));
            let known = own || FOLDERS.iter().any(|folder| word.starts_with(folder));
            if !known || !plain || word.split('/').any(|part| part == "target" || is_placeholder(part)) {
                continue;
            }
            seen += 1;
            let from = if own { top().join("office") } else { top() };
            if !from.join(word).exists() {
                missing.push(format!("{}: there is no {word}", page.name));
            }
        }
    }
    assert_none(missing);
    assert!(seen > 50, "only {seen} paths were found");
}

/// The names in backquotes that end a text: `` ... `one`, `two` and `three` ``.
fn names_at_the_end(text: &str) -> Vec<&str> {
    let mut names = Vec::new();
    let mut rest = text;
    while let Some((before, name)) = rest.strip_suffix('`').and_then(|inner| inner.rsplit_once('`')) {
        names.push(name);
        rest = [", and ", ", ", " and "].iter().find_map(|joint| before.strip_suffix(joint)).unwrap_or("");
    }
    names
}

/// Whether a file of definitions or proofs has a line `name : ...`, `record name ...` or `data name ...`.
fn declares(file: &str, name: &str) -> bool {
    file.lines().any(|line| {
        let mut words = line.split_whitespace().peekable();
        while words.next_if(|word| ["pub", "abbrev", "unfoldable"].contains(word)).is_some() {}
        let typed = words.next_if(|word| ["record", "data"].contains(word)).is_some();
        words.next() == Some(name) && (typed || words.next() == Some(":"))
    })
}

#[test]
fn names_are_declared_in_the_file_beside_them() {
    let mut missing = Vec::new();
    let mut seen = 0;
    for page in pages() {
        for (at, _) in page.text.match_indices(" (`crates/") {
            let path = page.text[at + 3..].split('`').next().unwrap_or("");
            if !path.ends_with(".antt") || path.split('/').any(is_placeholder) {
                continue;
            }
            let file = std::fs::read_to_string(top().join(path)).unwrap_or_default();
            for name in names_at_the_end(&page.text[..at]) {
                seen += 1;
                if !declares(&file, name) {
                    missing.push(format!("{}: {path} does not declare {name}", page.name));
                }
            }
        }
    }
    assert_none(missing);
    assert!(seen > 5, "only {seen} names were found");
}

/// The crates of the repository, each with those of them that it uses itself.
fn crates() -> BTreeMap<String, BTreeSet<String>> {
    let list = read("crates.txt");
    let lines = list.lines().filter(|line| !line.starts_with('#')).filter_map(|line| line.split_once(':'));
    // A static library has the word `staticlib` behind its name.
    let all: Vec<(&str, &str)> = lines.map(|(name, uses)| (name.trim_end_matches(" staticlib"), uses)).collect();
    let own = |uses: &str| -> BTreeSet<String> {
        uses.split_whitespace().filter(|used| all.iter().any(|(name, _)| name == used)).map(String::from).collect()
    };
    all.iter().map(|(name, uses)| (name.to_string(), own(uses))).collect()
}

/// All that a crate uses, itself or through another.
fn reached(crates: &BTreeMap<String, BTreeSet<String>>, name: &str) -> BTreeSet<String> {
    let uses = &crates[name];
    uses.iter().cloned().chain(uses.iter().flat_map(|used| reached(crates, used))).collect()
}

/// Of the crates that one uses, those that none of the others uses in turn.
fn nearest(crates: &BTreeMap<String, BTreeSet<String>>, name: &str) -> BTreeSet<String> {
    let uses = &crates[name];
    uses.iter().filter(|used| !uses.iter().any(|other| reached(crates, other).contains(*used))).cloned().collect()
}

/// The source of a crate, all files together.
fn source(name: &str) -> String {
    let folder = top().join("crates").join(name).join("src");
    let files = std::fs::read_dir(&folder).unwrap_or_else(|why| panic!("{name}: {why}"));
    files.map(|file| std::fs::read_to_string(file.expect("a file").path()).expect("text")).collect()
}

#[test]
fn calls_are_in_their_crates() {
    let crates = crates();
    let mut missing = Vec::new();
    let mut seen = 0;
    for page in pages() {
        for quoted in page.quoted() {
            let Some((name, item)) = quoted.split_once("::").filter(|(name, _)| crates.contains_key(*name)) else {
                continue;
            };
            let item: String = item.chars().take_while(|c| c.is_ascii_alphanumeric() || *c == '_').collect();
            let source = source(name);
            let declared = ["fn", "struct", "enum", "trait", "const", "mod"].iter().any(|keyword| {
                let declaration = format!("{keyword} {item}");
                source.match_indices(&declaration).any(|(at, _)| {
                    let next = source[at + declaration.len()..].chars().next();
                    !next.is_some_and(|c| c.is_ascii_alphanumeric() || c == '_')
                })
            });
            seen += 1;
            if !declared {
                missing.push(format!("{}: the crate {name} has no {item}", page.name));
            }
        }
    }
    assert_none(missing);
    assert!(seen > 20, "only {seen} calls were found");
}

#[test]
fn vectors_are_there() {
    let vectors = read("crates/vectors/stdin");
    let mut missing = Vec::new();
    let mut seen = 0;
    for page in pages() {
        for line in page.text.lines().filter(|line| line.contains("Vector")) {
            for quoted in quoted(line).filter(|quoted| quoted.starts_with("# ")) {
                seen += 1;
                if !vectors.lines().any(|line| line.starts_with(quoted)) {
                    missing.push(format!("{}: no vector has the comment `{quoted}`", page.name));
                }
            }
        }
    }
    assert_none(missing);
    assert!(seen > 20, "only {seen} vectors were found");
}

/// The lines between two marks.
fn between<'a>(text: &'a str, from: &str, to: &str) -> Option<&'a str> {
    text.split_once(from)?.1.split_once(to).map(|(inside, _)| inside)
}

#[test]
fn the_picture_of_the_crates_is_their_list() {
    let page = read("docs/ARCHITECTURE.md");
    let picture = between(&page, "<!-- crates -->\n", "<!-- /crates -->").expect("the picture is there");
    let mut shown = BTreeMap::new();
    for (name, uses) in picture.lines().filter_map(|line| line.split_once("──")) {
        let uses: BTreeSet<String> =
            uses.split(',').map(str::trim).filter(|used| !used.is_empty()).map(String::from).collect();
        assert!(shown.insert(name.trim().to_string(), uses).is_none(), "{name} is there twice");
    }
    let mut wrong = Vec::new();
    let crates = crates();
    for name in crates.keys() {
        let uses = nearest(&crates, name);
        match shown.remove(name) {
            Some(shown) if shown == uses => {}
            Some(shown) => wrong.push(format!("{name} uses {uses:?}; the picture has {shown:?}")),
            None => wrong.push(format!("the picture has no crate {name}")),
        }
    }
    wrong.extend(shown.keys().map(|name| format!("crates.txt has no crate {name}")));
    assert_none(wrong);
}

/// Runs a script in a folder, with the built command at hand: its status, and what it prints.
fn shell(script: &str, folder: &Path) -> (Option<i32>, String) {
    let office = Path::new(env!("CARGO_BIN_EXE_office")).parent().expect("the command has a folder");
    let path = format!("{}:{}", office.display(), std::env::var("PATH").unwrap_or_default());
    let ran = Command::new("bash").args(["-euc", script]).current_dir(folder).env("PATH", path).output();
    let ran = ran.expect("bash is there: the Makefile needs it too");
    (ran.status.code(), String::from_utf8_lossy(&ran.stdout).into_owned())
}

/// A folder in which a page's commands run: what they write is not left in the repository.
fn folder_of(page: &Page) -> std::path::PathBuf {
    let folder = std::path::PathBuf::from(scratch(&format!("page-{}", page.name.replace('/', "-"))));
    let _ = std::fs::remove_dir_all(&folder);
    std::fs::create_dir_all(&folder).expect("a folder");
    std::os::unix::fs::symlink(top().join("examples"), folder.join("examples")).expect("a link");
    folder
}

/// A block's line as a command, without the sign in front.
fn command(line: &str) -> Option<&str> {
    let line = line.trim_start();
    let line = line.strip_prefix("$ ").unwrap_or(line);
    line.starts_with("office ").then_some(line)
}

/// The commands of a block, each with the lines below it.
fn commands(block: &Block) -> Vec<(&str, Vec<String>)> {
    let mut found: Vec<(&str, Vec<String>)> = Vec::new();
    for line in &block.lines {
        match (command(line), found.last_mut()) {
            (Some(command), _) => found.push((command, Vec::new())),
            (None, Some((_, shown))) => shown.push(line.clone()),
            (None, None) => {}
        }
    }
    found.iter_mut().for_each(|(_, shown)| trim_end(shown));
    found
}

/// Whether this is what was printed, as far as it is shown.
fn is_shown(shown: &[String], printed: &str) -> bool {
    let lines: Vec<&str> = printed.trim_end().lines().collect();
    match shown {
        [front @ .., more] if more == "..." => lines.len() > front.len() && front == &lines[..front.len()],
        whole => whole == &lines[..],
    }
}

#[test]
fn commands_run_and_print_what_is_shown() {
    let mut wrong = Vec::new();
    let mut seen = 0;
    for page in pages() {
        let folder = folder_of(&page);
        for block in page.blocks() {
            let commands = commands(&block);
            for (command, shown) in commands.iter().filter(|(line, _)| !line.split_whitespace().any(is_placeholder)) {
                seen += 1;
                let (status, printed) = shell(command, &folder);
                let refused = shown.first().is_some_and(|line| line.starts_with("refused "));
                if status != Some(i32::from(refused)) {
                    wrong.push(format!("{}: `{command}` ends with status {status:?}\n{printed}", page.name));
                } else if !shown.is_empty() && !is_shown(shown, &printed) {
                    wrong.push(format!("{}: `{command}` prints\n{printed}", page.name));
                }
            }
        }
    }
    assert_none(wrong);
    assert!(seen > 0, "no command was found");
}

#[test]
fn commands_in_prose_are_there() {
    let help = run::office(&["help"]).text();
    let mut wrong = Vec::new();
    for page in pages() {
        for words in page.quoted().filter_map(|quoted| quoted.strip_prefix("office ")) {
            let name = words.split_whitespace().next().unwrap_or("");
            if !is_placeholder(name) && !help.contains(&format!("\n  office {name} ")) {
                wrong.push(format!("{}: there is no command `office {name}`", page.name));
            }
        }
        for (at, gives) in page.text.match_indices("` gives refusal ") {
            let words = page.text[..at].rsplit('`').next().unwrap_or("");
            let number: String = page.text[at + gives.len()..].chars().take_while(char::is_ascii_digit).collect();
            let (status, printed) = shell(words, &top());
            if status != Some(1) || !printed.starts_with(&format!("refused {number}: ")) {
                wrong.push(format!("{}: `{words}` ends with status {status:?}\n{printed}", page.name));
            }
        }
    }
    assert_none(wrong);
}

/// The first block below a heading.
fn below(page: &Page, heading: &str) -> String {
    let from = page.text.find(&format!("\n{heading}\n")).unwrap_or_else(|| panic!("{}: no {heading}", page.name));
    let rest = Page { name: String::new(), text: page.text[from..].to_string() };
    rest.blocks().first().expect("a block").lines.join("\n")
}

#[test]
fn the_formats_are_those_of_the_command() {
    let page = Page { name: "docs/FILES.md".to_string(), text: read("docs/FILES.md") };
    let job = house::pack(&below(&page, "## A house")).expect("a house");
    let cat = table::pack(&below(&page, "## A table of sizes")).expect("a table");
    calls::choose(&job, &cat).expect("the library takes them");
    let list = meters::pack(&below(&page, "## A list of meters")).expect("a list of meters");
    calls::meter(&job, &list).expect("the library takes it, and a meter qualifies");
    let lost = losses::pack(&below(&page, "## A list of losses")).expect("a list of losses");
    calls::heads(&job, &lost).expect("the library takes it for the house");
    let rows: Vec<&str> = page.text.lines().filter(|line| line.starts_with('|')).collect();
    let lists = meters::quantities().into_iter().chain(losses::quantities());
    let quantities: Vec<_> = house::quantities().into_iter().chain(lists).collect();
    for quantity in quantities.iter().filter(|quantity| quantity.name != "section") {
        let shown = rows.iter().any(|row| {
            let (name, taken) = (quantity.name, format!("|{}|", quantity.taken));
            row.split('|').nth(1).is_some_and(|cell| cell.contains(name)) && row.contains(&taken)
        });
        assert!(shown, "{} is {}", quantity.name, quantity.taken);
    }
}

/// The file and, where it is named, the test that a line of a shell runs: `cargo test ... --test FILE NAME`.
fn test_of(words: &str) -> Option<(&str, Option<&str>)> {
    let rest = words.strip_prefix("cargo test ")?.split_once("--test ")?.1;
    let mut rest = rest.split_whitespace();
    let file = rest.next().filter(|file| !is_placeholder(file))?;
    Some((file, rest.next().filter(|name| !name.starts_with('-') && !is_placeholder(name))))
}

#[test]
fn tests_that_are_named_are_there() {
    let mut missing = Vec::new();
    let mut seen = 0;
    for page in pages() {
        let blocks = page.blocks();
        let lines = blocks.iter().flat_map(|block| &block.lines).map(|line| line.trim_start_matches("$ "));
        for (file, name) in page.quoted().chain(lines).filter_map(test_of) {
            let Ok(source) = std::fs::read_to_string(top().join(format!("office/tests/{file}.rs"))) else {
                missing.push(format!("{}: there is no office/tests/{file}.rs", page.name));
                continue;
            };
            seen += usize::from(name.is_some());
            if let Some(name) = name.filter(|name| !source.contains(&format!("#[test]\nfn {name}()"))) {
                missing.push(format!("{}: office/tests/{file}.rs has no test {name}", page.name));
            }
        }
    }
    assert_none(missing);
    assert!(seen > 0, "no test was found");
    assert_eq!(test_of("cargo test --offline --test calls one"), Some(("calls", Some("one"))));
    assert_eq!(test_of("cargo test --offline --test NAME"), None);
}

/// The words behind `make` in a line of a shell or in backquotes.
fn target(words: &str) -> Option<&str> {
    let name = words.strip_prefix("make ")?.split_whitespace().next()?;
    (!name.starts_with('-') && !is_placeholder(name)).then_some(name)
}

#[test]
fn targets_are_in_the_makefile() {
    let makefile = read("Makefile");
    let mut missing = Vec::new();
    let mut seen = 0;
    for page in pages() {
        let blocks = page.blocks();
        let lines = blocks.iter().flat_map(|block| &block.lines).map(|line| line.trim_start_matches("$ "));
        for name in page.quoted().chain(lines).filter_map(target) {
            seen += 1;
            if !makefile.lines().any(|line| line.starts_with(&format!("{name}:"))) {
                missing.push(format!("{}: the Makefile has no target {name}", page.name));
            }
        }
    }
    assert_none(missing);
    assert!(seen > 5, "only {seen} targets were found");
}

#[test]
fn targets_print_what_is_shown() {
    let mut wrong = Vec::new();
    let mut seen = 0;
    for page in pages() {
        for block in page.blocks().iter().filter(|block| block.lead.ends_with(" prints")) {
            let Some(name) = quoted(&block.lead).filter_map(target).last() else { continue };
            seen += 1;
            // What the target stands on is built by now, since this test is.
            let (status, printed) = shell(&format!("make --no-print-directory -o target/built {name}"), &top());
            if status != Some(0) || !is_shown(&block.lines, &printed) {
                wrong.push(format!("{}: `make {name}` prints\n{printed}", page.name));
            }
        }
    }
    assert_none(wrong);
    assert!(seen > 0, "no target was found");
}
