//! Each page of pages/ that has a grammar of its own, a schedule and a document comes to what the
//! program makes of it: its boxes, or its refusal. The program is `MAUGZERIS_PROGRAM`, or ./layout.

use std::fs::{self, File};
use std::path::{Path, PathBuf};
use std::process::Command;

use maugzeris::{Context, Error, Result, Width};

/// What a page says.
struct Texts {
    width: Width,
    grammar: String,
    schedule: Option<String>,
    document: String,
}

/// The lines below a heading, and what stands behind it on its line.
fn section<'p>(page: &'p str, name: &str) -> Option<(&'p str, &'p str)> {
    let from = page.match_indices('%').find(|(at, _)| {
        (*at == 0 || page[..*at].ends_with('\n')) && {
            let word = &page[at + 1..];
            word.starts_with(name) && word[name.len()..].starts_with([' ', '\n'])
        }
    })?;
    let rest = &page[from.0 + 1 + name.len()..];
    let (heading, body) = rest.split_once('\n')?;
    Some((
        heading.trim(),
        body.split_inclusive('\n')
            .position(|line| line.starts_with('%'))
            .map_or(body, |lines| {
                let length = body.split_inclusive('\n').take(lines).map(str::len).sum();
                &body[..length]
            }),
    ))
}

/// The texts of a page that has all of them, and a grammar of its own.
fn texts(page: &str) -> Option<Texts> {
    let (own, grammar) = section(page, "grammar")?;
    let (automatic, schedule) = section(page, "schedule")?;
    let (_, document) = section(page, "document")?;
    own.is_empty().then(|| Texts {
        width: if page.starts_with("%page 2") {
            Width::Wide
        } else {
            Width::Narrow
        },
        grammar: grammar.into(),
        schedule: (automatic != "auto").then(|| schedule.into()),
        document: document.into(),
    })
}

/// The text and the status that the library has for a page.
fn laid_out(context: &Context, texts: &Texts) -> (String, i32) {
    let boxes = || -> Result<_> {
        let grammar = context.grammar(&texts.grammar, texts.width)?;
        let mut page = grammar
            .rules(texts.schedule.as_deref())?
            .page(&texts.document)?;
        page.lay_out()?;
        page.boxes()
    };
    match boxes() {
        Ok(boxes) => (boxes.text, if boxes.overflows { 8 } else { 0 }),
        Err(Error::Refused { status, line }) => (line, status as i32),
        Err(error) => panic!("{error}"),
    }
}

/// The text and the status that the program has.
fn printed(top: &Path, path: &Path) -> (String, i32) {
    let program =
        std::env::var_os("MAUGZERIS_PROGRAM").map_or_else(|| top.join("layout"), PathBuf::from);
    let output = Command::new(program)
        .arg("run")
        .stdin(File::open(path).unwrap())
        .output()
        .unwrap();
    let told = [output.stdout, output.stderr].concat();
    (
        String::from_utf8(told).unwrap(),
        output.status.code().unwrap(),
    )
}

#[test]
fn pages_come_to_what_the_program_makes_of_them() {
    let top = Path::new(env!("CARGO_MANIFEST_DIR")).join("../..");
    let context = Context::new().unwrap();
    let mut counts = (0, 0);
    for folder in ["pages", "pages/guide", "pages/refused"] {
        let mut paths: Vec<_> = fs::read_dir(top.join(folder))
            .unwrap()
            .map(|it| it.unwrap().path())
            .collect();
        paths.sort();
        for path in paths {
            let Some(page) = fs::read(&path)
                .ok()
                .and_then(|it| String::from_utf8(it).ok())
            else {
                continue;
            };
            let Some(texts) = texts(&page) else { continue };
            let (wanted, status) = printed(&top, &path);
            if status == 4 {
                continue;
            }
            assert_eq!(
                laid_out(&context, &texts),
                (wanted, status),
                "{}",
                path.display()
            );
            match status {
                0 | 8 => counts.0 += 1,
                _ => counts.1 += 1,
            }
        }
    }
    println!(
        "{} pages with boxes and {} refusals are the program's",
        counts.0, counts.1
    );
    assert!(counts.0 > 5 && counts.1 > 20);
}
