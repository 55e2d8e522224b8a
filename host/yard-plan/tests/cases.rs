//! Runs every NAME.case of tests/cases on the program and compares its output and status with NAME.out.
//!
//! A case's first line that is no note (#) is the command: show, check, image or log. The lines after it make its files, in their order:
//!   from NAME            begin with plans/NAME.plan; else it is the sample
//!   start, settle, try N the library writes the image
//!   list N ..            and does so by a list of moves
//!   plan AT BYTES        writes bytes, in hex, into the plan
//!   plan length N        cuts the plan off or adds zeros
//!   plan append BYTES    adds bytes behind
//! and the same three with `image` and with `log`, which are empty at first;
//!   swap                 the image's bytes become the plan's, and the plan's the image's

use std::collections::BTreeMap;
use std::path::{Path, PathBuf};
use std::process::Command;
use std::{fs, io};

fn folder() -> PathBuf {
    Path::new(env!("CARGO_MANIFEST_DIR")).join("tests/cases")
}

fn plans() -> PathBuf {
    Path::new(env!("CARGO_MANIFEST_DIR")).join("../../plans")
}

fn sample(name: &str) -> Vec<u8> {
    fs::read(plans().join(format!("{name}.plan"))).expect(name)
}

struct Files {
    plan: Vec<u8>,
    image: Vec<u8>,
    log: Vec<u8>,
}

impl Files {
    /// Carries out one line of a case.
    fn line(&mut self, line: &str) {
        let words: Vec<&str> = line.split_whitespace().collect();
        match words[..] {
            ["from", name] => self.plan = sample(name),
            ["start"] => {
                self.image = vec![0; yard::IMAGE_BYTES];
                yard::start(&self.plan, &mut self.image);
            }
            ["settle"] => {
                yard::settle(&self.plan, &mut self.image);
            }
            ["try", number] => {
                yard::attempt(&self.plan, &mut self.image, number.parse().unwrap());
            }
            ["list", ref numbers @ ..] => {
                let numbers = numbers.iter().map(|n| n.parse::<u16>().unwrap());
                let list: Vec<u8> = numbers.flat_map(u16::to_le_bytes).collect();
                yard::list(&self.plan, &mut self.image, &list);
            }
            ["swap"] => std::mem::swap(&mut self.plan, &mut self.image),
            ["plan", ref change @ ..] => edit(&mut self.plan, change),
            ["image", ref change @ ..] => edit(&mut self.image, change),
            ["log", ref change @ ..] => edit(&mut self.log, change),
            _ => panic!("not understood: {line}"),
        }
    }
}

fn edit(bytes: &mut Vec<u8>, change: &[&str]) {
    let hex = |text: &&str| u8::from_str_radix(text, 16).unwrap();
    match change {
        ["length", length] => bytes.resize(length.parse().unwrap(), 0),
        ["append", more @ ..] => bytes.extend(more.iter().map(hex)),
        [at, new @ ..] => {
            let at: usize = at.parse().unwrap();
            let new: Vec<u8> = new.iter().map(hex).collect();
            bytes[at..at + new.len()].copy_from_slice(&new);
        }
        [] => panic!("an edit without a place"),
    }
}

/// The output of a case's command with its status behind.
fn run(case: &str, work: &Path) -> String {
    let mut lines = case.lines().filter(|line| !line.starts_with('#'));
    let command = lines.next().expect("a command");
    let mut files = Files {
        plan: sample("sample"),
        image: Vec::new(),
        log: Vec::new(),
    };
    lines.for_each(|line| files.line(line));
    fs::create_dir_all(work).unwrap();
    let mut program = Command::new(env!("CARGO_BIN_EXE_yard-plan"));
    program.arg(command);
    for (name, bytes) in [
        ("plan", &files.plan),
        ("image", &files.image),
        ("log", &files.log),
    ] {
        let path = work.join(format!("the.{name}"));
        fs::write(&path, bytes).unwrap();
        if name == "plan" || name == command {
            program.arg(path);
        }
    }
    let done = program.output().unwrap();
    assert_eq!(String::from_utf8_lossy(&done.stderr), "");
    let output = String::from_utf8(done.stdout).unwrap();
    format!("{output}status {}\n", done.status.code().unwrap())
}

fn cases() -> io::Result<BTreeMap<String, String>> {
    let mut cases = BTreeMap::new();
    for entry in fs::read_dir(folder())? {
        let path = entry?.path();
        if path
            .extension()
            .is_some_and(|extension| extension == "case")
        {
            let name = path.file_stem().unwrap().to_str().unwrap().to_string();
            cases.insert(name, fs::read_to_string(path)?);
        }
    }
    Ok(cases)
}

#[test]
fn every_case_prints_what_is_stored() {
    let work = Path::new(env!("CARGO_TARGET_TMPDIR")).join("cases");
    let mut differing = Vec::new();
    let mut refusals = [0; 22];
    for (name, case) in cases().unwrap() {
        let got = run(&case, &work);
        let stored = fs::read_to_string(folder().join(format!("{name}.out"))).unwrap_or_default();
        if got != stored {
            fs::write(work.join(format!("{name}.out")), &got).unwrap();
            differing.push(name);
        }
        let number = got
            .strip_prefix("refused ")
            .and_then(|rest| rest.split([':', '\n']).next());
        refusals[number.map_or(0, |number| number.parse().unwrap())] += 1;
    }
    assert!(
        differing.is_empty(),
        "what was printed is in {}: {differing:?}",
        work.display()
    );
    println!("cases by refusal: {refusals:?}");
    assert!((1..16).chain([20, 21]).all(|n: usize| refusals[n] >= 2));
}

#[test]
fn every_output_has_its_case() {
    let cases = cases().unwrap();
    for entry in fs::read_dir(folder()).unwrap() {
        let path = entry.unwrap().path();
        let name = path.file_stem().unwrap().to_str().unwrap();
        assert!(cases.contains_key(name), "{}", path.display());
    }
}

#[test]
fn every_plan_of_the_folder_is_shown_and_accepted() {
    let mut seen = 0;
    for entry in fs::read_dir(plans()).unwrap() {
        let path = entry.unwrap().path();
        if path.extension().is_none_or(|extension| extension != "plan") {
            continue;
        }
        for (command, prints) in [("check", "accepted\n"), ("show", "accepted\nheader\n")] {
            let mut program = Command::new(env!("CARGO_BIN_EXE_yard-plan"));
            let done = program.arg(command).arg(&path).output().unwrap();
            let output = String::from_utf8(done.stdout).unwrap();
            assert!(output.starts_with(prints), "{command} {}", path.display());
            assert_eq!(
                (output == prints, done.status.code()),
                (command == "check", Some(0))
            );
        }
        seen += 1;
    }
    assert_eq!(seen, 17);
}
