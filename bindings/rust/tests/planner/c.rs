//! The C library as a C or C++ programmer gets it: installed, found by pkg-config, with every warning an error.

use crate::common::{ran, root};
use crate::places::SAID;
use std::path::{Path, PathBuf};
use std::process::{Command, Stdio};
use std::{env, fs};
use zulagbemi::Reason;

/// Compilers and their words for the language; those that are not on this machine are passed over.
const LANGUAGES: [(&str, &[&str]); 6] = [
    ("cc", &["-x", "c", "-std=c11"]),
    ("c++", &["-x", "c++", "-std=c++11"]),
    ("c++", &["-x", "c++", "-std=c++20"]),
    ("gcc", &["-x", "c", "-std=c2x"]),
    ("clang", &["-x", "c", "-std=c11"]),
    ("clang++", &["-x", "c++", "-std=c++17"]),
];

/// Installs the archive that these tests are linked with under a prefix of its own.
fn install(name: &str) -> PathBuf {
    let prefix = Path::new(env!("CARGO_TARGET_TMPDIR")).join(name);
    let _ = fs::remove_dir_all(&prefix);
    let script = root().join("bindings/c/install.sh");
    ran(Command::new(script).arg(&prefix).env("ZULAGBEMI_LIB_DIR", env!("ZULAGBEMI_LINKED")));
    prefix
}

fn pkg_config(prefix: &Path, words: &[&str]) -> String {
    ran(Command::new("pkg-config").args(words).arg("zulagbemi").env("PKG_CONFIG_PATH", prefix.join("lib/pkgconfig")))
}

/// Builds a source of bindings/c in each language from the installed copy alone, and hands each program over.
fn each(prefix: &Path, source: &str, run: impl Fn(Command, &str)) {
    let flags = pkg_config(prefix, &["--cflags", "--libs"]);
    let text = fs::read(root().join("bindings/c").join(source)).unwrap();
    let copy = prefix.join("source.c");
    fs::write(&copy, text).unwrap();
    let mut built = 0;
    for (compiler, words) in LANGUAGES {
        if Command::new(compiler).arg("--version").output().is_err() {
            assert!(!matches!(compiler, "cc" | "c++"), "a C and a C++ compiler are needed: {compiler} is not there");
            continue;
        }
        let program = prefix.join(format!("program-{built}"));
        let mut build = Command::new(compiler);
        build.args(words).args(["-Wall", "-Wextra", "-pedantic", "-Wconversion", "-Werror", "-O2"]);
        build.arg(&copy).args(["-x", "none"]).args(flags.split_whitespace()).arg("-o").arg(&program);
        ran(&mut build);
        run(Command::new(&program), &format!("{compiler} {words:?}"));
        built += 1;
    }
    assert!(built >= 3);
}

#[test]
fn example() {
    // graph G on 3 processors, worked by hand
    let expected = "\
C = 34, P = 12, S = 58, load = 0.567: fits, spare 1
subtask 1: processor 1 from 0 to 3
subtask 2: processor 2 from 0 to 2
subtask 3: processor 3 from 0 to 2
subtask 4: processor 2 from 2 to 4
subtask 5: processor 2 from 4 to 8
subtask 6: processor 3 from 4 to 8
subtask 7: processor 2 from 8 to 12
subtask 8: processor 3 from 8 to 12
subtask 9: processor 1 from 3 to 12
the plan ends at 12, and is accepted
";
    let prefix = install("example");
    let twice = prefix.join("twice.stg");
    fs::write(&twice, "2\n0 0 0\n1 5 1 0\n2 7 2 1 1\n3 0 1 2\n").unwrap();
    each(&prefix, "example.c", |mut program, language| {
        let g = fs::File::open(root().join("crates/vectors/data/g.stg")).unwrap();
        assert_eq!(ran(program.stdin(Stdio::from(g))), expected, "{language}");
        let refused = program.stdin(fs::File::open(&twice).unwrap()).output().unwrap();
        assert_eq!(refused.status.code(), Some(1), "{language}");
        assert_eq!(refused.stdout, b"refused by 6: arrow 2 stands twice\n", "{language}");
    });
}

/// Null pointers beside length 0, places, and the same texts of refusal as in Rust.
#[test]
fn edges() {
    let words = SAID.iter().flat_map(|(number, place, second, _)| [number, place, second].map(u32::to_string));
    let words: Vec<String> = words.collect();
    each(&install("edges"), "tests/edges.c", |mut program, language| {
        let said = ran(program.args(&words));
        let lines: Vec<&str> = said.lines().collect();
        let (meanings, placed) = lines.split_at(100);
        assert_eq!(meanings[0], "0 accepted", "{language}");
        for (line, number) in meanings[1..].iter().zip(1..) {
            assert_eq!(*line, format!("{number} {}", Reason::from_number(number).meaning()), "{language}");
        }
        assert_eq!(placed, SAID.map(|(.., words)| words), "{language}");
    });
}

#[test]
fn version() {
    let prefix = install("version");
    assert_eq!(pkg_config(&prefix, &["--modversion"]).trim(), env!("CARGO_PKG_VERSION"));
    let header = fs::read_to_string(prefix.join("include/zulagbemi.h")).unwrap();
    let numbers = ["MAJOR", "MINOR", "PATCH"].map(|part| crate::once::defined(&header, &format!("VERSION_{part}")));
    assert_eq!(numbers.map(|n| n.to_string()).join("."), env!("CARGO_PKG_VERSION"));
}
