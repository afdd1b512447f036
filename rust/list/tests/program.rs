//! The program: what it writes where, and its exit status.

use std::fs;
use std::io::Write;
use std::path::Path;
use std::process::{Command, Output, Stdio};

const TEXT: &[u8] = b"page 4 3 0\nexact 1 1 3 2\nend\n";

fn run(words: &[&str], input: &[u8]) -> Output {
    let mut program = Command::new(env!("CARGO_BIN_EXE_list"))
        .args(words)
        .stdin(Stdio::piped())
        .stdout(Stdio::piped())
        .stderr(Stdio::piped())
        .spawn()
        .expect("the program starts");
    // A program that does not read its input may have ended.
    let _ = program.stdin.take().unwrap().write_all(input);
    program.wait_with_output().expect("the program ends")
}

fn text(bytes: &[u8]) -> &str {
    std::str::from_utf8(bytes).expect("a text")
}

#[test]
fn a_list_is_made_and_dumped() {
    let made = run(&["make"], TEXT);
    assert_eq!(made.status.code(), Some(0));
    assert_eq!(Ok(&made.stdout), list::make(TEXT).as_ref());
    assert_eq!(text(&made.stderr), "");

    let dumped = run(&["dump"], &made.stdout);
    assert_eq!(dumped.status.code(), Some(0));
    assert_eq!(text(&dumped.stdout), list::dump(&made.stdout).text);
    assert_eq!(text(&dumped.stderr), "");
}

#[test]
fn a_list_is_squeezed() {
    let longer = run(
        &["make"],
        b"page 4 3 0\nlevel 9\nlevel 255\nexact 1 1 3 2\nplayer 3\nend\n",
    );
    let squeezed = run(&["squeeze"], &longer.stdout);
    assert_eq!(squeezed.status.code(), Some(0));
    assert_eq!(Ok(&squeezed.stdout), list::make(TEXT).as_ref());
    assert_eq!(text(&squeezed.stderr), "");

    let again = run(&["squeeze"], &squeezed.stdout);
    assert_eq!(again.status.code(), Some(0));
    assert_eq!(again.stdout, squeezed.stdout);
}

#[test]
fn a_file_serves_as_standard_input_does() {
    let file = Path::new(env!("CARGO_TARGET_TMPDIR")).join("drawing");
    let name = file.to_str().unwrap();
    fs::write(&file, TEXT).unwrap();
    let made = run(&["make", name], b"");
    assert_eq!(made.stdout, run(&["make"], TEXT).stdout);
    fs::write(&file, &made.stdout).unwrap();
    for word in ["dump", "squeeze"] {
        let found = run(&[word, name], b"");
        assert_eq!(found.stdout, run(&[word], &made.stdout).stdout);
        assert!(!found.stdout.is_empty());
    }
    fs::remove_file(&file).unwrap();
}

#[test]
fn nothing_is_written_of_a_wrong_text() {
    let made = run(&["make"], b"page 4 3 0\nlevel 7\nexact 1 1 1 1\nend\n");
    assert_eq!(made.status.code(), Some(1));
    assert_eq!(text(&made.stdout), "");
    let told = "line 3: refused 9: the ends of the line coincide\n";
    assert_eq!(text(&made.stderr), told);
}

#[test]
fn a_refused_list_is_told_by_the_status() {
    let mut list = list::make(TEXT).unwrap();
    list.pop();
    let dumped = run(&["dump"], &list);
    assert_eq!(dumped.status.code(), Some(1));
    let told = "refused 5 at 19: the list is cut short\n";
    assert!(text(&dumped.stdout).ends_with(&format!("# {told}")));

    let squeezed = run(&["squeeze"], &list);
    assert_eq!(squeezed.status.code(), Some(1));
    assert_eq!(text(&squeezed.stdout), "");
    assert_eq!(text(&squeezed.stderr), told);
}

#[test]
fn other_words_are_told_how_to_use_it() {
    let others: [&[&str]; 5] = [
        &[],
        &["paint"],
        &["make", "a", "b"],
        &["squeeze", "a", "b"],
        &["--help"],
    ];
    for words in others {
        let told = run(words, TEXT);
        assert_eq!(told.status.code(), Some(2), "{words:?}");
        assert_eq!(text(&told.stdout), "");
        assert!(text(&told.stderr).contains("list make"), "{words:?}");
    }
}

#[test]
fn a_file_that_is_not_there_is_named() {
    for word in ["make", "dump", "squeeze"] {
        let told = run(&[word, "no such list"], b"");
        assert_eq!(told.status.code(), Some(2));
        assert_eq!(text(&told.stdout), "");
        assert!(text(&told.stderr).starts_with("list: no such list: "));
    }
}
