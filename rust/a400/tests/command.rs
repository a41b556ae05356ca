// The command `a400`: what it prints and its exit status.

use a400::PAGE_WORDS;
use std::io::Write;
use std::path::PathBuf;
use std::process::{Command, Output, Stdio};

const PAGE_BYTES: usize = 2 * PAGE_WORDS;

fn a400(words: &[&str]) -> Output {
    Command::new(env!("CARGO_BIN_EXE_a400")).args(words).output().expect("the command starts")
}

fn bytes(words: &[(usize, u16)], pages: usize) -> Vec<u8> {
    let mut bytes = vec![0; pages * PAGE_BYTES];
    for &(address, word) in words {
        bytes[2 * address..2 * address + 2].copy_from_slice(&word.to_be_bytes());
    }
    bytes
}

// A file of its own for each test.
fn image(name: &str, bytes: &[u8]) -> String {
    let path = PathBuf::from(env!("CARGO_TARGET_TMPDIR")).join(name);
    std::fs::write(&path, bytes).expect("the file is written");
    path.into_os_string().into_string().expect("a path of text")
}

const PAPER: [(usize, u16); 4] = [(2, 0o060005), (3, 0o002004), (4, 0o102077), (5, 0o000051)];

fn printed(output: &Output) -> String {
    String::from_utf8(output.stdout.clone()).expect("text")
}

fn said(output: &Output) -> String {
    String::from_utf8(output.stderr.clone()).expect("text")
}

#[test]
fn runs_the_paper_s_image() {
    let file = image("paper.img", &bytes(&PAPER, 1));
    let output = a400(&["run", &file]);
    assert_eq!(
        printed(&output),
        "answer steps P A B E O\n2 2 000004 000052 000000 0 0\nHLT: an I/O code the host must do\n"
    );
    assert_eq!(output.status.code(), Some(0));
    let output = a400(&["run", &file, "--budget", "1"]);
    assert_eq!(printed(&output), "answer steps P A B E O\n0 1 000003 000051 000000 0 0\nthe steps were spent\n");
    assert_eq!(output.status.code(), Some(0));
    let output = a400(&["run", "--start", "3", &file]);
    assert_eq!(printed(&output).lines().nth(1), Some("2 1 000004 000001 000000 0 0"));
}

#[test]
fn reads_standard_input() {
    let mut child = Command::new(env!("CARGO_BIN_EXE_a400"))
        .args(["run", "-"])
        .stdin(Stdio::piped())
        .stdout(Stdio::piped())
        .spawn()
        .expect("the command starts");
    child.stdin.take().expect("piped").write_all(&bytes(&PAPER, 8)).expect("taken");
    let output = child.wait_with_output().expect("ends");
    assert_eq!(printed(&output).lines().nth(1), Some("2 2 000004 000052 000000 0 0"));
}

#[test]
fn traces() {
    let words = [(2, 0o060005), (3, 0o002004), (4, 0o105777), (5, 0o41), (0o41, 0), (7, 0o014100), (0o101, 0o100000)];
    let file = image("trace.img", &bytes(&words, 1));
    let output = a400(&["trace", &file]);
    let expected = "\
000002 060005 LDA 000005               A=000041
000003 002004 INA                      A=000042
000004 105777 MVW 000041 000000
000007 014100 JSB 000100
000101 100000 not built                6: the code isn't built
answer steps P A B E O
6 4 000101 000042 000000 0 0
the code isn't built
";
    assert_eq!(printed(&output), expected);
    assert_eq!(output.status.code(), Some(1));
}

#[test]
fn lists() {
    let words = [
        (0o100, 0o000000),
        (0o101, 0o001727),
        (0o102, 0o000600),
        (0o103, 0o006444),
        (0o104, 0o163777),
        (0o105, 0o105777),
        (0o106, 0o100200),
        (0o107, 0o000000),
        (0o110, 0o103201),
        (0o111, 0o107710),
        (0o112, 0o100020),
        (0o113, 0o105762),
        (0o114, 0o101724),
        (0o115, 0o001000),
    ];
    let file = image("list.img", &bytes(&words, 2));
    let output = a400(&["list", &file, "100", "115"]);
    let expected = "\
000100 000000 NOP
000101 001727 ALF,ALF
000102 000600 (ELA)
000103 006444 CLB,SEZ,INB
000104 163777 LDA 001777,I
000105 105777 MVW
000106 100200 DEF 000200,I
000107 000000 DEF 000000
000110 103201 SFC 01,C
000111 107710 CLC 10,C
000112 100020 ASL 16
000113 105762 not built
000114 101724 XLA1
000115 001000 DEF 001000
";
    assert_eq!(printed(&output), expected);
    assert_eq!(output.status.code(), Some(0));
}

#[test]
fn helps() {
    for words in [&["--help"][..], &["-h"], &["run", "--help"], &["help"]] {
        let output = a400(words);
        assert!(printed(&output).contains("a400 run IMAGE"), "{words:?}");
        assert_eq!(output.status.code(), Some(0), "{words:?}");
    }
}

#[test]
fn refuses_command_lines() {
    let file = image("usage.img", &bytes(&[], 1));
    let file = file.as_str();
    let cases: [(&[&str], &str); 14] = [
        (&[], "a command is missing"),
        (&["walk"], "no command walk"),
        (&["run"], "the image is missing"),
        (&["run", file, "--start"], "--start needs a number"),
        (&["run", file, "--start", "8"], "not an octal address"),
        (&["run", file, "--start", "100000"], "not an octal address"),
        (&["run", file, "--start", "+7"], "not an octal address"),
        (&["run", file, "--budget", "x"], "not a number of steps"),
        (&["run", file, "--budget", "1000001"], "not a number of steps"),
        (&["run", file, "--speed", "1"], "no option --speed"),
        (&["run", file, file], "one argument too many"),
        (&["list", file], "two addresses"),
        (&["list", file, "1", "9"], "not an octal address"),
        (&["list", file, "7", "6"], "not in order"),
    ];
    for (words, message) in cases {
        let output = a400(words);
        assert_eq!(output.status.code(), Some(2), "{words:?}");
        assert!(said(&output).contains(message), "{words:?}: {}", said(&output));
        assert!(output.stdout.is_empty(), "{words:?}");
    }
}

#[test]
fn refuses_images() {
    for length in [0, 1, PAGE_BYTES - 1, PAGE_BYTES + 1, 3 * PAGE_WORDS] {
        let file = image(&format!("length{length}.img"), &vec![0; length]);
        let output = a400(&["run", &file]);
        assert_eq!(output.status.code(), Some(1), "{length}");
        assert!(said(&output).contains(&format!("has {length} bytes")), "{}", said(&output));
    }
    let output = a400(&["run", "no/such/file"]);
    assert_eq!(output.status.code(), Some(1));
    assert!(said(&output).contains("cannot read no/such/file"));
    let file = image("short.img", &bytes(&[], 1));
    let output = a400(&["list", &file, "0", "2000"]);
    assert_eq!(output.status.code(), Some(1));
    assert!(said(&output).contains("ends at address 1777"));
}
