//! The command `refal` as an author meets it: outputs, words and exit statuses.
use std::fs;
use std::io::Write;
use std::path::PathBuf;
use std::process::{Command, Output, Stdio};

const EXAMPLES: [&str; 6] = ["worked", "removed", "cascade", "undecided", "uncovered", "dispatch"];

/// The example's file, from the repository's root.
fn example(name: &str, ending: &str) -> String {
    format!("examples/{name}.{ending}")
}

/// A file of this test's own.
fn own(name: &str) -> PathBuf {
    PathBuf::from(env!("CARGO_TARGET_TMPDIR")).join(name)
}

fn command(words: &[&str]) -> Command {
    let mut command = Command::new(env!("CARGO_BIN_EXE_refal"));
    command.args(words).current_dir(concat!(env!("CARGO_MANIFEST_DIR"), "/../.."));
    command
}

fn refal(words: &[&str]) -> Output {
    command(words).stdin(Stdio::null()).output().expect("the command")
}

/// The command with bytes on its standard input.
fn fed(words: &[&str], bytes: &[u8]) -> Output {
    let mut child =
        command(words).stdin(Stdio::piped()).stdout(Stdio::piped()).stderr(Stdio::piped()).spawn().expect("a process");
    child.stdin.take().expect("its input").write_all(bytes).expect("it reads");
    child.wait_with_output().expect("the command")
}

fn stored(path: &str) -> Vec<u8> {
    fs::read(PathBuf::from(concat!(env!("CARGO_MANIFEST_DIR"), "/../..")).join(path)).expect("a file of the repository")
}

fn text(bytes: &[u8]) -> &str {
    std::str::from_utf8(bytes).expect("text")
}

fn done(output: Output) -> Vec<u8> {
    assert_eq!(output.status.code(), Some(0), "{}", text(&output.stderr));
    output.stdout
}

/// What a refused command says.
fn said(output: Output, status: i32) -> String {
    assert_eq!(output.status.code(), Some(status), "{}{}", text(&output.stdout), text(&output.stderr));
    assert!(output.stdout.is_empty(), "nothing is printed beside an error");
    text(&output.stderr).to_owned()
}

#[test]
fn examples_are_encoded_cleaned_and_reported_as_stored() {
    for name in EXAMPLES {
        assert_eq!(done(refal(&["encode", &example(name, "ref")])), stored(&example(name, "image")), "{name}");
        let report = stored(&example(name, "report"));
        assert_eq!(done(refal(&["clean", &example(name, "image")])), report, "{name}");
        assert_eq!(done(fed(&["clean"], &stored(&example(name, "ref")))), report, "{name}");
    }
}

#[test]
fn a_cleaned_image_comes_back() {
    let out = own("cleaned.image");
    let place = out.to_str().expect("a plain path");
    done(refal(&["clean", &example("cascade", "image"), place]));
    let cleaned = fs::read(&out).expect("the cleaned image");
    assert_eq!(done(refal(&["clean", &example("cascade", "image"), "-"])), cleaned);
    let decoded = text(&done(refal(&["decode", place]))).to_owned();
    assert!(decoded.contains("Morning = <Light Warm>;") && !decoded.contains("Night"), "{decoded}");
    assert!(text(&done(refal(&["check", place]))).contains("accepted: 287 bytes, 4 functions, 4 sentences; root: Go"));
}

#[test]
fn a_text_goes_to_an_image_and_back() {
    let image = done(refal(&["encode", &example("removed", "ref")]));
    let laid_out = done(fed(&["decode"], &image));
    let again = done(fed(&["encode"], &laid_out));
    assert_eq!(done(fed(&["decode"], &again)), laid_out);
}

#[test]
fn long_images_and_long_reports_are_no_trouble() {
    let calls: String = (0..100).map(|number| format!("<F {number}> ")).collect();
    let sentences: String = (0..100).map(|number| format!("'{number}' = ;\n")).collect();
    let program = format!("Go {{ = {calls}; }} F {{ {sentences} s.X = ; }} Z {{ = '{}'; }}", "x".repeat(2000));
    let report = done(fed(&["clean"], program.as_bytes()));
    assert!(report.len() > 32_768, "{} bytes", report.len());
    assert!(text(&report).ends_with("graph: perfect\n"));
}

#[test]
fn what_goes_is_shown_with_its_lines() {
    let shown = "@@ Scene, sentence 2, line 11 @@\n-Night = <Light Cold>;\n";
    assert!(text(&done(refal(&["diff", &example("cascade", "ref")]))).contains(shown));
    let with_source = refal(&["diff", "--source", &example("cascade", "ref"), &example("cascade", "image")]);
    assert!(text(&done(with_source)).contains(shown));
    let alone = done(refal(&["diff", &example("cascade", "image")]));
    assert!(text(&alone).contains("@@ Scene, sentence 2, source bytes 336 to 356 @@\n-Night"), "{}", text(&alone));
    assert_eq!(refal(&["diff", "--strict", &example("cascade", "ref")]).status.code(), Some(4));
    assert_eq!(done(refal(&["diff", "--strict", &example("dispatch", "ref")])), b"");
}

#[test]
fn an_expression_that_meets_both_is_printed() {
    assert_eq!(text(&done(refal(&["witness", &example("worked", "image"), "2", "2"]))), "()\n");
    assert!(text(&done(refal(&["witness", &example("worked", "image"), "1", "2"]))).starts_with("Disjoint"));
    assert!(said(refal(&["witness", &example("worked", "image"), "1"]), 2).contains("usage: refal witness"));
}

#[test]
fn sentences_are_listed_and_compared() {
    let listed = done(refal(&["overlap", &example("worked", "ref")]));
    assert!(text(&listed).contains("    2  F {(e.Z)}    line 2\n"), "{}", text(&listed));
    assert!(text(&done(refal(&["overlap", &example("worked", "image"), "1", "2"])))
        .starts_with("Disjoint, spent 1 of 4096"));
    assert!(
        said(refal(&["overlap", &example("worked", "image"), "1", "3"]), 1).contains("refused 13: a sentence number")
    );
    assert!(said(refal(&["overlap", &example("worked", "image"), "1"]), 2).contains("usage: refal overlap"));
}

#[test]
fn a_refusal_is_explained_with_its_place() {
    let mut image = stored(&example("worked", "image"));
    image[10] = 0;
    let words = said(fed(&["check"], &image), 1);
    assert!(words.contains("refused 6: a name or number that is empty") && words.contains("^^ byte 10"), "{words}");
    let damaged = own("damaged.image");
    fs::write(&damaged, &image).expect("a file");
    let explained = done(refal(&["explain", "6", "10", damaged.to_str().expect("a plain path")]));
    assert!(text(&explained).contains("what to do:") && text(&explained).contains("^^ byte 10, 0 in decimal"));
    assert!(said(refal(&["explain", "99"]), 2).contains("no refusal has the number 99: they go from 1 to 17"));
}

#[test]
fn pictures_are_drawn() {
    let svg = done(refal(&["graph", "--svg", &example("cascade", "ref")]));
    assert!(text(&svg).starts_with("<svg ") && text(&svg).contains("Night ="));
    let dot = done(refal(&["graph", &example("cascade", "image")]));
    assert!(
        text(&dot).starts_with("digraph program {") && text(&dot).contains("f0:r1 -> f1:r0 [style=solid];"),
        "{}",
        text(&dot)
    );
}

#[test]
fn warnings_refuse_nothing_unless_asked() {
    let program = b"Go { = <Luod>; }\nLoad { = ; }\n";
    let output = fed(&["lint"], program);
    assert_eq!(output.status.code(), Some(0));
    let expected = "standard input:1:8: warning: in Go: `Luod` is neither defined nor declared; did you mean `Load`?\n";
    assert_eq!(text(&output.stdout), expected);
    assert_eq!(fed(&["lint", "--strict"], program).status.code(), Some(4));
    for name in EXAMPLES.iter().filter(|name| **name != "removed") {
        assert_eq!(done(refal(&["lint", "--strict", &example(name, "ref")])), b"", "{name}");
    }
    let covered =
        "examples/removed.ref:13:3: warning: in Move: an earlier sentence takes all that comes here: `(e.Move) 2`\n";
    assert_eq!(text(&done(refal(&["lint", &example("removed", "ref")]))), covered);
}

#[test]
fn wrong_use_is_answered_in_words() {
    assert!(said(refal(&[]), 2).contains("a command is missing"));
    assert!(said(refal(&["polish"]), 2).contains("there is no command `polish`"));
    assert!(said(refal(&["clean", "--fast"]), 2).contains("there is no option --fast"));
    assert!(said(refal(&["clean", "nowhere.image"]), 3).contains("cannot read nowhere.image"));
    assert!(said(refal(&["encode", &example("worked", "image")]), 1).contains("is an image already"));
    assert!(said(refal(&["decode", &example("worked", "ref")]), 1).contains("is text and no image"));
    assert!(said(fed(&["check"], b""), 1).contains("refused 1: an image shorter than 12 bytes"));
    let wrong = said(fed(&["check"], b"F {\n  (<G>) = ;\n}\n"), 1);
    assert!(
        wrong.contains("line 2, column 4: a call or a block cannot stand in a pattern\n      (<G>) = ;\n       ^"),
        "{wrong}"
    );
    assert!(text(&done(refal(&["--help"]))).contains("refal clean [IN] [OUT]"));
    let other = refal(&["diff", "--source", &example("worked", "ref"), &example("cascade", "image")]);
    assert!(said(other, 2).contains("examples/worked.ref is not the text of this image"));
    assert_eq!(done(refal(&["--version"])), concat!("refal ", env!("CARGO_PKG_VERSION"), "\n").as_bytes());
    assert!(text(&done(refal(&["diff", "--help"]))).contains("status: 0 done"));
}

#[test]
fn no_text_is_written_over_by_its_image() {
    let path = own("kept.ref");
    let name = path.to_str().expect("a plain path");
    for command in ["encode", "clean", "graph"] {
        fs::write(&path, "F { }").expect("a file");
        assert!(said(refal(&[command, name, name]), 2).contains("would be lost"), "{command}");
        assert_eq!(fs::read(&path).expect("the text"), b"F { }");
    }
    done(refal(&["encode", name, own("kept.image").to_str().expect("a plain path")]));
    let image = own("kept.image");
    done(refal(&["clean", image.to_str().expect("a plain path"), image.to_str().expect("a plain path")]));
}

#[test]
fn a_full_medium_is_told() {
    let words = said(refal(&["encode", &example("worked", "ref"), "/dev/full"]), 3);
    assert!(words.contains("cannot write /dev/full: No space left"), "{words}");
}
