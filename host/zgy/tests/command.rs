//! The command, run as a person runs it. Expected bytes and greys are counted by hand from the format.

use std::fs;
use std::path::{Path, PathBuf};
use std::process::{Command, Output};

/// int8, side 4, size (3, 4, 2): one brick of 64 bytes, at the first multiple of 64 after headers of 2,431 bytes.
const FIRST: usize = 2432;

/// A folder of its own for each test.
fn folder(name: &str) -> PathBuf {
    let path = Path::new(env!("CARGO_TARGET_TMPDIR")).join(name);
    let _ = fs::remove_dir_all(&path);
    fs::create_dir_all(&path).unwrap();
    path
}

fn zgy(folder: &Path, arguments: &[&str]) -> Output {
    Command::new(env!("CARGO_BIN_EXE_zgy")).args(arguments).current_dir(folder).output().unwrap()
}

/// What a call that succeeds writes.
fn said(folder: &Path, arguments: &[&str]) -> String {
    let output = zgy(folder, arguments);
    assert!(output.status.success(), "{arguments:?}: {}", String::from_utf8_lossy(&output.stderr));
    String::from_utf8(output.stdout).unwrap()
}

/// Exactly one line on standard error, nothing on standard output, and this status.
fn fails(folder: &Path, arguments: &[&str], status: i32, line: &str) {
    let output = zgy(folder, arguments);
    assert_eq!(output.status.code(), Some(status), "{arguments:?}");
    assert_eq!(String::from_utf8(output.stderr).unwrap(), format!("zgy: {line}\n"), "{arguments:?}");
    assert!(output.stdout.is_empty(), "{arguments:?}");
}

fn make(folder: &Path, name: &str, more: &[&str]) {
    let arguments = ["make", name, "--size", "3,4,2", "--side", "4,4,4", "--type", "int8", "--range", "-1280,1270"];
    said(folder, &[&arguments[..], more].concat());
}

/// A stored cube whose sample (i, j, k) is 10 i + j + 100 k - 128.
fn sampled(folder: &Path) {
    make(folder, "cube.zgy", &["--stored", "--orig", "100,200,-4", "--inc", "1,2,4"]);
    let mut file = fs::read(folder.join("cube.zgy")).unwrap();
    for i in 0..3 {
        for j in 0..4 {
            for k in 0..2 {
                file[FIRST + (i * 4 + j) * 4 + k] = ((10 * i + j + 100 * k) as u8).wrapping_sub(128);
            }
        }
    }
    fs::write(folder.join("cube.zgy"), file).unwrap();
}

#[test]
fn a_made_cube_is_the_worked_one() {
    let folder = folder("made");
    make(&folder, "cube.zgy", &[]);
    let info = said(&folder, &["info", "cube.zgy"]);
    for line in ["version 3", "brick 4 4 4", "size 3 4 2", "levels 1", "bricks 1", "header 2431", "entry 0 constant 0"] {
        assert!(info.lines().any(|said| said == line), "{line} in:\n{info}");
    }
    assert_eq!(fs::metadata(folder.join("cube.zgy")).unwrap().len(), 2431);
}

#[test]
fn info_shows_strings_ranges_and_bricks() {
    let folder = folder("info");
    make(&folder, "cube.zgy", &["--stored", "--orig", "100,200,-4", "--inc", "1,2,4", "--string", "field", "--string", "m"]);
    let info = said(&folder, &["info", "cube.zgy"]);
    let lines = ["type 0 (int8)", "range -1280 to 1270", "inline 100 to 102 by 1", "crossline 200 to 206 by 2", "vertical -4 to 0 by 4"];
    let strings = ["string 0 field", "string 1 m", "string 2 ", "string 4 ", "kinds 1 stored, 0 constant, 0 missing"];
    for line in lines.iter().chain(&strings) {
        assert!(info.lines().any(|said| said == *line), "{line} in:\n{info}");
    }
    // The text is six bytes longer than five zeros, so the brick starts 64 bytes later.
    assert!(info.ends_with("entry 0 stored 2496\n"), "{info}");
    assert!(!said(&folder, &["info", "cube.zgy", "--brief"]).contains("entry"));
}

#[test]
fn a_trace_has_positions_and_scaled_samples() {
    let folder = folder("trace");
    sampled(&folder);
    // Storage -127 + 12 and + 100 more: a step is 10, from -1280 at -128.
    assert_eq!(said(&folder, &["trace", "cube.zgy", "1", "3"]), "0 -4 -1150\n1 0 -150\n");
}

#[test]
fn sections_are_grey_images() {
    let folder = folder("section");
    sampled(&folder);
    let image = |arguments: &[&str]| {
        let output = [&["section", "cube.zgy", "-o", "out.pgm"], arguments].concat();
        assert_eq!(said(&folder, &output), "");
        fs::read(folder.join("out.pgm")).unwrap()
    };
    // By the coding range a grey is the storage value + 128. Traces run downwards; a slice has its inlines as rows.
    assert_eq!(image(&["--inline", "2"]), b"P5\n4 2\n255\n\x14\x15\x16\x17\x78\x79\x7a\x7b");
    assert_eq!(image(&["--crossline", "1"]), b"P5\n3 2\n255\n\x01\x0b\x15\x65\x6f\x79");
    assert_eq!(image(&["--slice", "0"]), b"P5\n4 3\n255\n\x00\x01\x02\x03\x0a\x0b\x0c\x0d\x14\x15\x16\x17");
    // By its own range, 100 wide from -1270 on: the ends are black and white.
    let own = image(&["--crossline", "1", "--own-range"]);
    assert_eq!((own[11], own[16]), (0, 255));
}

#[test]
fn float_sections_use_their_own_range() {
    let folder = folder("float");
    said(&folder, &["make", "cube.zgy", "--size", "1,2,2", "--side", "4,4,4", "--type", "float32", "--stored"]);
    let mut file = fs::read(folder.join("cube.zgy")).unwrap();
    let first = file.len() - 256;
    for (item, sample) in [(0, -3.0f32), (1, f32::NAN), (4, 1.0), (5, -1.0)] {
        file[first + item * 4..][..4].copy_from_slice(&sample.to_le_bytes());
    }
    fs::write(folder.join("cube.zgy"), file).unwrap();
    said(&folder, &["section", "cube.zgy", "--inline", "0", "-o", "out.pgm"]);
    // -3 is black, 1 white, -1 half way; the NaN is black.
    assert_eq!(fs::read(folder.join("out.pgm")).unwrap(), b"P5\n2 2\n255\n\x00\xff\x00\x80");
}

#[test]
fn lower_levels_are_shown_at_their_extent() {
    let folder = folder("levels");
    said(&folder, &["make", "cube.zgy", "--size", "9,4,4", "--side", "4,4,4", "--type", "int16", "--range", "0,1"]);
    said(&folder, &["section", "cube.zgy", "--slice", "0", "--level", "1", "-o", "out.pgm"]);
    assert!(fs::read(folder.join("out.pgm")).unwrap().starts_with(b"P5\n2 5\n255\n"));
}

#[test]
fn refusals_are_one_line_and_status_1() {
    let folder = folder("refused");
    sampled(&folder);
    let file = fs::read(folder.join("cube.zgy")).unwrap();
    let damaged = |name: &str, at: usize, byte: u8| {
        let mut bytes = file.clone();
        bytes[at] = byte;
        fs::write(folder.join(name), bytes).unwrap();
    };
    fs::write(folder.join("empty.zgy"), []).unwrap();
    fs::write(folder.join("cut.zgy"), &file[..2430]).unwrap();
    damaged("magic.zgy", 0, b'v');
    damaged("far.zgy", 2430, 1);
    fails(&folder, &["info", "empty.zgy"], 1, "empty.zgy: refused 1: the file has fewer than 346 bytes");
    fails(&folder, &["info", "magic.zgy"], 1, "magic.zgy: refused 2: the file does not start with VBS and a zero byte");
    fails(&folder, &["info", "cut.zgy"], 1, "cut.zgy: refused 10: the file ends before its headers do");
    fails(&folder, &["info", "far.zgy"], 1, "far.zgy: refused 12: a brick of the table lies outside the file or in its headers (entry 0)");
    fails(
        &folder,
        &["section", "cube.zgy", "--inline", "0", "--level", "1", "-o", "out.pgm"],
        1,
        "cube.zgy: refused 15: there is no such level; its levels are 0 to 0",
    );
    let outside = "cube.zgy: refused 16: a count is 0, the region lies outside the extent, or there is no such dimension, index or entry; \
                   level 0 has 3 inlines, 4 crosslines and 2 samples, counted from 0";
    fails(&folder, &["trace", "cube.zgy", "3", "0"], 1, outside);
    fails(&folder, &["section", "cube.zgy", "--slice", "2", "-o", "out.pgm"], 1, outside);
    assert!(!folder.join("out.pgm").exists());
}

#[test]
fn a_refused_make_leaves_no_file_and_touches_none() {
    let folder = folder("unmade");
    let size = ["make", "new.zgy", "--type", "int8", "--range", "0,1", "--size"];
    fails(&folder, &[&size[..], &["0,1,1"]].concat(), 1, "new.zgy: refused 6: a size is below 1 or above 1,048,576");
    fails(&folder, &[&size[..], &["1048576,1048576,1"]].concat(), 1, "new.zgy: refused 8: there are over 16,384 bricks in all levels");
    let six = [&size[..], &["1,1,1"], &["--string", "a"].repeat(6)].concat();
    fails(&folder, &six, 1, "new.zgy: refused 11: the text is not exactly five strings, each ended by a zero byte");
    assert!(!folder.join("new.zgy").exists());
    fs::write(folder.join("new.zgy"), b"kept").unwrap();
    let output = zgy(&folder, &[&size[..], &["1,1,1"]].concat());
    assert_eq!(output.status.code(), Some(1));
    assert_eq!(fs::read(folder.join("new.zgy")).unwrap(), b"kept");
}

#[test]
fn a_wrong_command_line_is_status_2() {
    let folder = folder("usage");
    fails(&folder, &["look"], 2, "there is no command 'look': info, section, trace, make or help");
    fails(&folder, &["trace", "cube.zgy", "1", "-1"], 2, "'-1' is not a number from 0 to 4,294,967,295");
    fails(&folder, &["info", "cube.zgy", "more"], 2, "'more' does not belong here: see `zgy help`");
    fails(&folder, &["section", "cube.zgy", "-o", "out.pgm"], 2, "exactly one of --inline N, --crossline N and --slice N is needed");
    fails(&folder, &["make", "cube.zgy", "--size", "1,2", "--type", "int8"], 2, "--size: 3 values are needed, 2 are given");
    assert!(said(&folder, &["help"]).starts_with("zgy info FILE"));
}
