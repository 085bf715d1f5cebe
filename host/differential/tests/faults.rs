//! Lent memory ends where it is said to end. Every test that runs a trial lends its buffers at the edge of a page that nobody
//! may touch, so a read or write outside of a slice ends it. Here: the page does guard, and empty slices.

use differential::cubes;
use differential::guard::{Area, Edge};
use differential::reader::Way;
use differential::trial::run;
use std::hint::black_box;
use std::os::unix::process::ExitStatusExt;
use std::process::Command;
use zgy::{Description, Fill, Region};

const SIGSEGV: i32 = 11;

/// Runs one of the ignored tests below in a process of its own and answers the signal that ended it, and what it said.
fn outcome_of(test: &str) -> (Option<i32>, String) {
    let mut command = Command::new(std::env::current_exe().unwrap());
    let output = command.args([test, "--exact", "--ignored"]).env_remove("ZGY_CASE").output().unwrap();
    (output.status.signal(), String::from_utf8_lossy(&output.stderr).into_owned())
}

#[test]
fn the_pages_guard() {
    assert_eq!(outcome_of("reads_before_the_first_byte").0, Some(SIGSEGV));
    assert_eq!(outcome_of("reads_after_the_last_byte").0, Some(SIGSEGV));
    assert_eq!(outcome_of("touches_nothing_outside").0, None);
}

#[test]
fn a_fault_says_its_case() {
    let (signal, said) = outcome_of("faults_in_a_case");
    assert_eq!(signal, Some(SIGSEGV));
    assert!(said.contains("seed 1003, case 20\n"), "{said}");
}

#[test]
#[ignore = "ends its process; a_fault_says_its_case runs it"]
fn faults_in_a_case() {
    run(1003, 30, |_, case| read_beside(Edge::Back, if case == 20 { 3 } else { 2 }));
}

fn read_beside(edge: Edge, from_start: isize) {
    let mut area = Area::new();
    let lent = area.lend(&[1, 2, 3], edge);
    black_box(unsafe { lent.as_ptr().offset(from_start).read_volatile() });
}

#[test]
#[ignore = "ends its process; the_pages_guard runs it"]
fn reads_before_the_first_byte() {
    read_beside(Edge::Front, -1);
}

#[test]
#[ignore = "ends its process; the_pages_guard runs it"]
fn reads_after_the_last_byte() {
    read_beside(Edge::Back, 3);
}

#[test]
#[ignore = "the_pages_guard runs it"]
fn touches_nothing_outside() {
    for edge in [Edge::Front, Edge::Back] {
        read_beside(edge, 0);
        read_beside(edge, 2);
    }
}

/// Every buffer empty, one after the other and all at once: behind the back edge not even the first byte may be touched.
#[test]
fn empty_slices() {
    run(1001, 300, |trial, _| {
        let cube = cubes::sound(&mut trial.random, cubes::SMALL);
        let (record, mut file) = (cube.record, cube.file);
        let one = Region { level: 0, start: [0; 3], count: [1; 3] };
        assert!(trial.open(&[]).is_err());
        for entry in 0..record.bricks {
            let _ = trial.brick_view(&record, &file, &[], entry);
        }
        let _ = trial.read_raw(&record, &file, one, 0);
        let _ = trial.read_float(&record, &file, one, 0);
        let _ = trial.write(&record, &mut file, one, &[]);
        let _ = trial.write(&record, &mut Vec::new(), one, &[]);
        let _ = trial.brick_kind(&record, &[], 0);
        let _ = trial.brick_view(&record, &[], &[], 0);
        let _ = trial.read_raw(&record, &[], one, 0);
        let _ = trial.read_float(&record, &[], one, 0);
        let _ = trial.make(&record.description, &[], Fill::Stored, 0);
        let _ = trial.make(&record.description, &[0; 5], Fill::Constant, 0);
        for way in [Way::ToPlain, Way::ToSubtiled] {
            let _ = trial.permute(&[], [8, 8, 4], 1, way, 0);
            let _ = trial.permute(&[], [8, 8, 4], 1, way, 256);
            let _ = trial.permute(&[0; 256], [8, 8, 4], 1, way, 0);
        }
    });
}

/// A brick that ends with the file, and buffers of exactly the region: copies in wide steps would leave the slices.
#[test]
fn exact_slices() {
    run(1002, 3, |trial, case| {
        let datatype = [0, 2, 6][case as usize];
        let width = [1, 2, 4][case as usize];
        let description = Description { side: [4, 4, 64], size: [4, 4, 64], datatype, range: [0, 1], ..Description::default() };
        let cube = cubes::all_stored(&mut trial.random, description);
        let mut file = cube.file;
        for start in 0..64 {
            for count in 1..=64 - start {
                let last = Region { level: 0, start: [3, 3, start], count: [1, 1, count] };
                let bytes = width * count as usize;
                for _ in 0..2 {
                    trial.read_raw(&cube.record, &file, last, bytes).unwrap();
                    trial.read_float(&cube.record, &file, last, count as usize).unwrap();
                    let input = trial.random.bytes(bytes);
                    trial.write(&cube.record, &mut file, last, &input).unwrap();
                }
            }
        }
    });
}
