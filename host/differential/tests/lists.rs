//! Lists of region calls on one cube, against the ledger of FORMAT 12.4: every taken read gives exactly what the ledger gives.

use differential::arguments;
use differential::cubes::{self, any_limits, Sound};
use differential::ledger::Ledger;
use differential::reader::{self, Entry};
use differential::tally::Call;
use differential::trial::{run, Trial};
use differential::LISTS;
use zgy::{Record, Region};

/// One region call of a random sort, told to the ledger as FORMAT says: its arguments, and whether it was refused.
fn one_call(trial: &mut Trial, good: &Record, file: &mut Vec<u8>, ledger: &mut Ledger) {
    let random = &mut trial.random;
    let region = arguments::region(random, good);
    let width = reader::item_bytes(good.description.datatype);
    let samples = reader::samples(region);
    match random.below(4) {
        0 => {
            let room = arguments::room(random, samples * width as u128);
            if let Ok(raw) = trial.read_raw(good, file, region, room) {
                assert_eq!(raw, ledger.raw(region), "raw read of {region:?}");
            }
        }
        1 => {
            let room = arguments::room(random, samples);
            if let Ok(floats) = trial.read_float(good, file, region, room) {
                assert_eq!(floats, ledger.floats(region), "float read of {region:?}");
            }
        }
        _ => {
            let room = arguments::room(random, samples * width as u128);
            let input = random.bytes(room);
            if trial.write(good, file, region, &input).is_ok() {
                ledger.wrote(region, &input);
            }
        }
    }
}

/// Calls with a hostile record. They are made where it is not sound, so that they are refused: the ledger hears of nothing.
fn hostile_call(trial: &mut Trial, good: &Record, file: &[u8]) {
    let change = trial.random.below(arguments::CHANGES.len() - 1);
    let record = arguments::changed(&mut trial.random, good, change);
    let region = arguments::region_inside(&mut trial.random, good);
    if reader::judge_record(&record, Some(file)).is_err() {
        let mut lent = file.to_vec();
        let input = trial.random.bytes(64);
        assert!(trial.write(&record, &mut lent, region, &input).is_err());
        assert!(trial.read_raw(&record, &lent, region, 64).is_err());
        assert_eq!(lent, file, "a refused call changes nothing");
    }
}

fn assert_whole_levels(trial: &mut Trial, record: &Record, file: &[u8], ledger: &Ledger) {
    for whole in ledger.whole_levels() {
        let samples = reader::samples(whole) as usize;
        assert_eq!(trial.read_raw(record, file, whole, 4 * samples).as_ref(), Ok(&ledger.raw(whole)));
        assert_eq!(trial.read_float(record, file, whole, samples).as_ref(), Ok(&ledger.floats(whole)));
    }
}

/// Which bytes of the file belong to sample places within the extents: all others are headers, padding and gaps.
fn sample_bytes(cube: &Sound) -> Vec<bool> {
    let description = &cube.record.description;
    let mut owned = vec![false; cube.file.len()];
    for (number, level) in reader::levels(description).iter().enumerate() {
        for at in reader::places(reader::whole(number, level)) {
            let (entry, item) = reader::place(description, level, at);
            if let Entry::Stored(offset) = reader::entry_at(&cube.file, &cube.record, entry) {
                owned[reader::sample_bytes(description, offset, item)].fill(true);
            }
        }
    }
    owned
}

fn assert_others_unchanged(cube: &Sound, after: &[u8]) {
    let owned = sample_bytes(cube);
    for (n, owned) in owned.into_iter().enumerate() {
        assert!(owned || after[n] == cube.file[n], "byte {n}, of no sample, has changed");
    }
}

fn list(trial: &mut Trial, cube: &Sound, calls: u64) {
    let record = trial.open(&cube.file).expect("a sound cube opens");
    let mut ledger = Ledger::new(&cube.file, &record);
    let mut file = cube.file.clone();
    for _ in 0..calls {
        one_call(trial, &record, &mut file, &mut ledger);
        if trial.random.one_in(8) {
            hostile_call(trial, &record, &file);
        }
    }
    assert_whole_levels(trial, &record, &file, &ledger);
    assert_others_unchanged(cube, &file);
    let again = trial.open(&file).expect("an edited cube opens");
    assert_eq!(reader::by_bits(&again), reader::by_bits(&record), "writes keep the record");
}

#[test]
fn lists_of_calls_follow_the_ledger() {
    let trial = run(901, LISTS.cubes, |trial, case| {
        let limits = if case % 1000 == 0 { cubes::BIG } else { any_limits(&mut trial.random) };
        let cube = cubes::sound(&mut trial.random, limits);
        let calls = if cube.file.len() > 200_000 { 8 } else { LISTS.calls / LISTS.cubes + 1 };
        list(trial, &cube, calls);
    });
    // No read or write of an opened cube is refused by 12.
    trial.assert_met(LISTS, &[], 0);
    trial.assert_numbers_met(&[Call::ReadRaw, Call::ReadFloat], &[0, 15, 16, 18], 100);
    trial.assert_numbers_met(&[Call::Write], &[0, 14, 15, 16, 18, 19], 100);
}

/// Long lists of mostly taken writes on cubes whose bricks are all stored: later writes fall onto earlier ones.
#[test]
fn long_lists_on_stored_cubes() {
    run(902, 60, |trial, _| {
        let description = cubes::description(&mut trial.random, cubes::SMALL);
        let cube = cubes::all_stored(&mut trial.random, description);
        list(trial, &cube, 300);
    });
}

/// A write that crosses into a brick which is not stored changes nothing, not even in the stored bricks before it.
#[test]
fn a_refused_write_is_refused_whole() {
    run(903, 500, |trial, _| {
        let description = zgy::Description { side: [4; 3], size: [8; 3], range: [0, 1], ..Default::default() };
        let cube = cubes::all_stored(&mut trial.random, description);
        let mut file = cube.file;
        // Entry 0 is the brick of level 1, which this write does not touch.
        let last = trial.random.pick(&[8, 8, 7, 4, 2]);
        let value = trial.random.pick(&[0, 1, 1 << 63, 5]);
        reader::put(&mut file, reader::entry_offset(&cube.record, last), &u64::to_le_bytes(value));
        let whole = Region { level: 0, start: [0; 3], count: [8; 3] };
        let input = trial.random.bytes(512);
        let refusal = trial.write(&cube.record, &mut file, whole, &input).unwrap_err();
        assert_eq!((refusal.number, refusal.entry), (if value == 5 { 12 } else { 19 }, last));
    });
}
