//! The five strings of the text, and texts that were changed after opening.

use differential::arguments;
use differential::cubes;
use differential::reader::at;
use differential::tally::Call;
use differential::trial::run;
use differential::STRINGS;

#[test]
fn strings_agree() {
    let trial = run(501, STRINGS.cubes, |trial, case| {
        let random = &mut trial.random;
        let description = cubes::description(random, cubes::SMALL);
        let longest = if case % 500 == 0 { 13_000 } else { random.pick(&[0, 1, 3, 20, 90]) };
        let text = cubes::text(random, longest);
        let cube = cubes::sound_of(random, description, &text, 2000);
        let record = trial.open(&cube.file).expect("a sound cube opens");
        for number in [0, 1, 2, 3, 4, 5, 6, u32::MAX] {
            let _ = trial.string(&record, &cube.file, number);
        }
        let hostile = arguments::record(&mut trial.random, &record);
        let _ = trial.string(&hostile, &cube.file, 0);
        let mut file = cube.file;
        let byte = at::TEXT + trial.random.below(text.len());
        file[byte] = trial.random.pick(&[0, 0, 65]);
        for number in [0, 4, 5] {
            let _ = trial.string(&record, &file, number);
        }
        let _ = trial.string(&record, &file[1..], 0);
    });
    trial.assert_met(STRINGS, &[Call::String], 100);
}
