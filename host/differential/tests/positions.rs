//! Positions, by bits: orig + index x inc, one product and one sum of 64-bit floats.

use differential::cubes;
use differential::tally::Call;
use differential::trial::run;
use differential::POSITIONS;
use zgy::Description;

#[test]
fn positions_agree() {
    let trial = run(401, POSITIONS.cubes, |trial, _| {
        let random = &mut trial.random;
        let mut description = cubes::description(random, cubes::SMALL);
        description.side = [64; 3];
        description.size[random.below(3)] = random.pick(&[1, 1000, 65_536, 250_001, 524_288]);
        let cube = cubes::sound_of(random, description, &[0; 5], 0);
        let record = trial.open(&cube.file).expect("a sound cube opens");
        for dimension in 0..3 {
            let size = description.size[dimension as usize];
            let inside = trial.random.below(size as usize) as u32;
            for index in [0, inside, size - 1, size] {
                let _ = trial.position(&record, dimension, index);
            }
        }
        let (no_dimension, any) = (trial.random.pick(&[3, 4, u32::MAX, 1 << 31]), trial.random.between(0, 2));
        let _ = trial.position(&record, no_dimension, 0);
        let _ = trial.position(&record, any, u32::MAX);
        let mut hostile = record;
        hostile.grid.inc[0] = -hostile.grid.inc[0];
        let _ = trial.position(&hostile, 0, 0);
    });
    trial.assert_met(POSITIONS, &[Call::Position], 1000);
}

#[test]
fn worked_number_12() {
    run(402, 1, |trial, _| {
        let orig = [16_777_216.0f32.to_bits(); 3];
        let description = Description { orig, size: [4; 3], range: [0, 1], ..Description::default() };
        let cube = cubes::all_stored(&mut trial.random, description);
        for dimension in 0..3 {
            assert_eq!(trial.position(&cube.record, dimension, 3), Ok(16_777_219.0));
        }
    });
}
