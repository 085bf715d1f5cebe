//! `zgy trace`: the samples of one trace with their positions.

use crate::arguments::Arguments;
use crate::cube_file::CubeFile;
use crate::failure::{print, Failure};
use zgy::Region;

pub fn run(mut arguments: Arguments) -> Result<(), Failure> {
    let path = arguments.path()?;
    let (inline, crossline) = (arguments.number()?, arguments.number()?);
    arguments.finish()?;
    let file = CubeFile::open(&path)?;
    let samples = file.cube.description.size[2];
    let mut trace = vec![0.0; samples as usize];
    let region = Region { level: 0, start: [inline, crossline, 0], count: [1, 1, samples] };
    file.cube.read_float(&mut trace, &file.bytes, region).map_err(|refusal| file.refused_region(refusal, 0))?;
    for (k, sample) in trace.iter().enumerate() {
        let position = file.cube.position(2, k as u32).map_err(|refusal| file.refused(refusal))?;
        print(format_args!("{k} {position} {sample}"))?;
    }
    Ok(())
}
