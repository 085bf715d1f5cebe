//! A file that opened as a cube.

use crate::failure::Failure;
use crate::mapped::Mapped;
use std::path::{Path, PathBuf};
use zgy::{Cube, Record, Refusal};

pub struct CubeFile {
    path: PathBuf,
    pub bytes: Mapped,
    pub cube: Record,
}

impl CubeFile {
    pub fn open(path: &Path) -> Result<Self, Failure> {
        let bytes = Mapped::open(path).map_err(|error| Failure::of(path, error))?;
        let cube = Cube::open(&bytes).map_err(|refusal| Failure::of(path, refusal))?;
        Ok(CubeFile { path: path.into(), bytes, cube })
    }

    pub fn refused(&self, refusal: Refusal) -> Failure {
        Failure::of(&self.path, refusal)
    }

    pub fn refused_region(&self, refusal: Refusal, level: u32) -> Failure {
        Failure::of_region(&self.path, refusal, &self.cube, level)
    }
}
