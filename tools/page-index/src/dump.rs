//! A file that is looked at.
use crate::failure::Failure;
use crate::reading::{not_zero, Block, Shape};
use page_index::mapped::MappedFile;
use std::fmt::Display;

/// The words of a file, its bytes, and the name by which it is told.
pub struct Dump<'a> {
    pub path: &'a str,
    pub words: &'a [u64],
    pub bytes: &'a [u8],
}

impl<'a> Dump<'a> {
    pub fn of(path: &'a str, file: &'a MappedFile) -> Dump<'a> {
        Dump { path, words: file, bytes: file.bytes() }
    }

    /// What word 0 says, or why the file is no index.
    pub fn shape(&self) -> Result<Shape, Failure> {
        Shape::read(self.words).map_err(|damage| self.damaged(damage))
    }

    /// The shape and the blocks, or why the file is damaged.
    pub fn read(&self) -> Result<(Shape, Vec<Block>), Failure> {
        let shape = self.shape()?;
        let blocks = shape.blocks(self.words).map_err(|damage| self.damaged(damage))?;
        Ok((shape, blocks))
    }

    /// Whether word 0 is 0 and others are not: an index may be there.
    pub fn has_lost_word_0(&self) -> bool {
        self.words.first() == Some(&0) && not_zero(self.words) > 0
    }

    pub fn damaged(&self, why: impl Display) -> Failure {
        Failure::damaged(self.path, why)
    }
}
