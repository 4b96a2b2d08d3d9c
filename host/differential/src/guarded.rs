//! A buffer between guard bytes, and beside it the image that the model keeps of it.

use crate::random::Random;

const GUARD: usize = 128;

pub struct Guarded {
    bytes: Vec<u8>,
    image: Vec<u8>,
}

impl Guarded {
    /// A buffer of this content. The guards are random, so that no constant write can hide there.
    pub fn new(content: &[u8], random: &mut Random) -> Guarded {
        let bytes = [random.bytes(GUARD), content.to_vec(), random.bytes(GUARD)].concat();
        Guarded { image: bytes.clone(), bytes }
    }

    pub fn size(&self) -> u64 {
        (self.bytes.len() - 2 * GUARD) as u64
    }

    /// The buffer, for the library.
    pub fn buffer(&mut self) -> &mut [u8] {
        let end = self.bytes.len() - GUARD;
        &mut self.bytes[GUARD..end]
    }

    /// The buffer as it should be, for the model.
    pub fn image(&mut self) -> &mut [u8] {
        let end = self.image.len() - GUARD;
        &mut self.image[GUARD..end]
    }

    /// Whether every byte, guards included, is the image's.
    pub fn agrees(&self) -> bool {
        self.bytes == self.image
    }
}
