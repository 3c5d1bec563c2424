//! Stands below shrev's `storage`, where it can read what the crate keeps private. It only looks.

use super::ReaderId;
use crate::EventChannel;

impl<T: 'static> EventChannel<T> {
    /// How many slots the ring goes round in at present.
    pub fn size_now(&self) -> usize {
        self.storage.last_index.size
    }

    /// Room before the oldest event that this reader hasn't read. Collects no dropped ids.
    pub fn room_before(&mut self, id: &ReaderId<T>) -> usize {
        let ring = &mut self.storage;
        let reader = ring.meta.readers[id.id].get_mut();
        reader.distance_from(ring.last_index, ring.generation.0)
    }
}

impl<T: 'static> ReaderId<T> {
    /// The number under which the registry holds this reader.
    pub fn number(&self) -> usize {
        self.id
    }
}
