//! Added inside the copy of `storage.rs`, so that the programs see what the crate keeps private.
//! It only looks, except for `set_generation`, and for `room`, which collects dropped ids as a write would.
use super::{CircularIndex, ReaderId};
use crate::EventChannel;
use std::num::Wrapping;

pub fn size<T>(c: &EventChannel<T>) -> usize {
    c.storage.last_index.size
}

pub fn last<T>(c: &EventChannel<T>) -> usize {
    c.storage.last_index.index
}

pub fn available<T>(c: &EventChannel<T>) -> usize {
    c.storage.available
}

pub fn generation<T>(c: &EventChannel<T>) -> usize {
    c.storage.generation.0
}

pub fn set_generation<T>(c: &mut EventChannel<T>, generation: usize) {
    c.storage.generation = Wrapping(generation);
}

pub fn number<T>(id: &ReaderId<T>) -> usize {
    id.id
}

/// Every slot. Call it only when each of them has been written.
pub fn slots<T: Copy>(c: &EventChannel<T>) -> Vec<T> {
    c.storage.data.data.clone()
}

/// How many slots have never been written.
pub fn never_written<T>(c: &EventChannel<T>) -> usize {
    c.storage.data.uninitialized
}

/// The places of the readers that the registry holds as open, by number, without collecting dropped ids.
pub fn places<T>(c: &mut EventChannel<T>) -> Vec<Option<usize>> {
    c.storage
        .meta
        .readers
        .iter_mut()
        .map(|r| Some(*r.get_mut()).filter(|r| r.active()).map(|r| r.last_index))
        .collect()
}

/// Room before the nearest reader, once dropped ids are collected; none when no reader is open.
pub fn room<T: 'static>(c: &mut EventChannel<T>) -> Option<usize> {
    let ring = &mut c.storage;
    ring.maintain();
    let (last, generation) = (ring.last_index, ring.generation.0);
    ring.meta
        .nearest_index(last, generation)
        .map(|r| r.distance_from(last, generation))
}

/// Sum and difference of circular places.
pub fn circular(index: usize, size: usize, by: usize) -> (usize, usize) {
    let i = CircularIndex::new(index, size);
    (i + by, i - by)
}
