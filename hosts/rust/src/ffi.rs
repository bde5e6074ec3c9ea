//! The C calls of libspirerivet.a, and all the unsafe code there is.
//!
//! Each function lends its slices as a pointer and an element count.
//! SAFETY, the same for all: a slice is valid for its length, a `&mut` one
//! overlaps no other, and the library keeps no pointer after the call.

#![allow(unsafe_code)]

use crate::node::{AppNode, SysNode};

/// Refusal 0 is done; node 255 and page 0xFFFFFFFF where there is none.
#[repr(C)]
pub struct HostAnswer {
    pub refusal: u8,
    pub node: u8,
    pub page: u32,
}

/// Refusal 0 is done; then the number asked for.
#[repr(C)]
pub struct HostNumber {
    pub refusal: u8,
    pub value: u64,
}

/// Refusal 0 is done; then how many nodes, and in how many rounds.
#[repr(C)]
pub struct HostOrder {
    pub refusal: u8,
    pub nodes: u8,
    pub rounds: u32,
}

/// A part of the caller's bytes: where it starts, and its length; 0 and 0 for an empty one.
#[repr(C)]
pub struct HostPart {
    pub start: usize,
    pub len: usize,
}

#[rustfmt::skip]
extern "C" {
    fn spire_request(
        counts: *const u32, counts_len: usize, cpus: *const u8, cpus_len: usize,
        distances: *const u8, distances_len: usize, pages: *mut u8, pages_len: usize,
        jobs: *mut u64, jobs_len: usize, free: *mut u32, free_len: usize, maps: *const u8, maps_len: usize,
        job: usize, cpu: usize,
    ) -> HostAnswer;
    fn spire_reasons(
        counts: *const u32, counts_len: usize, cpus: *const u8, cpus_len: usize,
        distances: *const u8, distances_len: usize, pages: *const u8, pages_len: usize,
        jobs: *const u64, jobs_len: usize, free: *const u32, free_len: usize, maps: *const u8, maps_len: usize,
        job: usize, cpu: usize, out: *mut u8, out_len: usize,
    ) -> HostNumber;
    fn spire_release(
        counts: *const u32, counts_len: usize, pages: *mut u8, pages_len: usize,
        jobs: *const u64, jobs_len: usize, free: *mut u32, free_len: usize, maps: *const u8, maps_len: usize,
        job: usize, page: usize,
    ) -> HostAnswer;
    fn spire_fresh(
        counts: *const u32, counts_len: usize, pages: *mut u8, pages_len: usize,
        free: *mut u32, free_len: usize,
    ) -> HostAnswer;
    fn spire_drain(
        counts: *const u32, counts_len: usize, distances: *const u8, distances_len: usize,
        pages: *mut u8, pages_len: usize, jobs: *const u64, jobs_len: usize, free: *mut u32, free_len: usize,
        maps: *const u8, maps_len: usize, node: usize, moves: *mut u32, moves_len: usize,
    ) -> HostNumber;
    fn spire_install(
        nodes: usize, jobs: *mut u64, jobs_len: usize, maps: *const u8, maps_len: usize, job: usize,
        mode: u64, flag: u64, mask: u64, places: *const AppNode, places_len: usize,
    ) -> HostAnswer;
    fn spire_rebind(nodes: usize, jobs: *mut u64, jobs_len: usize, job: usize, allowed: u64) -> HostAnswer;
    fn spire_clear(nodes: usize, jobs: *mut u64, jobs_len: usize, job: usize) -> HostAnswer;
    fn spire_keep_nodes(
        nodes: usize, jobs: *const u64, jobs_len: usize, maps: *mut u8, maps_len: usize, job: usize,
        kept: *const AppNode, kept_len: usize,
    ) -> HostAnswer;
    fn spire_set_map(
        nodes: usize, jobs: *const u64, jobs_len: usize, maps: *mut u8, maps_len: usize, job: usize,
        list: *const SysNode, list_len: usize,
    ) -> HostAnswer;
    fn spire_name(note: *const u8, note_len: usize, k: usize) -> HostPart;
    fn spire_note_places(
        nodes: usize, jobs: *const u64, jobs_len: usize, maps: *const u8, maps_len: usize,
        names: *const u8, names_len: usize, note: *const u8, note_len: usize, job: usize, which: u64,
        out: *mut AppNode, out_len: usize,
    ) -> HostNumber;
    fn spire_write_note(
        text: *const u8, text_len: usize, data: *const u8, data_len: usize, out: *mut u8, out_len: usize,
    ) -> HostNumber;
    fn spire_read_nodes(nodes: usize, allowed: u64, text: *const u8, text_len: usize) -> HostNumber;
    fn spire_write_nodes(nodes: usize, mask: u64, out: *mut u8, out_len: usize) -> HostNumber;
    fn spire_near(
        nodes: usize, distances: *const u8, distances_len: usize, set: u64, node: usize,
        out: *mut u8, out_len: usize,
    ) -> HostOrder;
    fn spire_replay(
        counts: *const u32, counts_len: usize, cpus: *const u8, cpus_len: usize,
        distances: *const u8, distances_len: usize, pages: *mut u8, pages_len: usize,
        jobs: *mut u64, jobs_len: usize, free: *mut u32, free_len: usize, maps: *mut u8, maps_len: usize,
        calls: *const u64, calls_len: usize, answers: *mut u64, answers_len: usize,
    ) -> HostNumber;
    fn spire_journal(input: *const u8, input_len: usize, output: *mut u8, output_len: usize) -> HostNumber;
}

#[inline]
#[rustfmt::skip]
pub fn request(
    counts: &[u32], cpus: &[u8], distances: &[u8], pages: &mut [u8], jobs: &mut [u64], free: &mut [u32],
    maps: &[u8], job: usize, cpu: usize,
) -> HostAnswer {
    unsafe {
        spire_request(
            counts.as_ptr(), counts.len(), cpus.as_ptr(), cpus.len(), distances.as_ptr(), distances.len(),
            pages.as_mut_ptr(), pages.len(), jobs.as_mut_ptr(), jobs.len(), free.as_mut_ptr(), free.len(),
            maps.as_ptr(), maps.len(), job, cpu,
        )
    }
}

#[rustfmt::skip]
pub fn reasons(
    counts: &[u32], cpus: &[u8], distances: &[u8], pages: &[u8], jobs: &[u64], free: &[u32], maps: &[u8],
    job: usize, cpu: usize, out: &mut [u8],
) -> HostNumber {
    unsafe {
        spire_reasons(
            counts.as_ptr(), counts.len(), cpus.as_ptr(), cpus.len(), distances.as_ptr(), distances.len(),
            pages.as_ptr(), pages.len(), jobs.as_ptr(), jobs.len(), free.as_ptr(), free.len(),
            maps.as_ptr(), maps.len(), job, cpu, out.as_mut_ptr(), out.len(),
        )
    }
}

#[inline]
#[rustfmt::skip]
pub fn release(
    counts: &[u32], pages: &mut [u8], jobs: &[u64], free: &mut [u32], maps: &[u8], job: usize, page: usize,
) -> HostAnswer {
    unsafe {
        spire_release(
            counts.as_ptr(), counts.len(), pages.as_mut_ptr(), pages.len(), jobs.as_ptr(), jobs.len(),
            free.as_mut_ptr(), free.len(), maps.as_ptr(), maps.len(), job, page,
        )
    }
}

#[inline]
#[rustfmt::skip]
pub fn fresh(counts: &[u32], pages: &mut [u8], free: &mut [u32]) -> HostAnswer {
    unsafe {
        spire_fresh(
            counts.as_ptr(), counts.len(), pages.as_mut_ptr(), pages.len(), free.as_mut_ptr(), free.len(),
        )
    }
}

#[rustfmt::skip]
pub fn drain(
    counts: &[u32], distances: &[u8], pages: &mut [u8], jobs: &[u64], free: &mut [u32], maps: &[u8],
    node: usize, moves: &mut [u32],
) -> HostNumber {
    unsafe {
        spire_drain(
            counts.as_ptr(), counts.len(), distances.as_ptr(), distances.len(), pages.as_mut_ptr(), pages.len(),
            jobs.as_ptr(), jobs.len(), free.as_mut_ptr(), free.len(), maps.as_ptr(), maps.len(),
            node, moves.as_mut_ptr(), moves.len(),
        )
    }
}

#[inline]
#[rustfmt::skip]
pub fn install(
    nodes: usize, jobs: &mut [u64], maps: &[u8], job: usize, mode: u64, flag: u64, mask: u64, places: &[AppNode],
) -> HostAnswer {
    unsafe {
        spire_install(
            nodes, jobs.as_mut_ptr(), jobs.len(), maps.as_ptr(), maps.len(), job, mode, flag, mask,
            places.as_ptr(), places.len(),
        )
    }
}

#[inline]
pub fn rebind(nodes: usize, jobs: &mut [u64], job: usize, allowed: u64) -> HostAnswer {
    unsafe { spire_rebind(nodes, jobs.as_mut_ptr(), jobs.len(), job, allowed) }
}

#[inline]
pub fn clear(nodes: usize, jobs: &mut [u64], job: usize) -> HostAnswer {
    unsafe { spire_clear(nodes, jobs.as_mut_ptr(), jobs.len(), job) }
}

#[rustfmt::skip]
pub fn keep_nodes(nodes: usize, jobs: &[u64], maps: &mut [u8], job: usize, kept: &[AppNode]) -> HostAnswer {
    unsafe {
        spire_keep_nodes(
            nodes, jobs.as_ptr(), jobs.len(), maps.as_mut_ptr(), maps.len(), job, kept.as_ptr(), kept.len(),
        )
    }
}

#[rustfmt::skip]
pub fn set_map(nodes: usize, jobs: &[u64], maps: &mut [u8], job: usize, list: &[SysNode]) -> HostAnswer {
    unsafe {
        spire_set_map(
            nodes, jobs.as_ptr(), jobs.len(), maps.as_mut_ptr(), maps.len(), job, list.as_ptr(), list.len(),
        )
    }
}

pub fn name(note: &[u8], k: usize) -> HostPart {
    unsafe { spire_name(note.as_ptr(), note.len(), k) }
}

#[rustfmt::skip]
pub fn note_places(
    nodes: usize, jobs: &[u64], maps: &[u8], names: &[u8], note: &[u8], job: usize, which: u64, out: &mut [AppNode],
) -> HostNumber {
    unsafe {
        spire_note_places(
            nodes, jobs.as_ptr(), jobs.len(), maps.as_ptr(), maps.len(), names.as_ptr(), names.len(),
            note.as_ptr(), note.len(), job, which, out.as_mut_ptr(), out.len(),
        )
    }
}

#[rustfmt::skip]
pub fn write_note(text: &[u8], data: &[u8], out: &mut [u8]) -> HostNumber {
    unsafe {
        spire_write_note(
            text.as_ptr(), text.len(), data.as_ptr(), data.len(), out.as_mut_ptr(), out.len(),
        )
    }
}

pub fn read_nodes(nodes: usize, allowed: u64, text: &[u8]) -> HostNumber {
    unsafe { spire_read_nodes(nodes, allowed, text.as_ptr(), text.len()) }
}

pub fn write_nodes(nodes: usize, mask: u64, out: &mut [u8]) -> HostNumber {
    unsafe { spire_write_nodes(nodes, mask, out.as_mut_ptr(), out.len()) }
}

#[inline]
pub fn near(nodes: usize, distances: &[u8], set: u64, node: usize, out: &mut [u8]) -> HostOrder {
    unsafe { spire_near(nodes, distances.as_ptr(), distances.len(), set, node, out.as_mut_ptr(), out.len()) }
}

#[rustfmt::skip]
pub fn replay(
    counts: &[u32], cpus: &[u8], distances: &[u8], pages: &mut [u8], jobs: &mut [u64], free: &mut [u32],
    maps: &mut [u8], calls: &[u64], answers: &mut [u64],
) -> HostNumber {
    unsafe {
        spire_replay(
            counts.as_ptr(), counts.len(), cpus.as_ptr(), cpus.len(), distances.as_ptr(), distances.len(),
            pages.as_mut_ptr(), pages.len(), jobs.as_mut_ptr(), jobs.len(), free.as_mut_ptr(), free.len(),
            maps.as_mut_ptr(), maps.len(), calls.as_ptr(), calls.len(), answers.as_mut_ptr(), answers.len(),
        )
    }
}

pub fn journal(input: &[u8], output: &mut [u8]) -> HostNumber {
    unsafe { spire_journal(input.as_ptr(), input.len(), output.as_mut_ptr(), output.len()) }
}

// SAFETY: a node of either kind is a byte, `repr(transparent)`, and every byte is one. So bytes are a list of nodes.

impl AppNode {
    /// Bytes as a list of application nodes.
    pub fn list(bytes: &[u8]) -> &[AppNode] {
        unsafe { std::slice::from_raw_parts(bytes.as_ptr().cast(), bytes.len()) }
    }

    /// Bytes as a list of application nodes, to be written.
    pub fn list_mut(bytes: &mut [u8]) -> &mut [AppNode] {
        unsafe { std::slice::from_raw_parts_mut(bytes.as_mut_ptr().cast(), bytes.len()) }
    }
}

impl SysNode {
    /// Bytes as a list of system nodes.
    pub fn list(bytes: &[u8]) -> &[SysNode] {
        unsafe { std::slice::from_raw_parts(bytes.as_ptr().cast(), bytes.len()) }
    }
}
