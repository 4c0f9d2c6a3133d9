//! The archive's eight functions as they are, over slices: each returns document 01's number and fills `values` with the numbers returned with it,
//! 0 in the places not used. The only declarations of the archive in Rust, and the only unsafe code, are here.

use super::{Frame, ListRoom, Room};

#[link(name = "link_kit", kind = "static")]
unsafe extern "C" {
    fn link_merge(
        file: *const u8,
        file_len: usize,
        map: *mut u16,
        map_len: usize,
        section: *mut u16,
        section_len: usize,
        values: &mut [u32; 4],
    ) -> u32;
    fn link_merge_rows(
        state_bits: usize,
        n: usize,
        rows: *const u16,
        rows_len: usize,
        file: *mut u8,
        file_len: usize,
        map: *mut u16,
        map_len: usize,
        section: *mut u16,
        section_len: usize,
        values: &mut [u32; 4],
    ) -> u32;
    fn link_read_back(
        section: *const u16,
        section_len: usize,
        file: *mut u8,
        file_len: usize,
        values: &mut [u32; 4],
    ) -> u32;
    fn link_same_section(a: *const u16, a_len: usize, b: *const u16, b_len: usize, values: &mut [u32; 4]) -> u32;
    fn link_decode(
        sections: *const u16,
        sections_len: usize,
        k: usize,
        indices: *const u8,
        blocks: usize,
        received: *const u16,
        received_len: usize,
        erased: *const u8,
        erased_len: usize,
        start: u8,
        end: u8,
        costs: *mut u32,
        costs_len: usize,
        labels: *mut u16,
        labels_len: usize,
        goals: *mut u8,
        goals_len: usize,
        masks: *mut u8,
        masks_len: usize,
        values: &mut [u32; 4],
    ) -> u32;
    fn link_decode_list(
        sections: *const u16,
        sections_len: usize,
        k: usize,
        indices: *const u8,
        blocks: usize,
        received: *const u16,
        received_len: usize,
        erased: *const u8,
        erased_len: usize,
        start: u8,
        end: u8,
        paths: usize,
        costs: *mut u32,
        costs_len: usize,
        distances: *mut u32,
        distances_len: usize,
        labels: *mut u16,
        labels_len: usize,
        goals: *mut u8,
        goals_len: usize,
        values: &mut [u32; 4],
    ) -> u32;
    fn link_listing(file: *const u8, file_len: usize, text: *mut u8, text_len: usize, values: &mut [u32; 4]) -> u32;
    fn link_block_sheet(
        input: *const u8,
        input_len: usize,
        text: *mut u8,
        text_len: usize,
        values: &mut [u32; 4],
    ) -> u32;
}

/// [`merge`](super::merge) in numbers.
pub fn merge(file: &[u8], map: &mut [u16], section: &mut [u16], values: &mut [u32; 4]) -> u32 {
    // SAFETY: each pointer is that of a slice of the length beside it, and what is lent for writing overlaps nothing.
    unsafe {
        link_merge(
            file.as_ptr(),
            file.len(),
            map.as_mut_ptr(),
            map.len(),
            section.as_mut_ptr(),
            section.len(),
            values,
        )
    }
}

/// [`merge_rows`](super::merge_rows) in numbers.
pub fn merge_rows(
    state_bits: usize,
    n: usize,
    rows: &[u16],
    file: &mut [u8],
    map: &mut [u16],
    section: &mut [u16],
    values: &mut [u32; 4],
) -> u32 {
    // SAFETY: as for `merge`.
    unsafe {
        link_merge_rows(
            state_bits,
            n,
            rows.as_ptr(),
            rows.len(),
            file.as_mut_ptr(),
            file.len(),
            map.as_mut_ptr(),
            map.len(),
            section.as_mut_ptr(),
            section.len(),
            values,
        )
    }
}

/// [`read_back`](super::read_back) in numbers.
pub fn read_back(section: &[u16], file: &mut [u8], values: &mut [u32; 4]) -> u32 {
    // SAFETY: as for `merge`.
    unsafe { link_read_back(section.as_ptr(), section.len(), file.as_mut_ptr(), file.len(), values) }
}

/// [`same_section`](super::same_section) in numbers.
pub fn same_section(a: &[u16], b: &[u16], values: &mut [u32; 4]) -> u32 {
    // SAFETY: as for `merge`; the two sections may overlap, as they are only read.
    unsafe { link_same_section(a.as_ptr(), a.len(), b.as_ptr(), b.len(), values) }
}

/// [`decode`](super::decode) in numbers.
pub fn decode(frame: &Frame, room: Room, values: &mut [u32; 4]) -> u32 {
    // SAFETY: as for `merge`.
    unsafe {
        link_decode(
            frame.sections.as_ptr(),
            frame.sections.len(),
            frame.k,
            frame.indices.as_ptr(),
            frame.indices.len(),
            frame.received.as_ptr(),
            frame.received.len(),
            frame.erased.as_ptr(),
            frame.erased.len(),
            frame.start,
            frame.end,
            room.costs.as_mut_ptr(),
            room.costs.len(),
            room.labels.as_mut_ptr(),
            room.labels.len(),
            room.goals.as_mut_ptr(),
            room.goals.len(),
            room.masks.as_mut_ptr(),
            room.masks.len(),
            values,
        )
    }
}

/// [`decode_list`](super::decode_list) in numbers.
pub fn decode_list(frame: &Frame, paths: usize, room: ListRoom, values: &mut [u32; 4]) -> u32 {
    // SAFETY: as for `merge`.
    unsafe {
        link_decode_list(
            frame.sections.as_ptr(),
            frame.sections.len(),
            frame.k,
            frame.indices.as_ptr(),
            frame.indices.len(),
            frame.received.as_ptr(),
            frame.received.len(),
            frame.erased.as_ptr(),
            frame.erased.len(),
            frame.start,
            frame.end,
            paths,
            room.costs.as_mut_ptr(),
            room.costs.len(),
            room.distances.as_mut_ptr(),
            room.distances.len(),
            room.labels.as_mut_ptr(),
            room.labels.len(),
            room.goals.as_mut_ptr(),
            room.goals.len(),
            values,
        )
    }
}

/// [`listing`](super::listing) in numbers.
pub fn listing(file: &[u8], text: &mut [u8], values: &mut [u32; 4]) -> u32 {
    // SAFETY: as for `merge`.
    unsafe { link_listing(file.as_ptr(), file.len(), text.as_mut_ptr(), text.len(), values) }
}

/// [`block_sheet`](super::block_sheet) in numbers.
pub fn block_sheet(input: &[u8], text: &mut [u8], values: &mut [u32; 4]) -> u32 {
    // SAFETY: as for `merge`.
    unsafe { link_block_sheet(input.as_ptr(), input.len(), text.as_mut_ptr(), text.len(), values) }
}
