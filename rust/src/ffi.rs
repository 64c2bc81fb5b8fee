//! The exported calls of the archive. The only module with `unsafe`: each function here passes Rust's slices on as pointer and
//! length, which is all that the archive asks of its callers.
#![allow(unsafe_code)]

use crate::{Format, Size};

mod archive {
    extern "C" {
        pub fn cogarrune_table_reads(
            size: u32,
            classes: *const u8,
            classes_length: usize,
            table: *const u8,
            table_length: usize,
            work: *mut u32,
            work_length: usize,
        ) -> u64;
        pub fn cogarrune_document_reads(
            size: u32,
            classes: *const u8,
            classes_length: usize,
            format: u32,
            document: *const u8,
            document_length: usize,
            work: *mut u32,
            work_length: usize,
        ) -> u64;
        pub fn cogarrune_label_name(
            size: u32,
            classes: *const u8,
            classes_length: usize,
            table: *const u8,
            table_length: usize,
            label: usize,
            work: *mut u32,
            work_length: usize,
        ) -> u64;
        pub fn cogarrune_lets_in(
            size: u32,
            classes: *const u8,
            classes_length: usize,
            table: *const u8,
            table_length: usize,
            format: u32,
            document: *const u8,
            document_length: usize,
            work: *mut u32,
            work_length: usize,
        ) -> u64;
        pub fn cogarrune_is_local(
            size: u32,
            classes: *const u8,
            classes_length: usize,
            table: *const u8,
            table_length: usize,
            work: *mut u32,
            work_length: usize,
        ) -> u64;
        pub fn cogarrune_is_single_type(
            size: u32,
            classes: *const u8,
            classes_length: usize,
            table: *const u8,
            table_length: usize,
            work: *mut u32,
            work_length: usize,
        ) -> u64;
        pub fn cogarrune_sample(
            size: u32,
            classes: *const u8,
            classes_length: usize,
            format: u32,
            document: *const u8,
            document_length: usize,
            out: *mut u8,
            out_length: usize,
            work: *mut u32,
            work_length: usize,
        ) -> u64;
        pub fn cogarrune_widen_local_by_table(
            size: u32,
            classes: *const u8,
            classes_length: usize,
            old: *const u8,
            old_length: usize,
            addition: *const u8,
            addition_length: usize,
            out: *mut u8,
            out_length: usize,
            work: *mut u32,
            work_length: usize,
        ) -> u64;
        pub fn cogarrune_widen_local_by_document(
            size: u32,
            classes: *const u8,
            classes_length: usize,
            old: *const u8,
            old_length: usize,
            format: u32,
            document: *const u8,
            document_length: usize,
            out: *mut u8,
            out_length: usize,
            work: *mut u32,
            work_length: usize,
        ) -> u64;
        pub fn cogarrune_widen_single_type_by_table(
            size: u32,
            classes: *const u8,
            classes_length: usize,
            old: *const u8,
            old_length: usize,
            addition: *const u8,
            addition_length: usize,
            out: *mut u8,
            out_length: usize,
            work: *mut u32,
            work_length: usize,
        ) -> u64;
        pub fn cogarrune_widen_single_type_by_document(
            size: u32,
            classes: *const u8,
            classes_length: usize,
            old: *const u8,
            old_length: usize,
            format: u32,
            document: *const u8,
            document_length: usize,
            out: *mut u8,
            out_length: usize,
            work: *mut u32,
            work_length: usize,
        ) -> u64;
        pub fn cogarrune_pages(
            size: u32,
            classes: *const u8,
            classes_length: usize,
            table: *const u8,
            table_length: usize,
            out: *mut u8,
            out_length: usize,
            work: *mut u32,
            work_length: usize,
        ) -> u64;
    }
}

/// A call on one table.
type OnTable = unsafe extern "C" fn(u32, *const u8, usize, *const u8, usize, *mut u32, usize) -> u64;

fn on_table(call: OnTable, size: Size, classes: &[u8], table: &[u8], work: &mut [u32]) -> u64 {
    // SAFETY: all pointers come from slices of these lengths, and `work` overlaps no other of them.
    unsafe {
        call(
            size.number(),
            classes.as_ptr(),
            classes.len(),
            table.as_ptr(),
            table.len(),
            work.as_mut_ptr(),
            work.len(),
        )
    }
}

pub fn table_reads(size: Size, classes: &[u8], table: &[u8], work: &mut [u32]) -> u64 {
    on_table(archive::cogarrune_table_reads, size, classes, table, work)
}

pub fn document_reads(size: Size, classes: &[u8], format: Format, document: &[u8], work: &mut [u32]) -> u64 {
    // SAFETY: as above; classes and inputs are only read.
    unsafe {
        archive::cogarrune_document_reads(
            size.number(),
            classes.as_ptr(),
            classes.len(),
            format.number(),
            document.as_ptr(),
            document.len(),
            work.as_mut_ptr(),
            work.len(),
        )
    }
}

pub fn label_name(size: Size, classes: &[u8], table: &[u8], label: usize, work: &mut [u32]) -> u64 {
    // SAFETY: as above.
    unsafe {
        archive::cogarrune_label_name(
            size.number(),
            classes.as_ptr(),
            classes.len(),
            table.as_ptr(),
            table.len(),
            label,
            work.as_mut_ptr(),
            work.len(),
        )
    }
}

pub fn lets_in(size: Size, classes: &[u8], table: &[u8], format: Format, document: &[u8], work: &mut [u32]) -> u64 {
    // SAFETY: as above.
    unsafe {
        archive::cogarrune_lets_in(
            size.number(),
            classes.as_ptr(),
            classes.len(),
            table.as_ptr(),
            table.len(),
            format.number(),
            document.as_ptr(),
            document.len(),
            work.as_mut_ptr(),
            work.len(),
        )
    }
}

pub fn is_local(size: Size, classes: &[u8], table: &[u8], work: &mut [u32]) -> u64 {
    on_table(archive::cogarrune_is_local, size, classes, table, work)
}

pub fn is_single_type(size: Size, classes: &[u8], table: &[u8], work: &mut [u32]) -> u64 {
    on_table(archive::cogarrune_is_single_type, size, classes, table, work)
}

pub fn sample(size: Size, classes: &[u8], format: Format, document: &[u8], out: &mut [u8], work: &mut [u32]) -> u64 {
    // SAFETY: as above; `out` overlaps no other slice either, and is written within its length.
    unsafe {
        archive::cogarrune_sample(
            size.number(),
            classes.as_ptr(),
            classes.len(),
            format.number(),
            document.as_ptr(),
            document.len(),
            out.as_mut_ptr(),
            out.len(),
            work.as_mut_ptr(),
            work.len(),
        )
    }
}

/// A call that widens by a table.
type ByTable = unsafe extern "C" fn(
    u32,
    *const u8,
    usize,
    *const u8,
    usize,
    *const u8,
    usize,
    *mut u8,
    usize,
    *mut u32,
    usize,
) -> u64;

fn by_table(
    call: ByTable,
    size: Size,
    classes: &[u8],
    old: &[u8],
    addition: &[u8],
    out: &mut [u8],
    work: &mut [u32],
) -> u64 {
    // SAFETY: as above.
    unsafe {
        call(
            size.number(),
            classes.as_ptr(),
            classes.len(),
            old.as_ptr(),
            old.len(),
            addition.as_ptr(),
            addition.len(),
            out.as_mut_ptr(),
            out.len(),
            work.as_mut_ptr(),
            work.len(),
        )
    }
}

/// A call that widens by a document.
type ByDocument = unsafe extern "C" fn(
    u32,
    *const u8,
    usize,
    *const u8,
    usize,
    u32,
    *const u8,
    usize,
    *mut u8,
    usize,
    *mut u32,
    usize,
) -> u64;

fn by_document(
    call: ByDocument,
    size: Size,
    classes: &[u8],
    old: &[u8],
    (format, document): (Format, &[u8]),
    out: &mut [u8],
    work: &mut [u32],
) -> u64 {
    // SAFETY: as above.
    unsafe {
        call(
            size.number(),
            classes.as_ptr(),
            classes.len(),
            old.as_ptr(),
            old.len(),
            format.number(),
            document.as_ptr(),
            document.len(),
            out.as_mut_ptr(),
            out.len(),
            work.as_mut_ptr(),
            work.len(),
        )
    }
}

pub fn widen_local_by_table(
    size: Size,
    classes: &[u8],
    old: &[u8],
    addition: &[u8],
    out: &mut [u8],
    work: &mut [u32],
) -> u64 {
    by_table(
        archive::cogarrune_widen_local_by_table,
        size,
        classes,
        old,
        addition,
        out,
        work,
    )
}

pub fn widen_local_by_document(
    size: Size,
    classes: &[u8],
    old: &[u8],
    format: Format,
    document: &[u8],
    out: &mut [u8],
    work: &mut [u32],
) -> u64 {
    by_document(
        archive::cogarrune_widen_local_by_document,
        size,
        classes,
        old,
        (format, document),
        out,
        work,
    )
}

pub fn widen_single_type_by_table(
    size: Size,
    classes: &[u8],
    old: &[u8],
    addition: &[u8],
    out: &mut [u8],
    work: &mut [u32],
) -> u64 {
    by_table(
        archive::cogarrune_widen_single_type_by_table,
        size,
        classes,
        old,
        addition,
        out,
        work,
    )
}

pub fn widen_single_type_by_document(
    size: Size,
    classes: &[u8],
    old: &[u8],
    format: Format,
    document: &[u8],
    out: &mut [u8],
    work: &mut [u32],
) -> u64 {
    by_document(
        archive::cogarrune_widen_single_type_by_document,
        size,
        classes,
        old,
        (format, document),
        out,
        work,
    )
}

pub fn pages(size: Size, classes: &[u8], table: &[u8], out: &mut [u8], work: &mut [u32]) -> u64 {
    // SAFETY: as above.
    unsafe {
        archive::cogarrune_pages(
            size.number(),
            classes.as_ptr(),
            classes.len(),
            table.as_ptr(),
            table.len(),
            out.as_mut_ptr(),
            out.len(),
            work.as_mut_ptr(),
            work.len(),
        )
    }
}
