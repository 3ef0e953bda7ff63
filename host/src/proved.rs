//! The proved library: the functions of its two archives, as a C program sees
//! them. A slice is a pointer and a length.

use crate::functions::{interface_numbers, store, Implementation};

// libtest_exports.a
extern "C" {
    fn test_to_units(
        points: *const u32,
        points_len: usize,
        count: usize,
        units: *mut u16,
        units_len: usize,
        answer: *mut u64,
        answer_len: usize,
    );
    fn test_to_points(
        units: *const u16,
        units_len: usize,
        count: usize,
        points: *mut u32,
        points_len: usize,
        answer: *mut u64,
        answer_len: usize,
    );
    fn test_altdude_encode(
        text: *const u32,
        text_len: usize,
        label: *mut u8,
        label_len: usize,
        answer: *mut u64,
        answer_len: usize,
    );
    fn test_altdude_decode(
        label: *const u8,
        label_len: usize,
        text: *mut u32,
        text_len: usize,
        answer: *mut u64,
        answer_len: usize,
    );
    fn test_lace_encode(
        text: *const u32,
        text_len: usize,
        label: *mut u8,
        label_len: usize,
        answer: *mut u64,
        answer_len: usize,
    );
    fn test_lace_decode(
        label: *const u8,
        label_len: usize,
        text: *mut u32,
        text_len: usize,
        answer: *mut u64,
        answer_len: usize,
    );
    fn test_altdude_encode_marked(
        text: *const u32,
        text_len: usize,
        marks: *const u8,
        marks_len: usize,
        label: *mut u8,
        label_len: usize,
        answer: *mut u64,
        answer_len: usize,
    );
    fn test_altdude_decode_marked(
        label: *const u8,
        label_len: usize,
        text: *mut u32,
        text_len: usize,
        marks: *mut u8,
        marks_len: usize,
        answer: *mut u64,
        answer_len: usize,
    );
    fn test_lace_encode_marked(
        text: *const u32,
        text_len: usize,
        marks: *const u8,
        marks_len: usize,
        label: *mut u8,
        label_len: usize,
        answer: *mut u64,
        answer_len: usize,
    );
    fn test_lace_decode_marked(
        label: *const u8,
        label_len: usize,
        text: *mut u32,
        text_len: usize,
        marks: *mut u8,
        marks_len: usize,
        answer: *mut u64,
        answer_len: usize,
    );
    fn test_brace_encode(
        units: *const u16,
        units_len: usize,
        label: *mut u8,
        label_len: usize,
        answer: *mut u64,
        answer_len: usize,
    );
    fn test_brace_decode(
        label: *const u8,
        label_len: usize,
        units: *mut u16,
        units_len: usize,
        answer: *mut u64,
        answer_len: usize,
    );
    fn test_name_encode(
        text: *const u32,
        text_len: usize,
        name: *mut u8,
        name_len: usize,
        answer: *mut u64,
        answer_len: usize,
    );
    fn test_name_decode(
        name: *const u8,
        name_len: usize,
        text: *mut u32,
        text_len: usize,
        answer: *mut u64,
        answer_len: usize,
    );
    fn test_table_read(table: *const u8, table_len: usize, answer: *mut u64, answer_len: usize);
    fn test_table_entry(
        table: *const u8,
        table_len: usize,
        index: usize,
        text: *mut u32,
        text_len: usize,
        answer: *mut u64,
        answer_len: usize,
    );
    fn test_table_judged_entry(
        table: *const u8,
        table_len: usize,
        index: usize,
        text: *mut u32,
        text_len: usize,
        answer: *mut u64,
        answer_len: usize,
    );
    fn test_table_write(
        readers: *const u16,
        readers_len: usize,
        schemes: *const u32,
        schemes_len: usize,
        lengths: *const usize,
        lengths_len: usize,
        points: *const u32,
        points_len: usize,
        table: *mut u8,
        table_len: usize,
        answer: *mut u64,
        answer_len: usize,
    );
    fn test_table_header(
        kind: u8,
        table: *const u8,
        table_len: usize,
        answer: *mut u64,
        answer_len: usize,
    );
    fn test_table_lone_entry(
        entry: *const u8,
        entry_len: usize,
        least: usize,
        position: usize,
        text: *mut u32,
        text_len: usize,
        answer: *mut u64,
        answer_len: usize,
    );
    fn test_short_read(table: *const u8, table_len: usize, answer: *mut u64, answer_len: usize);
    fn test_short_entry(
        table: *const u8,
        table_len: usize,
        index: usize,
        text: *mut u32,
        text_len: usize,
        answer: *mut u64,
        answer_len: usize,
    );
    fn test_to_short(
        table: *const u8,
        table_len: usize,
        short: *mut u8,
        short_len: usize,
        answer: *mut u64,
        answer_len: usize,
    );
    fn test_to_long(
        short: *const u8,
        short_len: usize,
        table: *mut u8,
        table_len: usize,
        answer: *mut u64,
        answer_len: usize,
    );
    fn test_table_diff(
        left: *const u8,
        left_len: usize,
        right: *const u8,
        right_len: usize,
        sheet: *mut u8,
        sheet_len: usize,
        answer: *mut u64,
        answer_len: usize,
    );
    fn test_receive(
        lengths: *const usize,
        lengths_len: usize,
        bytes: *const u8,
        bytes_len: usize,
        answer: *mut u64,
        answer_len: usize,
    );
}

// libfirmware.a, declared in include/distelhut.h
extern "C" {
    fn distelhut_write(
        scheme: u32,
        text: *const u8,
        text_len: usize,
        label: *mut u8,
        label_len: usize,
    ) -> u32;
    fn distelhut_read(
        scheme: u32,
        label: *const u8,
        label_len: usize,
        text: *mut u8,
        text_len: usize,
    ) -> u32;
}

/// Writes a big-endian UTF-16 text as a label.
pub fn write(scheme: u32, text: &[u8], label: &mut [u8]) -> u32 {
    // SAFETY: slices are never null, never overlap, and are as long as they say.
    unsafe { distelhut_write(scheme, text.as_ptr(), text.len(), label.as_mut_ptr(), label.len()) }
}

/// Reads a label as a big-endian UTF-16 text.
pub fn read(scheme: u32, label: &[u8], text: &mut [u8]) -> u32 {
    // SAFETY: slices are never null, never overlap, and are as long as they say.
    unsafe { distelhut_read(scheme, label.as_ptr(), label.len(), text.as_mut_ptr(), text.len()) }
}

/// Calls an exported function on slices and numbers; each slice is passed as a
/// pointer and a length. A number may also come first.
macro_rules! call {
    (
        $function:ident,
        $($first:ident,)?
        [$($given:ident),*],
        [$($number:ident),*],
        [$($buffer:ident),*]
    ) => {
        // SAFETY: slices are never null, never overlap, and are as long as they say.
        unsafe {
            $function(
                $($first,)?
                $($given.as_ptr(), $given.len(),)*
                $($number,)*
                $($buffer.as_mut_ptr(), $buffer.len()),*
            )
        }
    };
}

/// The proved library.
pub const PROVED: Implementation = Implementation {
    name: "proved",
    to_units: |points, count, units, answer| {
        call!(test_to_units, [points], [count], [units, answer])
    },
    to_points: |units, count, points, answer| {
        call!(test_to_points, [units], [count], [points, answer])
    },
    altdude_encode: |text, _, label, answer| {
        call!(test_altdude_encode, [text], [], [label, answer])
    },
    altdude_decode: |label, _, text, answer| {
        call!(test_altdude_decode, [label], [], [text, answer])
    },
    lace_encode: |text, _, label, answer| call!(test_lace_encode, [text], [], [label, answer]),
    lace_decode: |label, _, text, answer| call!(test_lace_decode, [label], [], [text, answer]),
    altdude_encode_marked: |(text, marks), label, answer| {
        call!(test_altdude_encode_marked, [text, marks], [], [label, answer])
    },
    altdude_decode_marked: |label, (text, marks), answer| {
        call!(test_altdude_decode_marked, [label], [], [text, marks, answer])
    },
    lace_encode_marked: |(text, marks), label, answer| {
        call!(test_lace_encode_marked, [text, marks], [], [label, answer])
    },
    lace_decode_marked: |label, (text, marks), answer| {
        call!(test_lace_decode_marked, [label], [], [text, marks, answer])
    },
    brace_encode: |units, _, label, answer| call!(test_brace_encode, [units], [], [label, answer]),
    brace_decode: |label, _, units, answer| call!(test_brace_decode, [label], [], [units, answer]),
    name_encode: |text, _, name, answer| call!(test_name_encode, [text], [], [name, answer]),
    name_decode: |name, _, text, answer| call!(test_name_decode, [name], [], [text, answer]),
    table_read: |table, _, _, answer| call!(test_table_read, [table], [], [answer]),
    table_entry: |table, index, text, answer| {
        call!(test_table_entry, [table], [index], [text, answer])
    },
    table_judged_entry: |table, index, text, answer| {
        call!(test_table_judged_entry, [table], [index], [text, answer])
    },
    table_write: |readers, schemes, lengths, points, table, answer| {
        call!(test_table_write, [readers, schemes, lengths, points], [], [table, answer])
    },
    table_header: |table, kind, _, answer| {
        let kind = kind as u8;
        call!(test_table_header, kind, [table], [], [answer])
    },
    table_lone_entry: |entry, [least, position], text, answer| {
        call!(test_table_lone_entry, [entry], [least, position], [text, answer])
    },
    short_read: |table, _, _, answer| call!(test_short_read, [table], [], [answer]),
    short_entry: |table, index, text, answer| {
        call!(test_short_entry, [table], [index], [text, answer])
    },
    to_short: |table, _, short, answer| call!(test_to_short, [table], [], [short, answer]),
    to_long: |short, _, table, answer| call!(test_to_long, [short], [], [table, answer]),
    table_diff: |[left, right], sheet, answer| {
        call!(test_table_diff, [left, right], [], [sheet, answer])
    },
    receive: |lengths, bytes, answer| call!(test_receive, [lengths, bytes], [], [answer]),
    write: |text, scheme, label, answer| {
        store(interface_numbers(write(scheme as u32, text, label)), answer);
    },
    read: |label, scheme, text, answer| {
        store(interface_numbers(read(scheme as u32, label, text)), answer);
    },
};
