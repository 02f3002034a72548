//! Cotelark's C interface as it is: the declarations of `include/cotelark.h`, which says what each function takes, answers, writes and refuses.
//! The crate `cotelark` stands over it and is what a Rust program wants.

#![no_std]

// The refusals.
pub const COTELARK_SIZE: u32 = 1;
pub const COTELARK_PAGE: u32 = 2;
pub const COTELARK_LONG: u32 = 3;
pub const COTELARK_ODD: u32 = 4;
pub const COTELARK_MAP: u32 = 5;
pub const COTELARK_MATCH: u32 = 6;
pub const COTELARK_ROOM: u32 = 7;
pub const COTELARK_EMPTY: u32 = 8;
pub const COTELARK_PAGENO: u32 = 9;
pub const COTELARK_DAMAGED: u32 = 10;
pub const COTELARK_THIN: u32 = 14;

// What a step answers.
pub const COTELARK_STEP_REFUSED: u32 = 0;
pub const COTELARK_STEP_KEPT: u32 = 1;
pub const COTELARK_STEP_WRITTEN: u32 = 2;
pub const COTELARK_STEP_FINISHED: u32 = 3;

// What a repair answers.
pub const COTELARK_REPAIR_REFUSED: u32 = 0;
pub const COTELARK_REPAIR_WHOLE: u32 = 1;
pub const COTELARK_REPAIR_REPAIRED: u32 = 2;
pub const COTELARK_REPAIR_BEYOND: u32 = 3;

// One function a line or two, as in the header.
#[rustfmt::skip]
extern "C" {
    pub fn cotelark_sign(n: usize, object: *const u8, object_bytes: usize, signature: *mut u16) -> u32;
    pub fn cotelark_join(first_n: usize, first: *const u16, first_symbols: usize,
        second_n: usize, second: *const u16, second_symbols: usize, joined: *mut u16) -> u32;
    pub fn cotelark_edit(n: usize, signature: *const u16, at_symbol: usize, old_piece: *const u8, old_bytes: usize,
        new_piece: *const u8, new_bytes: usize, edited: *mut u16) -> u32;
    pub fn cotelark_make_map(n: usize, page_bytes: usize, bucket: *const u8, bucket_bytes: usize,
        output: *mut u8, output_bytes: usize, value: *mut usize) -> u32;
    pub fn cotelark_read_map(map: *const u8, map_bytes: usize, n: *mut usize, page_bytes: *mut usize,
        bucket_bytes: *mut usize, pages: *mut usize, value: *mut usize) -> u32;
    pub fn cotelark_list_map(map: *const u8, map_bytes: usize, output: *mut u8, output_bytes: usize, value: *mut usize) -> u32;
    pub fn cotelark_store(table: *const u8, table_bytes: usize, image: *mut u8, image_bytes: usize,
        map: *mut u8, map_bytes: usize, list: *mut usize, list_numbers: usize, value: *mut usize) -> u32;
    pub fn cotelark_step(place: *mut usize, table: *const u8, table_bytes: usize, image: *mut u8, image_bytes: usize,
        map: *mut u8, map_bytes: usize, answer: *mut u32, value: *mut usize) -> u32;
    pub fn cotelark_load_page(image: *const u8, image_bytes: usize, map: *const u8, map_bytes: usize, page: usize,
        start: *mut usize, bytes: *mut usize, value: *mut usize) -> u32;
    pub fn cotelark_ask_page(image: *const u8, image_bytes: usize, map: *const u8, map_bytes: usize, page: usize, value: *mut usize) -> u32;
    pub fn cotelark_load_bucket(image: *const u8, image_bytes: usize, map: *const u8, map_bytes: usize,
        table: *mut u8, table_bytes: usize, value: *mut usize) -> u32;
    pub fn cotelark_repair_page(image: *mut u8, image_bytes: usize, map: *const u8, map_bytes: usize, page: usize,
        answer: *mut u32, position: *mut usize, old_symbol: *mut u16, new_symbol: *mut u16, marked: *mut u32, value: *mut usize) -> u32;
    pub fn cotelark_encode(plain: *const u8, plain_bytes: usize, output: *mut u8, output_bytes: usize, value: *mut usize) -> u32;
    pub fn cotelark_decode(code: *const u8, code_bytes: usize, output: *mut u8, output_bytes: usize, value: *mut usize) -> u32;
    pub fn cotelark_search(code: *const u8, code_bytes: usize, pattern: *const u8, pattern_bytes: usize,
        list: *mut usize, list_numbers: usize, value: *mut usize) -> u32;
}
