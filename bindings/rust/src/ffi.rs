//! The archive's functions, as `include/nolpigat.h` declares and describes them. Their answers are codes.

extern "C" {
    pub fn nolpigat_start(image: *mut u8, length: usize, mask: u8) -> u32;
    pub fn nolpigat_begin(image: *mut u8, length: usize, transaction: u8, home: u8) -> u32;
    pub fn nolpigat_get(image: *const u8, length: usize, transaction: u8, record: u16) -> u32;
    pub fn nolpigat_store(image: *mut u8, length: usize, transaction: u8, record: u16, value: u16) -> u32;
    pub fn nolpigat_delete(image: *mut u8, length: usize, transaction: u8, record: u16) -> u32;
    pub fn nolpigat_commit(image: *mut u8, length: usize, transaction: u8) -> u32;
    pub fn nolpigat_rollback(image: *mut u8, length: usize, transaction: u8) -> u32;
    pub fn nolpigat_fit(image: *mut u8, length: usize, card: u8) -> u32;
    pub fn nolpigat_withdraw(image: *mut u8, length: usize, card: u8) -> u32;
    pub fn nolpigat_place(image: *mut u8, length: usize, mask: u8) -> u32;
    pub fn nolpigat_fail(image: *mut u8, length: usize, card: u8) -> u32;
    pub fn nolpigat_move(image: *mut u8, length: usize, card: u8, block: u8) -> u32;
    pub fn nolpigat_settle(image: *mut u8, length: usize) -> u32;
    pub fn nolpigat_state(image: *const u8, length: usize) -> u32;
    pub fn nolpigat_load(image: *const u8, length: usize, card: u8) -> u32;
    pub fn nolpigat_command(image: *mut u8, length: usize, bytes: *const u8, bytes_length: usize) -> u32;
    pub fn nolpigat_place_by_table(image: *mut u8, length: usize, lines: *const u8, lines_length: usize) -> u32;
    pub fn nolpigat_return_card(image: *mut u8, length: usize, card: u8) -> u32;
    pub fn nolpigat_move_list(image: *const u8, image_length: usize, list: *mut u8, list_length: usize) -> u32;
    pub fn nolpigat_convert_21024(older: *const u8, older_length: usize, image: *mut u8, length: usize) -> u32;
    pub fn nolpigat_convert_21216(older: *const u8, older_length: usize, image: *mut u8, length: usize) -> u32;
    pub fn nolpigat_stopped(image: *const u8, length: usize) -> u32;
    pub fn nolpigat_placement_count(image: *const u8, length: usize) -> u32;
    pub fn nolpigat_placement(image: *const u8, length: usize, index: u8) -> u32;
    pub fn nolpigat_working(image: *const u8, length: usize) -> u32;
    pub fn nolpigat_failed(image: *const u8, length: usize) -> u32;
    pub fn nolpigat_home(image: *const u8, length: usize, transaction: u8) -> u32;
    pub fn nolpigat_free_transaction(image: *const u8, length: usize) -> u32;
    pub fn nolpigat_source(image: *const u8, length: usize, transaction: u8, record: u16) -> u32;
    pub fn nolpigat_holders(image: *const u8, length: usize, transaction: u8, record: u16) -> u32;
    pub fn nolpigat_write_command(
        bytes: *mut u8,
        bytes_length: usize,
        operation: u8,
        transaction: u8,
        card: u8,
        number: u16,
        value: u16,
    ) -> u32;
    pub fn nolpigat_read_command(
        bytes: *const u8,
        bytes_length: usize,
        operation: *mut u8,
        transaction: *mut u8,
        card: *mut u8,
        number: *mut u16,
        value: *mut u16,
    ) -> u32;
}
