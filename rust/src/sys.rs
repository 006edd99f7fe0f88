//! The static library's functions as `include/shepard.h` declares them. Nothing checks these declarations against it but the tests.

extern "C" {
    pub fn shepard_fresh(out: *mut u8, out_length: usize, length: *mut usize) -> u8;
    pub fn shepard_check(file: *const u8, file_length: usize, count: *mut usize) -> u8;
    pub fn shepard_rewrite(file: *const u8, file_length: usize, out: *mut u8, out_length: usize, length: *mut usize) -> u8;
    pub fn shepard_add(file: *const u8, file_length: usize, x: u32, y: u32, z: i32, out: *mut u8, out_length: usize, length: *mut usize) -> u8;
    pub fn shepard_change(file: *const u8, file_length: usize, x: u32, y: u32, z: i32, out: *mut u8, out_length: usize, length: *mut usize) -> u8;
    pub fn shepard_drop(file: *const u8, file_length: usize, x: u32, y: u32, out: *mut u8, out_length: usize, length: *mut usize) -> u8;
    pub fn shepard_lookup(file: *const u8, file_length: usize, x: u32, y: u32, answer: *mut i16, count: *mut usize, radius: *mut u32) -> u8;
    pub fn shepard_lookup_neighbours(
        file: *const u8,
        file_length: usize,
        x: u32,
        y: u32,
        records: *mut u8,
        records_length: usize,
        answer: *mut i16,
        count: *mut usize,
        radius: *mut u32,
    ) -> u8;
    pub fn shepard_lookup_many(
        file: *const u8,
        file_length: usize,
        locations: *const u8,
        locations_length: usize,
        out: *mut u8,
        out_length: usize,
    ) -> u8;
    pub fn shepard_grid_file(
        file: *const u8,
        file_length: usize,
        x0: u16,
        y0: u16,
        step_x: u16,
        step_y: u16,
        columns: u16,
        rows: u16,
        out: *mut u8,
        out_length: usize,
        length: *mut usize,
    ) -> u8;
    pub fn shepard_esri(
        file: *const u8,
        file_length: usize,
        x0: u16,
        y0: u16,
        step_x: u16,
        step_y: u16,
        columns: u16,
        rows: u16,
        out: *mut u8,
        out_length: usize,
        length: *mut usize,
    ) -> u8;
    pub fn shepard_grid_check(
        file: *const u8,
        file_length: usize,
        x0: *mut u16,
        y0: *mut u16,
        step_x: *mut u16,
        step_y: *mut u16,
        columns: *mut u16,
        rows: *mut u16,
    ) -> u8;
    pub fn shepard_grid_cells(file: *const u8, file_length: usize, cells: *mut i16, cells_length: usize, count: *mut usize) -> u8;
}
