//! The static library's C functions. A slice goes as its pointer and its length.

unsafe extern "C" {
    pub fn showclean_clean(
        image: *const u8,
        image_length: usize,
        output: *mut u8,
        output_length: usize,
        work: *mut u32,
        work_length: usize,
        report: *mut u8,
        report_length: usize,
    ) -> u64;
    pub fn showclean_overlap(
        image: *const u8,
        image_length: usize,
        first: usize,
        second: usize,
    ) -> u64;
    pub fn showclean_overlap_expression(
        image: *const u8,
        image_length: usize,
        first: usize,
        second: usize,
        expression: *mut u8,
        expression_length: usize,
    ) -> u64;
}
