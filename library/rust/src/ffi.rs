//! The archive's functions, as `include/max35101.h` declares them.

extern "C" {
    pub fn max35101_fresh(model: *mut u8, size: usize) -> u32;
    pub fn max35101_transaction(
        model: *mut u8,
        size: usize,
        frame: *const u8,
        frame_size: usize,
        output: *mut u8,
        output_size: usize,
        flash: *mut u8,
        flash_size: usize,
        answer: *mut u32,
        count: usize,
    ) -> u32;
    pub fn max35101_tick(model: *mut u8, size: usize, answer: *mut u32, count: usize) -> u32;
    pub fn max35101_stretch(
        model: *mut u8,
        size: usize,
        ticks: u32,
        answer: *mut u32,
        count: usize,
    ) -> u32;
    pub fn max35101_flight_delivery(
        model: *mut u8,
        size: usize,
        up: *const u32,
        up_count: usize,
        down: *const u32,
        down_count: usize,
        answer: *mut u32,
        count: usize,
    ) -> u32;
    pub fn max35101_temperature_delivery(
        model: *mut u8,
        size: usize,
        words: *const u32,
        word_count: usize,
        answer: *mut u32,
        count: usize,
    ) -> u32;
    pub fn max35101_run(
        model: *mut u8,
        size: usize,
        calls: *const u32,
        call_count: usize,
        frames: *const u8,
        frames_size: usize,
        hits: *const u32,
        hit_count: usize,
        output: *mut u8,
        output_size: usize,
        flash: *mut u8,
        flash_size: usize,
        answers: *mut u32,
        answer_count: usize,
    ) -> usize;
    pub fn max35101_interrupt_pending(
        model: *const u8,
        size: usize,
        answer: *mut u32,
        count: usize,
    ) -> u32;
    pub fn max35101_flight_awaited(
        model: *const u8,
        size: usize,
        answer: *mut u32,
        count: usize,
    ) -> u32;
    pub fn max35101_temperature_awaited(
        model: *const u8,
        size: usize,
        answer: *mut u32,
        count: usize,
    ) -> u32;
    pub fn max35101_regulator_on(
        model: *const u8,
        size: usize,
        answer: *mut u32,
        count: usize,
    ) -> u32;
    pub fn max35101_initialised(
        model: *const u8,
        size: usize,
        answer: *mut u32,
        count: usize,
    ) -> u32;
    pub fn max35101_flight_left(
        model: *const u8,
        size: usize,
        answer: *mut u32,
        count: usize,
    ) -> u32;
    pub fn max35101_temperature_left(
        model: *const u8,
        size: usize,
        answer: *mut u32,
        count: usize,
    ) -> u32;
    pub fn max35101_flight_place(
        model: *const u8,
        size: usize,
        answer: *mut u32,
        count: usize,
    ) -> u32;
    pub fn max35101_temperature_place(
        model: *const u8,
        size: usize,
        answer: *mut u32,
        count: usize,
    ) -> u32;
    pub fn max35101_peek(
        model: *const u8,
        size: usize,
        address: u32,
        answer: *mut u32,
        count: usize,
    ) -> u32;
    pub fn max35101_setup_frames(
        model: *const u8,
        size: usize,
        bytes: *mut u8,
        byte_count: usize,
        lengths: *mut u32,
        length_count: usize,
        answer: *mut usize,
        count: usize,
    ) -> u32;
    pub fn max35101_degrees(probe: u32, reference: u32, answer: *mut u32, count: usize) -> u32;
    pub fn max35101_degrees_by(
        table: *const u32,
        table_count: usize,
        probe: u32,
        reference: u32,
        answer: *mut u32,
        count: usize,
    ) -> u32;
    pub fn max35101_quietest_place(
        values: *const i32,
        value_count: usize,
        width: usize,
        answer: *mut usize,
        count: usize,
    ) -> u32;
    pub fn max35101_nanoseconds(quanta: i32) -> f64;
    pub fn max35101_write_listing_as(
        digits: u32,
        differences: *const i32,
        difference_count: usize,
        first: u32,
        output: *mut u8,
        output_size: usize,
        answer: *mut usize,
        count: usize,
    ) -> u32;
}
