//! The calls of c/ligkern.h, as C declares them.

extern "C" {
    pub fn ligkern_compile(
        instructions: *const i32,
        instructions_length: usize,
        kerns: *const i32,
        kerns_length: usize,
        entries: *const i32,
        entries_length: usize,
        boundary: i32,
        left_entry: i32,
        design_size: i32,
        size: i32,
        magnification: i32,
        pairs: *mut i32,
        pairs_length: usize,
        ops: *mut i32,
        ops_length: usize,
        loops: *mut i32,
        loops_length: usize,
        work: *mut u32,
        work_length: usize,
        counts: *mut u64,
        counts_length: usize,
    ) -> u32;

    pub fn ligkern_to_scaled(
        kern: i32,
        design_size: i32,
        size: i32,
        magnification: i32,
        scaled: *mut i32,
        scaled_length: usize,
    ) -> u32;

    pub fn ligkern_set_word(
        pairs: *const i32,
        pairs_length: usize,
        ops: *const i32,
        ops_length: usize,
        boundary: i32,
        word: *const u32,
        word_length: usize,
        disable_left_boundary: bool,
        right_boundary_override: i32,
        items: *mut i32,
        items_length: usize,
        count: *mut u64,
        count_length: usize,
    ) -> u32;

    pub fn ligkern_fill_index(pairs: *const i32, pairs_length: usize, index: *mut u64, index_length: usize) -> u32;

    pub fn ligkern_set_word_indexed(
        index: *const u64,
        index_length: usize,
        pairs: *const i32,
        pairs_length: usize,
        ops: *const i32,
        ops_length: usize,
        boundary: i32,
        word: *const u32,
        word_length: usize,
        disable_left_boundary: bool,
        right_boundary_override: i32,
        items: *mut i32,
        items_length: usize,
        count: *mut u64,
        count_length: usize,
    ) -> u32;

    pub fn ligkern_begin(
        pairs: *const i32,
        pairs_length: usize,
        ops: *const i32,
        ops_length: usize,
        boundary: i32,
        word: *const u32,
        word_length: usize,
        disable_left_boundary: bool,
        right_boundary_override: i32,
        state: *mut u64,
        state_length: usize,
    ) -> u32;

    pub fn ligkern_step(
        pairs: *const i32,
        pairs_length: usize,
        ops: *const i32,
        ops_length: usize,
        boundary: i32,
        word: *const u32,
        word_length: usize,
        disable_left_boundary: bool,
        right_boundary_override: i32,
        state: *mut u64,
        state_length: usize,
        item: *mut i32,
        item_length: usize,
    ) -> u32;

    pub fn ligkern_has_replacement(
        pairs: *const i32,
        pairs_length: usize,
        boundary: i32,
        left: i32,
        right: i32,
        values: *mut u64,
        values_length: usize,
    ) -> u32;

    pub fn ligkern_all_pairs_with_replacements(
        pairs: *const i32,
        pairs_length: usize,
        out: *mut i32,
        out_length: usize,
        values: *mut u64,
        values_length: usize,
    ) -> u32;

    pub fn ligkern_table_is_seven_bit_safe(
        pairs: *const i32,
        pairs_length: usize,
        ops: *const i32,
        ops_length: usize,
        values: *mut u64,
        values_length: usize,
    ) -> u32;

    pub fn ligkern_program_is_seven_bit_safe(
        instructions: *const i32,
        instructions_length: usize,
        entries: *const i32,
        entries_length: usize,
        values: *mut u64,
        values_length: usize,
    ) -> u32;

    pub fn ligkern_instructions_for_entrypoint(
        instructions: *const i32,
        instructions_length: usize,
        entry: i32,
        out: *mut u32,
        out_length: usize,
        values: *mut u64,
        values_length: usize,
    ) -> u32;

    pub fn ligkern_unpack_entrypoint(
        instructions: *const i32,
        instructions_length: usize,
        entry: i32,
        passthrough: *const u8,
        passthrough_length: usize,
        out: *mut u8,
        out_length: usize,
        values: *mut u64,
        values_length: usize,
    ) -> u32;

    pub fn ligkern_reachable_iter(
        instructions: *const i32,
        instructions_length: usize,
        entries: *const i32,
        entries_length: usize,
        left_entry: i32,
        passthrough: *const u8,
        passthrough_length: usize,
        out: *mut i32,
        out_length: usize,
        values: *mut u64,
        values_length: usize,
    ) -> u32;

    pub fn ligkern_pack_entrypoints(
        instructions: *const i32,
        instructions_length: usize,
        entries: *const i32,
        entries_length: usize,
        boundary: i32,
        left_entry: i32,
        out: *mut i32,
        out_length: usize,
        entries_out: *mut i32,
        entries_out_length: usize,
        values: *mut u64,
        values_length: usize,
    ) -> u32;

    pub fn ligkern_pack_kerns(
        instructions: *const i32,
        instructions_length: usize,
        kerns: *const i32,
        kerns_length: usize,
        out: *mut i32,
        out_length: usize,
        values: *mut u64,
        values_length: usize,
    ) -> u32;

    pub fn ligkern_unpack_kerns(
        instructions: *const i32,
        instructions_length: usize,
        out: *mut i32,
        out_length: usize,
        kerns: *mut i32,
        kerns_length: usize,
        values: *mut u64,
        values_length: usize,
    ) -> u32;

    pub fn ligkern_ask_repair(
        instructions: *const i32,
        instructions_length: usize,
        kerns: *const i32,
        kerns_length: usize,
        entries: *const i32,
        entries_length: usize,
        boundary: i32,
        left_entry: i32,
        replacement: i32,
        from_0: u64,
        from_64: u64,
        from_128: u64,
        from_192: u64,
        passthrough: *const u8,
        passthrough_length: usize,
        warnings: *mut i32,
        warnings_length: usize,
        work: *mut u32,
        work_length: usize,
        values: *mut u64,
        values_length: usize,
    ) -> u32;

    pub fn ligkern_commit_repair(
        warnings: *const i32,
        warnings_length: usize,
        instructions: *const i32,
        instructions_length: usize,
        kerns: *const i32,
        kerns_length: usize,
        entries: *const i32,
        entries_length: usize,
        boundary: i32,
        left_entry: i32,
        replacement: i32,
        from_0: u64,
        from_64: u64,
        from_128: u64,
        from_192: u64,
        passthrough: *const u8,
        passthrough_length: usize,
        fixed: *mut i32,
        fixed_length: usize,
        through: *mut u8,
        through_length: usize,
        found: *mut i32,
        found_length: usize,
        work: *mut u32,
        work_length: usize,
        left: *mut i32,
        left_length: usize,
    ) -> u32;
}
