//! The functions of the archive. `checks/header.py` compares them with the source of the library.

extern "C" {
    pub fn callplan_lent_version() -> u32;

    pub fn callplan_lent_fresh(
        n: usize,
        counts: *mut usize,
        counts_len: usize,
        states: *mut u8,
        states_len: usize,
        fields: *mut u16,
        fields_len: usize,
    ) -> u32;

    pub fn callplan_lent_generate(
        seed: u32,
        n: usize,
        m: usize,
        counts: *mut usize,
        counts_len: usize,
        states: *mut u8,
        states_len: usize,
        fields: *mut u16,
        fields_len: usize,
    ) -> u32;

    pub fn callplan_lent_from_image(
        octets: *const u8,
        octets_len: usize,
        counts: *mut usize,
        counts_len: usize,
        states: *mut u8,
        states_len: usize,
        fields: *mut u16,
        fields_len: usize,
    ) -> u32;

    pub fn callplan_lent_mark(
        counts: *mut usize,
        counts_len: usize,
        states: *mut u8,
        states_len: usize,
        fields: *mut u16,
        fields_len: usize,
        state: usize,
        value: u32,
    ) -> u32;

    pub fn callplan_lent_team(
        counts: *mut usize,
        counts_len: usize,
        states: *mut u8,
        states_len: usize,
        fields: *mut u16,
        fields_len: usize,
        state: usize,
        team: u32,
    ) -> u32;

    pub fn callplan_lent_join(
        counts: *mut usize,
        counts_len: usize,
        states: *mut u8,
        states_len: usize,
        fields: *mut u16,
        fields_len: usize,
        from: usize,
        to: usize,
        low: u32,
        high: u32,
    ) -> u32;

    pub fn callplan_lent_unjoin(
        counts: *mut usize,
        counts_len: usize,
        states: *mut u8,
        states_len: usize,
        fields: *mut u16,
        fields_len: usize,
        number: usize,
    ) -> u32;

    pub fn callplan_lent_read(
        counts: *mut usize,
        counts_len: usize,
        states: *mut u8,
        states_len: usize,
        fields: *mut u16,
        fields_len: usize,
        octets: *const u8,
        octets_len: usize,
    ) -> u32;

    pub fn callplan_lent_write(
        counts: *const usize,
        counts_len: usize,
        states: *const u8,
        states_len: usize,
        fields: *const u16,
        fields_len: usize,
        buffer: *mut u8,
        buffer_len: usize,
    ) -> u32;

    pub fn callplan_lent_import(
        counts: *mut usize,
        counts_len: usize,
        states: *mut u8,
        states_len: usize,
        fields: *mut u16,
        fields_len: usize,
        text: *const u8,
        text_len: usize,
    ) -> u32;

    pub fn callplan_lent_export(
        counts: *const usize,
        counts_len: usize,
        states: *const u8,
        states_len: usize,
        fields: *const u16,
        fields_len: usize,
        buffer: *mut u8,
        buffer_len: usize,
    ) -> u32;

    pub fn callplan_lent_least_delay(
        counts: *const usize,
        counts_len: usize,
        states: *const u8,
        states_len: usize,
        fields: *const u16,
        fields_len: usize,
        walk: *mut u16,
        walk_len: usize,
        out: *mut u32,
        out_len: usize,
    ) -> u32;

    pub fn callplan_lent_greatest_delay(
        counts: *const usize,
        counts_len: usize,
        states: *const u8,
        states_len: usize,
        fields: *const u16,
        fields_len: usize,
        walk: *mut u16,
        walk_len: usize,
        out: *mut u32,
        out_len: usize,
    ) -> u32;

    pub fn callplan_lent_least_count(
        counts: *const usize,
        counts_len: usize,
        states: *const u8,
        states_len: usize,
        fields: *const u16,
        fields_len: usize,
        walk: *mut u16,
        walk_len: usize,
        out: *mut u32,
        out_len: usize,
    ) -> u32;

    pub fn callplan_lent_greatest_count(
        counts: *const usize,
        counts_len: usize,
        states: *const u8,
        states_len: usize,
        fields: *const u16,
        fields_len: usize,
        walk: *mut u16,
        walk_len: usize,
        out: *mut u32,
        out_len: usize,
    ) -> u32;

    pub fn callplan_lent_least_count_for(
        counts: *const usize,
        counts_len: usize,
        states: *const u8,
        states_len: usize,
        fields: *const u16,
        fields_len: usize,
        team: u32,
        walk: *mut u16,
        walk_len: usize,
        out: *mut u32,
        out_len: usize,
    ) -> u32;

    pub fn callplan_lent_greatest_count_for(
        counts: *const usize,
        counts_len: usize,
        states: *const u8,
        states_len: usize,
        fields: *const u16,
        fields_len: usize,
        team: u32,
        walk: *mut u16,
        walk_len: usize,
        out: *mut u32,
        out_len: usize,
    ) -> u32;

    pub fn callplan_lent_record(
        counts: *const usize,
        counts_len: usize,
        states: *const u8,
        states_len: usize,
        fields: *const u16,
        fields_len: usize,
        buffer: *mut u8,
        buffer_len: usize,
    ) -> u32;

    pub fn callplan_lent_quote(
        octets: *const u8,
        octets_len: usize,
        walks: *mut u16,
        walks_len: usize,
        out: *mut u32,
        out_len: usize,
    ) -> u32;

    pub fn callplan_lent_replay(
        n: usize,
        kinds: *const u8,
        kinds_len: usize,
        arguments: *const usize,
        arguments_len: usize,
        octets: *const u8,
        octets_len: usize,
        answers: *mut u32,
        answers_len: usize,
        counts: *mut usize,
        counts_len: usize,
        states: *mut u8,
        states_len: usize,
        fields: *mut u16,
        fields_len: usize,
        walks: *mut u16,
        walks_len: usize,
        out: *mut u32,
        out_len: usize,
    ) -> u32;
}
