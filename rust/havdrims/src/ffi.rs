//! The functions of the archive, as include/havdrims.h declares and explains them.

extern "C" {
    /// Words needed and reach of a rule.
    ///
    /// # Safety
    /// As for every function here: each pointer is valid for its length, or for what it points to, and what is written
    /// to overlaps nothing else.
    pub fn havdrims_measure(rule: *const u8, rule_len: usize, words: *mut u64, reach: *mut u64) -> u32;

    /// A fresh checkpoint.
    ///
    /// # Safety
    /// See [`havdrims_measure`].
    pub fn havdrims_open(rule: *const u8, rule_len: usize, point: *mut u64, point_len: usize) -> u32;

    /// Carry on.
    ///
    /// # Safety
    /// See [`havdrims_measure`].
    pub fn havdrims_resume(
        rule: *const u8,
        rule_len: usize,
        log: *const u8,
        log_len: usize,
        point: *mut u64,
        point_len: usize,
        sheet: *mut u8,
        sheet_len: usize,
        given: *mut u64,
        more: *mut u64,
    ) -> u32;

    /// A closing.
    ///
    /// # Safety
    /// See [`havdrims_measure`].
    pub fn havdrims_close(
        rule: *const u8,
        rule_len: usize,
        log: *const u8,
        log_len: usize,
        point: *mut u64,
        point_len: usize,
        sheet: *mut u8,
        sheet_len: usize,
        given: *mut u64,
        more: *mut u64,
    ) -> u32;

    /// A trimming.
    ///
    /// # Safety
    /// See [`havdrims_measure`].
    pub fn havdrims_trim(
        rule: *const u8,
        rule_len: usize,
        log: *const u8,
        log_len: usize,
        point: *const u64,
        point_len: usize,
        out: *mut u8,
        out_len: usize,
        written: *mut u64,
    ) -> u32;

    /// Counts of no and of yes, one of each per formula.
    ///
    /// # Safety
    /// See [`havdrims_measure`].
    pub fn havdrims_tally(
        sheet: *const u8,
        sheet_len: usize,
        formulas: u64,
        no: *mut [u64; 8],
        yes: *mut [u64; 8],
    ) -> u32;

    /// For each formula, the count of no among the verdicts given, and the position of the latest.
    ///
    /// # Safety
    /// See [`havdrims_measure`].
    pub fn havdrims_summary(
        rule: *const u8,
        rule_len: usize,
        point: *const u64,
        point_len: usize,
        no: *mut [u64; 8],
        latest: *mut [u64; 8],
    ) -> u32;

    /// The number of formulas of a rule.
    ///
    /// # Safety
    /// See [`havdrims_measure`].
    pub fn havdrims_formulas(rule: *const u8, rule_len: usize, formulas: *mut u64) -> u32;

    /// How far a point has come.
    ///
    /// # Safety
    /// See [`havdrims_measure`].
    pub fn havdrims_status(
        rule: *const u8,
        rule_len: usize,
        point: *const u64,
        point_len: usize,
        given: *mut u64,
        seen: *mut u64,
        wanted: *mut u64,
        closed: *mut u64,
    ) -> u32;

    /// The rule that a text says.
    ///
    /// # Safety
    /// See [`havdrims_measure`].
    pub fn havdrims_parse(text: *const u8, text_len: usize, rule: *mut u8, rule_len: usize, written: *mut u64) -> u32;

    /// The log that keeps most seconds waiting.
    ///
    /// # Safety
    /// See [`havdrims_measure`].
    pub fn havdrims_worst_log(
        low: u32,
        high: u32,
        records: u64,
        log: *mut u8,
        log_len: usize,
        written: *mut u64,
    ) -> u32;

    /// A kiosk to try settings on: its log.
    ///
    /// # Safety
    /// See [`havdrims_measure`].
    pub fn havdrims_simulate(
        seconds: u32,
        warm_up: u32,
        print_time: u32,
        switch_off: u32,
        mean_gap: u32,
        seed: u32,
        log: *mut u8,
        log_len: usize,
        written: *mut u64,
        finished: *mut u64,
        printing: *mut u64,
        waiting: *mut u64,
    ) -> u32;

    /// The reason for a formula's yes or no at a position.
    ///
    /// # Safety
    /// See [`havdrims_measure`].
    pub fn havdrims_explain(
        rule: *const u8,
        rule_len: usize,
        log: *const u8,
        log_len: usize,
        formula: u64,
        position: u64,
        text: *mut u8,
        text_len: usize,
        written: *mut u64,
    ) -> u32;
}
