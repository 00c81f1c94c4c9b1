//! The exports as the C header has them, on slices: any number may be handed in, and the answer is four numbers.

/// The four numbers of an answer.
#[repr(C)]
#[derive(Clone, Copy, Debug, Default, PartialEq, Eq)]
pub struct Answer {
    /// 0: the call went through; else the refusal number, and value and count are 0.
    pub refusal: i64,
    /// The refusal's place.
    pub place: i64,
    /// The call's answer; 0 where it has none.
    pub value: i64,
    /// How many: a path's routes, S2's scans; 0 where the call counts nothing.
    pub count: i64,
}

#[rustfmt::skip]
mod linked {
    use super::Answer;

    extern "C" {
        pub fn fernpocket_check(sheet: *const i64, sheet_len: usize) -> Answer;
        pub fn fernpocket_read_text(text: *const u8, text_len: usize, words: *mut i64, words_len: usize) -> Answer;
        pub fn fernpocket_write_text(words: *const i64, words_len: usize, text: *mut u8, text_len: usize) -> Answer;
        pub fn fernpocket_assemble(
            sheet: *const i64, sheet_len: usize, values: *mut i64, values_len: usize,
            given: *const i64, given_len: usize, lists: *const i64, lists_len: usize,
            lengths: *const i64, lengths_len: usize,
        ) -> Answer;
        pub fn fernpocket_verdicts(
            sheet: *const i64, sheet_len: usize, values: *const i64, values_len: usize,
            given: *const i64, given_len: usize, lists: *const i64, lists_len: usize,
            lengths: *const i64, lengths_len: usize, verdicts: *mut i64, verdicts_len: usize,
        ) -> Answer;
        pub fn fernpocket_operate(
            sheet: *const i64, sheet_len: usize, values: *const i64, values_len: usize,
            given: *const i64, given_len: usize, lists: *const i64, lists_len: usize,
            lengths: *const i64, lengths_len: usize, states: *mut i64, states_len: usize,
            instances: *const i64, instances_len: usize, persona: i64, operation: i64, wanted: i64,
        ) -> Answer;
        pub fn fernpocket_run(
            sheet: *const i64, sheet_len: usize, values: *const i64, values_len: usize,
            given: *const i64, given_len: usize, lists: *const i64, lists_len: usize,
            lengths: *const i64, lengths_len: usize, states: *mut i64, states_len: usize,
            instances: *const i64, instances_len: usize, flow: i64, wanted: *const i64, wanted_len: usize,
            path: *mut u16, path_len: usize,
        ) -> Answer;
        pub fn fernpocket_first(
            sheet: *const i64, sheet_len: usize, flow: i64, path: *mut u16, path_len: usize,
        ) -> Answer;
        pub fn fernpocket_next(
            sheet: *const i64, sheet_len: usize, flow: i64, path: *mut u16, path_len: usize,
        ) -> Answer;
        pub fn fernpocket_states(sheet: *const i64, sheet_len: usize, entity: i64) -> Answer;
        pub fn fernpocket_reachable(sheet: *const i64, sheet_len: usize, entity: i64) -> Answer;
        pub fn fernpocket_admissible(
            sheet: *const i64, sheet_len: usize, entity: i64, state: i64, persona: i64, operation: i64,
        ) -> Answer;
        pub fn fernpocket_can_cause(
            sheet: *const i64, sheet_len: usize, persona: i64, entity: i64, from: i64, to: i64,
        ) -> Answer;
        pub fn fernpocket_rules(sheet: *const i64, sheet_len: usize) -> Answer;
        pub fn fernpocket_stratum(sheet: *const i64, sheet_len: usize, rule: i64) -> Answer;
        pub fn fernpocket_outcomes(sheet: *const i64, sheet_len: usize, operation: i64) -> Answer;
        pub fn fernpocket_tree_size(sheet: *const i64, sheet_len: usize, node: i64) -> Answer;
        pub fn fernpocket_depth(sheet: *const i64, sheet_len: usize, flow: i64) -> Answer;
    }
}

// Each pointer and count come from one live slice, shared for const pointers and exclusive for the others; the exports read
// and write within them and keep no pointer.
macro_rules! call {
    ($function:ident, $($argument:expr),*) => {
        // SAFETY: as above.
        unsafe { linked::$function($($argument),*) }
    };
}

/// See [`crate::check`].
pub fn check(sheet: &[i64]) -> Answer {
    call!(fernpocket_check, sheet.as_ptr(), sheet.len())
}

/// See [`crate::read_text`].
pub fn read_text(text: &[u8], words: &mut [i64]) -> Answer {
    call!(fernpocket_read_text, text.as_ptr(), text.len(), words.as_mut_ptr(), words.len())
}

/// See [`crate::write_text`].
pub fn write_text(words: &[i64], text: &mut [u8]) -> Answer {
    call!(fernpocket_write_text, words.as_ptr(), words.len(), text.as_mut_ptr(), text.len())
}

/// See [`crate::assemble`].
pub fn assemble(sheet: &[i64], values: &mut [i64], given: &[i64], lists: &[i64], lengths: &[i64]) -> Answer {
    call!(
        fernpocket_assemble,
        sheet.as_ptr(),
        sheet.len(),
        values.as_mut_ptr(),
        values.len(),
        given.as_ptr(),
        given.len(),
        lists.as_ptr(),
        lists.len(),
        lengths.as_ptr(),
        lengths.len()
    )
}

/// See [`crate::verdicts`].
pub fn verdicts(
    sheet: &[i64],
    values: &[i64],
    given: &[i64],
    lists: &[i64],
    lengths: &[i64],
    verdicts: &mut [i64],
) -> Answer {
    call!(
        fernpocket_verdicts,
        sheet.as_ptr(),
        sheet.len(),
        values.as_ptr(),
        values.len(),
        given.as_ptr(),
        given.len(),
        lists.as_ptr(),
        lists.len(),
        lengths.as_ptr(),
        lengths.len(),
        verdicts.as_mut_ptr(),
        verdicts.len()
    )
}

/// See [`crate::operate`].
pub fn operate(
    sheet: &[i64],
    values: &[i64],
    given: &[i64],
    lists: &[i64],
    lengths: &[i64],
    states: &mut [i64],
    instances: &[i64],
    persona: i64,
    operation: i64,
    wanted: i64,
) -> Answer {
    call!(
        fernpocket_operate,
        sheet.as_ptr(),
        sheet.len(),
        values.as_ptr(),
        values.len(),
        given.as_ptr(),
        given.len(),
        lists.as_ptr(),
        lists.len(),
        lengths.as_ptr(),
        lengths.len(),
        states.as_mut_ptr(),
        states.len(),
        instances.as_ptr(),
        instances.len(),
        persona,
        operation,
        wanted
    )
}

/// See [`crate::run`].
pub fn run(
    sheet: &[i64],
    values: &[i64],
    given: &[i64],
    lists: &[i64],
    lengths: &[i64],
    states: &mut [i64],
    instances: &[i64],
    flow: i64,
    wanted: &[i64],
    path: &mut [u16],
) -> Answer {
    call!(
        fernpocket_run,
        sheet.as_ptr(),
        sheet.len(),
        values.as_ptr(),
        values.len(),
        given.as_ptr(),
        given.len(),
        lists.as_ptr(),
        lists.len(),
        lengths.as_ptr(),
        lengths.len(),
        states.as_mut_ptr(),
        states.len(),
        instances.as_ptr(),
        instances.len(),
        flow,
        wanted.as_ptr(),
        wanted.len(),
        path.as_mut_ptr(),
        path.len()
    )
}

/// See [`crate::first`].
pub fn first(sheet: &[i64], flow: i64, path: &mut [u16]) -> Answer {
    call!(fernpocket_first, sheet.as_ptr(), sheet.len(), flow, path.as_mut_ptr(), path.len())
}

/// See [`crate::next`].
pub fn next(sheet: &[i64], flow: i64, path: &mut [u16]) -> Answer {
    call!(fernpocket_next, sheet.as_ptr(), sheet.len(), flow, path.as_mut_ptr(), path.len())
}

/// See [`crate::states`].
pub fn states(sheet: &[i64], entity: i64) -> Answer {
    call!(fernpocket_states, sheet.as_ptr(), sheet.len(), entity)
}

/// See [`crate::reachable`].
pub fn reachable(sheet: &[i64], entity: i64) -> Answer {
    call!(fernpocket_reachable, sheet.as_ptr(), sheet.len(), entity)
}

/// See [`crate::admissible`].
pub fn admissible(sheet: &[i64], entity: i64, state: i64, persona: i64, operation: i64) -> Answer {
    call!(fernpocket_admissible, sheet.as_ptr(), sheet.len(), entity, state, persona, operation)
}

/// See [`crate::can_cause`].
pub fn can_cause(sheet: &[i64], persona: i64, entity: i64, from: i64, to: i64) -> Answer {
    call!(fernpocket_can_cause, sheet.as_ptr(), sheet.len(), persona, entity, from, to)
}

/// See [`crate::rules`].
pub fn rules(sheet: &[i64]) -> Answer {
    call!(fernpocket_rules, sheet.as_ptr(), sheet.len())
}

/// See [`crate::stratum`].
pub fn stratum(sheet: &[i64], rule: i64) -> Answer {
    call!(fernpocket_stratum, sheet.as_ptr(), sheet.len(), rule)
}

/// See [`crate::outcomes`].
pub fn outcomes(sheet: &[i64], operation: i64) -> Answer {
    call!(fernpocket_outcomes, sheet.as_ptr(), sheet.len(), operation)
}

/// See [`crate::tree_size`].
pub fn tree_size(sheet: &[i64], node: i64) -> Answer {
    call!(fernpocket_tree_size, sheet.as_ptr(), sheet.len(), node)
}

/// See [`crate::depth`].
pub fn depth(sheet: &[i64], flow: i64) -> Answer {
    call!(fernpocket_depth, sheet.as_ptr(), sheet.len(), flow)
}
