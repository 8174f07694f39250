//! The exported functions of `libfloo_c.a`, `libfloor_c.a`, `libledger_c.a` and `libforf_c.a`, as `include/floo.h`, `floor.h` and `forf.h` have them: the one place here that is not
//! safe Rust.

use crate::floor::Record;

/// What [`run`] answers: the number of the refusal, or 0 and what the run came to.
#[repr(C)]
#[derive(Clone, Copy, Debug, PartialEq, Eq)]
pub struct Reply {
    /// The number of a [`Refusal`](crate::Refusal), or 0.
    pub refused: u32,
    /// How many steps were made.
    pub steps: u32,
    /// How many bytes of the log were written.
    pub log: usize,
    /// How many bytes of the outcome were written.
    pub outcome: usize,
}

/// What [`token`] answers: the number of the refusal, of the fault or of the token's kind, the other two being 0; the offset of the first byte that could not be accepted, of a fault that has
/// one, and else 0; the offset after the token, and where in the script its own bytes begin and how many they are.
#[repr(C)]
#[derive(Clone, Copy, Debug, PartialEq, Eq)]
pub struct TokenReply {
    /// The number of a [`Refusal`](crate::Refusal), or 0.
    pub refused: u32,
    /// The number of a fault in `floo.h`, or 0.
    pub fault: u32,
    /// The number of a [`Kind`](crate::Kind), or 0.
    pub kind: u32,
    /// Of a fault that has one, the offset of the first byte that could not be accepted.
    pub place: u32,
    /// The offset after the token.
    pub next: usize,
    /// Where its own bytes begin.
    pub start: usize,
    /// How many they are.
    pub size: usize,
}

/// What [`scan`] answers: the number of the answer, that of the refusal or 0, what the run came to, and the book's count and the record's place in it.
#[repr(C)]
#[derive(Clone, Copy, Debug, PartialEq, Eq)]
pub struct ScanReply {
    /// Its number in `floor.h`.
    pub answer: u32,
    /// The number of a [`Refusal`](crate::Refusal), or 0.
    pub refused: u32,
    /// How many steps were made.
    pub steps: u32,
    /// How many bytes of the log were written.
    pub log: usize,
    /// How many bytes of the outcome were written.
    pub outcome: usize,
    /// How many records the book has now.
    pub count: usize,
    /// Where the record was written, or 0.
    pub at: usize,
}

/// What [`write_ledger`] and [`read_ledger`] answer: the number of the answer, and how many bytes were written or records read.
#[repr(C)]
#[derive(Clone, Copy, Debug, PartialEq, Eq)]
pub struct LedgerReply {
    /// Its number in `floor.h`.
    pub answer: u32,
    /// Bytes or records, or 0 with a refusal.
    pub count: usize,
}

/// What [`forf_lent`] answers: the number of the refusal or 0, whether the memory is not of 32 slots, and what the run came to.
#[repr(C)]
#[derive(Clone, Copy, Debug, PartialEq, Eq)]
pub struct ForfReply {
    /// The number of the refusal, or 0.
    pub refused: u32,
    /// 1 where the memory is not of 32 slots, else 0.
    pub memory: u32,
    /// How many steps were made.
    pub steps: u32,
    /// How many bytes of the outcome were written.
    pub outcome: usize,
}

/// What [`forf_token_reply`] answers: the number of the refusal, 1 for a syntaxerror or the number of the token's kind, the other two being 0; the offset after the
/// token, and where in the script its own bytes begin and how many they are.
#[repr(C)]
#[derive(Clone, Copy, Debug, PartialEq, Eq)]
pub struct ForfTokenReply {
    /// The number of the refusal, 1 or 10, or 0.
    pub refused: u32,
    /// 1 for a syntaxerror, or 0.
    pub fault: u32,
    /// The number of a kind in `forf.h`, or 0.
    pub kind: u32,
    /// The offset after the token.
    pub next: usize,
    /// Where its own bytes begin.
    pub start: usize,
    /// How many they are.
    pub size: usize,
}

extern "C" {
    fn forf_run(
        script: *const u8,
        script_bytes: usize,
        fuel: u32,
        stack: *mut u32,
        stack_words: usize,
        execution: *mut u32,
        execution_words: usize,
        memory: *mut u32,
        memory_words: usize,
        outcome: *mut u8,
        outcome_bytes: usize,
    ) -> ForfReply;

    fn forf_token(script: *const u8, script_bytes: usize, offset: usize) -> ForfTokenReply;

    fn floo_run(
        script: *const u8,
        script_bytes: usize,
        fuel: u32,
        stack: *mut u32,
        stack_words: usize,
        execution: *mut u32,
        execution_words: usize,
        dictionary: *mut u32,
        dictionary_words: usize,
        cells: *mut u32,
        cell_words: usize,
        log: *mut u8,
        log_bytes: usize,
        outcome: *mut u8,
        outcome_bytes: usize,
    ) -> Reply;

    fn floo_token(script: *const u8, script_bytes: usize, offset: usize) -> TokenReply;

    fn floor_scan(
        script: *const u8,
        script_bytes: usize,
        fuel: u32,
        label: *const u8,
        label_bytes: usize,
        stack: *mut u32,
        stack_words: usize,
        execution: *mut u32,
        execution_words: usize,
        dictionary: *mut u32,
        dictionary_words: usize,
        cells: *mut u32,
        cell_words: usize,
        log: *mut u8,
        log_bytes: usize,
        outcome: *mut u8,
        outcome_bytes: usize,
        book: *mut Record,
        records: usize,
        count: usize,
    ) -> ScanReply;

    fn floor_write_ledger(
        book: *const Record,
        records: usize,
        count: usize,
        text: *mut u8,
        text_bytes: usize,
    ) -> LedgerReply;

    fn floor_read_ledger(
        text: *const u8,
        text_bytes: usize,
        book: *mut Record,
        records: usize,
    ) -> LedgerReply;
}

/// Runs a script in buffers that the caller lends: 2 words for a stack slot, 8 for an execution slot, 12 for a dictionary slot, 4 for a cell, and an outcome of at
/// least 256 + 136 × stack slots bytes. Any lengths may be lent.
///
/// ```
/// let (mut stack, mut execution, mut dictionary, mut cells) = ([0; 2 * 8], [0; 8 * 4], [0; 12 * floo::PREDEFINED_NAMES], [0; 4]);
/// let (mut log, mut outcome) = ([0; 16], [0; 256 + 136 * 8]);
/// let reply = floo::run_lent(b"#FLOO\n1 2 add echo", 100, &mut stack, &mut execution, &mut dictionary, &mut cells, &mut log, &mut outcome);
/// assert_eq!((reply.refused, reply.steps, &log[..reply.log]), (0, 6, &b"3\n"[..]));
/// ```
#[allow(unsafe_code, clippy::too_many_arguments)]
pub fn run(
    script: &[u8],
    fuel: u32,
    stack: &mut [u32],
    execution: &mut [u32],
    dictionary: &mut [u32],
    cells: &mut [u32],
    log: &mut [u8],
    outcome: &mut [u8],
) -> Reply {
    // SAFETY: each pointer and length are those of a slice, so the pointer is not null and is to as many elements; Rust lends no two
    // `&mut` slices that overlap, nor one that overlaps a `&` slice, and no one else uses them during the call. Nothing else is asked.
    unsafe {
        floo_run(
            script.as_ptr(),
            script.len(),
            fuel,
            stack.as_mut_ptr(),
            stack.len(),
            execution.as_mut_ptr(),
            execution.len(),
            dictionary.as_mut_ptr(),
            dictionary.len(),
            cells.as_mut_ptr(),
            cells.len(),
            log.as_mut_ptr(),
            log.len(),
            outcome.as_mut_ptr(),
            outcome.len(),
        )
    }
}

/// Runs a script with a label in buffers that the caller lends, those of [`run`], and enters what it leaves in a book: the first `count` of the lent records.
/// Any lengths may be lent, any records and any count.
///
/// ```
/// use floo::floor::Record;
///
/// let (mut stack, mut execution, mut dictionary, mut cells) = ([0; 2 * 8], [0; 8 * 4], [0; 12 * (floo::PREDEFINED_NAMES + 1)], [0; 4 * 2]);
/// let (mut log, mut outcome) = ([0; 0], [0; 256 + 136 * 8]);
/// let mut book = [Record::new(417, b"rack B-7", 10).unwrap()];
/// let reply = floo::scan_lent(
///     b"#FLOO\n417 label 20", 100, b"tester 3",
///     &mut stack, &mut execution, &mut dictionary, &mut cells, &mut log, &mut outcome, &mut book, 1,
/// );
/// assert_eq!((reply.answer, reply.count, reply.at), (10, 1, 0));
/// assert_eq!(book[0].place_bytes(), b"tester 3");
/// ```
#[allow(unsafe_code, clippy::too_many_arguments)]
pub fn scan(
    script: &[u8],
    fuel: u32,
    label: &[u8],
    stack: &mut [u32],
    execution: &mut [u32],
    dictionary: &mut [u32],
    cells: &mut [u32],
    log: &mut [u8],
    outcome: &mut [u8],
    book: &mut [Record],
    count: usize,
) -> ScanReply {
    // SAFETY: as for `run`; a record is laid out as C has it, and every one that C can write is a `Record`.
    unsafe {
        floor_scan(
            script.as_ptr(),
            script.len(),
            fuel,
            label.as_ptr(),
            label.len(),
            stack.as_mut_ptr(),
            stack.len(),
            execution.as_mut_ptr(),
            execution.len(),
            dictionary.as_mut_ptr(),
            dictionary.len(),
            cells.as_mut_ptr(),
            cells.len(),
            log.as_mut_ptr(),
            log.len(),
            outcome.as_mut_ptr(),
            outcome.len(),
            book.as_mut_ptr(),
            book.len(),
            count,
        )
    }
}

/// Writes the first `count` of the lent records as a ledger into the lent text. Any lengths may be lent, any records and any count.
///
/// ```
/// use floo::floor::{ledger_bytes, Record};
///
/// let mut text = [0; ledger_bytes(1)];
/// let reply = floo::write_ledger_lent(&[Record::new(417, b"rack B-7", 10).unwrap()], 1, &mut text);
/// assert_eq!(&text[..reply.count], b"socket,place,time\r\n417,rack B-7,10\r\n");
/// ```
#[allow(unsafe_code)]
pub fn write_ledger(book: &[Record], count: usize, text: &mut [u8]) -> LedgerReply {
    // SAFETY: as for `scan`.
    unsafe {
        floor_write_ledger(
            book.as_ptr(),
            book.len(),
            count,
            text.as_mut_ptr(),
            text.len(),
        )
    }
}

/// Reads a ledger, whose records replace the first of the lent ones. Any lengths may be lent, any text and any records.
///
/// ```
/// use floo::floor::Record;
///
/// let mut book = [Record::new(1, b"shelf", 1).unwrap(); 2];
/// let reply = floo::read_ledger_lent(b"socket,place,time\r\n417,rack B-7,10\r\n", &mut book);
/// assert_eq!((reply.answer, reply.count, book[0].number, book[1].number), (10, 1, 417, 1));
/// ```
#[allow(unsafe_code)]
pub fn read_ledger(text: &[u8], book: &mut [Record]) -> LedgerReply {
    // SAFETY: as for `scan`.
    unsafe { floor_read_ledger(text.as_ptr(), text.len(), book.as_mut_ptr(), book.len()) }
}

/// Reads the next token of a script from `offset` on, and answers in numbers.
///
/// ```
/// let reply = floo::token_reply(b"#FLOO\n417", 6);
/// assert_eq!((reply.refused, reply.fault, reply.kind, reply.next), (0, 0, 1, 9));
/// ```
#[allow(unsafe_code)]
pub fn token(script: &[u8], offset: usize) -> TokenReply {
    // SAFETY: pointer and length are those of a slice, which no one writes during the call. Nothing else is asked.
    unsafe { floo_token(script.as_ptr(), script.len(), offset) }
}

/// Runs a Forf script in buffers that the caller lends: 2 words for a stack slot, 8 for an execution slot, 32 words of memory, and an outcome of at least
/// 256 + 136 × stack slots bytes. Any lengths may be lent.
///
/// ```
/// let (mut stack, mut execution, mut memory) = ([0; 2 * 8], [0; 8 * 4], [0; 32]);
/// let mut outcome = [0; 256 + 136 * 8];
/// let reply = floo::forf_lent(b"5 3 + 0 mset", 100, &mut stack, &mut execution, &mut memory, &mut outcome);
/// assert_eq!((reply.refused, reply.memory, reply.steps, memory[0]), (0, 0, 5, 8));
/// ```
#[allow(unsafe_code)]
pub fn forf_lent(
    script: &[u8],
    fuel: u32,
    stack: &mut [u32],
    execution: &mut [u32],
    memory: &mut [u32],
    outcome: &mut [u8],
) -> ForfReply {
    // SAFETY: as for `run`: pointers and lengths of slices, of which those that are written overlap nothing.
    unsafe {
        forf_run(
            script.as_ptr(),
            script.len(),
            fuel,
            stack.as_mut_ptr(),
            stack.len(),
            execution.as_mut_ptr(),
            execution.len(),
            memory.as_mut_ptr(),
            memory.len(),
            outcome.as_mut_ptr(),
            outcome.len(),
        )
    }
}

/// Reads the next token of a Forf script from an offset on.
///
/// ```
/// let reply = floo::forf_token_reply(b"(x) abs", 0);
/// assert_eq!((reply.kind, reply.start, reply.size, reply.next), (2, 4, 3, 7));
/// ```
#[allow(unsafe_code)]
pub fn forf_token_reply(script: &[u8], offset: usize) -> ForfTokenReply {
    // SAFETY: pointer and length of a slice that is only read.
    unsafe { forf_token(script.as_ptr(), script.len(), offset) }
}
