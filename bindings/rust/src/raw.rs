//! The exported calls as they are, on numbers and slices. A slice carries its length, so each is safe for every input.

mod exported {
    extern "C" {
        pub fn saltlicker_clear(
            held: *mut u32,
            held_words: usize,
            released: *mut u32,
            released_words: usize,
            desk: *mut u32,
            desk_words: usize,
        ) -> u64;
        pub fn saltlicker_judge(
            held: *mut u32,
            held_words: usize,
            released: *mut u32,
            released_words: usize,
            desk: *mut u32,
            desk_words: usize,
            requests: *const u32,
            request_words: usize,
            answers: *mut u64,
            answer_count: usize,
        ) -> u64;
        pub fn saltlicker_read(
            rest: *const u8,
            rest_bytes: usize,
            event: *mut u32,
            event_words: usize,
        ) -> u64;
        pub fn saltlicker_write(
            room: *mut u8,
            room_bytes: usize,
            kind: u32,
            ticket: u32,
            record: u32,
        ) -> u64;
        pub fn saltlicker_order(
            trace: *const u8,
            trace_bytes: usize,
            table: *mut u32,
            table_words: usize,
            list: *mut u16,
            list_places: usize,
        ) -> u64;
        pub fn saltlicker_audit(
            trace: *const u8,
            trace_bytes: usize,
            held: *mut u32,
            held_words: usize,
            released: *mut u32,
            released_words: usize,
            at: *mut u64,
            at_words: usize,
        ) -> u64;
        pub fn saltlicker_desk_text(
            input: *const u8,
            input_bytes: usize,
            out: *mut u8,
            out_bytes: usize,
        ) -> usize;
        pub fn saltlicker_order_text(
            trace: *const u8,
            trace_bytes: usize,
            out: *mut u8,
            out_bytes: usize,
        ) -> usize;
        pub fn saltlicker_audit_text(
            trace: *const u8,
            trace_bytes: usize,
            out: *mut u8,
            out_bytes: usize,
        ) -> usize;
    }
}

// SAFETY, for every call below: each pointer and length are of one live slice, Rust's borrows keep a written slice from
// overlapping any other, and the calls are proved to stay within the slices for every length and content.

/// Clears both tables and fills the desk words with a record of free seats.
pub fn clear(held: &mut [u32], released: &mut [u32], desk: &mut [u32]) -> u64 {
    unsafe {
        exported::saltlicker_clear(
            held.as_mut_ptr(),
            held.len(),
            released.as_mut_ptr(),
            released.len(),
            desk.as_mut_ptr(),
            desk.len(),
        )
    }
}

/// Judges requests of three words each, one after the other, and puts each one's answer at its place.
pub fn judge(
    held: &mut [u32],
    released: &mut [u32],
    desk: &mut [u32],
    requests: &[u32],
    answers: &mut [u64],
) -> u64 {
    unsafe {
        exported::saltlicker_judge(
            held.as_mut_ptr(),
            held.len(),
            released.as_mut_ptr(),
            released.len(),
            desk.as_mut_ptr(),
            desk.len(),
            requests.as_ptr(),
            requests.len(),
            answers.as_mut_ptr(),
            answers.len(),
        )
    }
}

/// Reads the event at the front of the rest of a trace into three words.
pub fn read(rest: &[u8], event: &mut [u32]) -> u64 {
    unsafe { exported::saltlicker_read(rest.as_ptr(), rest.len(), event.as_mut_ptr(), event.len()) }
}

/// Puts an event at the front of the unused rest of a buffer.
pub fn write(room: &mut [u8], kind: u32, ticket: u32, record: u32) -> u64 {
    unsafe { exported::saltlicker_write(room.as_mut_ptr(), room.len(), kind, ticket, record) }
}

/// Works out the table of befores and the list of tickets of a trace.
pub fn order(trace: &[u8], table: &mut [u32], list: &mut [u16]) -> u64 {
    unsafe {
        exported::saltlicker_order(
            trace.as_ptr(),
            trace.len(),
            table.as_mut_ptr(),
            table.len(),
            list.as_mut_ptr(),
            list.len(),
        )
    }
}

/// Checks a trace and leaves the tables as after the last event allowed; a refusal puts its offset in `at`.
pub fn audit(trace: &[u8], held: &mut [u32], released: &mut [u32], at: &mut [u64]) -> u64 {
    unsafe {
        exported::saltlicker_audit(
            trace.as_ptr(),
            trace.len(),
            held.as_mut_ptr(),
            held.len(),
            released.as_mut_ptr(),
            released.len(),
            at.as_mut_ptr(),
            at.len(),
        )
    }
}

/// Puts what the desk program prints of a request file at the front of `out`, and gives its length.
pub fn desk_text(input: &[u8], out: &mut [u8]) -> usize {
    unsafe {
        exported::saltlicker_desk_text(input.as_ptr(), input.len(), out.as_mut_ptr(), out.len())
    }
}

/// Puts what the order program prints of a trace at the front of `out`, and gives its length.
pub fn order_text(trace: &[u8], out: &mut [u8]) -> usize {
    unsafe {
        exported::saltlicker_order_text(trace.as_ptr(), trace.len(), out.as_mut_ptr(), out.len())
    }
}

/// Puts what the audit program prints of a trace at the front of `out`, and gives its length.
pub fn audit_text(trace: &[u8], out: &mut [u8]) -> usize {
    unsafe {
        exported::saltlicker_audit_text(trace.as_ptr(), trace.len(), out.as_mut_ptr(), out.len())
    }
}
