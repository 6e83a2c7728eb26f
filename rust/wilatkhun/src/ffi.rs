//! The border: `include/wilatkhun.h` as declarations, and one safe function for each. All `unsafe` is here.
//!
//! What the header asks of a caller, and why each block below keeps to it: no pointer is NULL, since a slice's and a
//! reference's never is, not even an empty slice's; each slice goes with its own length; what a call may write comes
//! from a `&mut`, which overlaps nothing else that is alive. An empty slice's pointer may equal another's, but no byte
//! is behind it. No call keeps a pointer after it returns.

/// What the numbers behind pointers hold before a call. "Always written" says the header: one that is not shows.
const UNWRITTEN: usize = 0xA5A5_A5A5_A5A5_A5A5;
const UNWRITTEN_BYTE: u8 = 0xA5;

extern "C" {
    fn wilatkhun_check(plan: *const u8, plan_len: usize, index: *mut usize) -> u8;
    fn wilatkhun_fresh(plan: *const u8, plan_len: usize, yard: *mut u8, yard_len: usize, index: *mut usize) -> u8;
    fn wilatkhun_tick(
        plan: *const u8,
        plan_len: usize,
        yard: *mut u8,
        yard_len: usize,
        command: u8,
        flags: u8,
        willing: u8,
        lost: u8,
        down: *mut u8,
        device: *mut u8,
        index: *mut usize,
    ) -> u8;
    fn wilatkhun_run(
        plan: *const u8,
        plan_len: usize,
        yard: *mut u8,
        yard_len: usize,
        roll: *const u8,
        roll_len: usize,
        budget: usize,
        engaged: *mut u8,
        engaged_len: usize,
        ticks: *mut usize,
        index: *mut usize,
    ) -> u8;
    fn wilatkhun_read(file: *const u8, file_len: usize, plan: *mut u8, plan_len: usize, index: *mut usize) -> u8;
    fn wilatkhun_write(
        plan: *const u8,
        plan_len: usize,
        file: *mut u8,
        file_len: usize,
        length: *mut usize,
        index: *mut usize,
    ) -> u8;
    fn wilatkhun_find(
        file: *const u8,
        file_len: usize,
        roll: *const u8,
        roll_len: usize,
        start: *mut usize,
        length: *mut usize,
    ) -> u8;
    fn wilatkhun_header(n: u16, out: *mut u8, out_len: usize, at: usize) -> usize;
    fn wilatkhun_list(
        plan: *const u8,
        plan_len: usize,
        yard: *mut u8,
        yard_len: usize,
        roll: *const u8,
        roll_len: usize,
        first: u32,
        out: *mut u8,
        out_len: usize,
        ticks: *mut usize,
        length: *mut usize,
        index: *mut usize,
    ) -> u8;
}

/// Number and index.
pub fn check(plan: &[u8]) -> (u8, usize) {
    let mut index = UNWRITTEN;
    // SAFETY: one shared slice with its length; `index` is our own and no part of it. Nothing else is written.
    let number = unsafe { wilatkhun_check(plan.as_ptr(), plan.len(), &mut index) };
    (number, index)
}

/// Number and index.
pub fn fresh(plan: &[u8], yard: &mut [u8]) -> (u8, usize) {
    let mut index = UNWRITTEN;
    // SAFETY: slices with their lengths; `yard` is a `&mut`, so it overlaps neither `plan` nor our own `index`.
    let number = unsafe { wilatkhun_fresh(plan.as_ptr(), plan.len(), yard.as_mut_ptr(), yard.len(), &mut index) };
    (number, index)
}

/// Number, index, down letter and its device.
pub fn tick(plan: &[u8], yard: &mut [u8], record: [u8; 4]) -> (u8, usize, u8, u8) {
    let [command, flags, willing, lost] = record;
    let (mut index, mut down, mut device) = (UNWRITTEN, UNWRITTEN_BYTE, UNWRITTEN_BYTE);
    // SAFETY: slices with their lengths; `yard` is a `&mut`, so it overlaps neither `plan` nor the three numbers,
    // which are our own and apart.
    let number = unsafe {
        wilatkhun_tick(
            plan.as_ptr(),
            plan.len(),
            yard.as_mut_ptr(),
            yard.len(),
            command,
            flags,
            willing,
            lost,
            &mut down,
            &mut device,
            &mut index,
        )
    };
    (number, index, down, device)
}

/// Number, index and ticks done.
pub fn run(plan: &[u8], yard: &mut [u8], roll: &[u8], budget: usize, engaged: &mut [u8]) -> (u8, usize, usize) {
    let (mut index, mut ticks) = (UNWRITTEN, UNWRITTEN);
    // SAFETY: slices with their lengths; `yard` and `engaged` are `&mut`, so they overlap neither each other nor the
    // shared slices; the two numbers are our own and apart.
    let number = unsafe {
        wilatkhun_run(
            plan.as_ptr(),
            plan.len(),
            yard.as_mut_ptr(),
            yard.len(),
            roll.as_ptr(),
            roll.len(),
            budget,
            engaged.as_mut_ptr(),
            engaged.len(),
            &mut ticks,
            &mut index,
        )
    };
    (number, index, ticks)
}

/// Number and index.
pub fn read(file: &[u8], plan: &mut [u8]) -> (u8, usize) {
    let mut index = UNWRITTEN;
    // SAFETY: slices with their lengths; `plan` is a `&mut`, so it overlaps neither `file` nor our own `index`.
    let number = unsafe { wilatkhun_read(file.as_ptr(), file.len(), plan.as_mut_ptr(), plan.len(), &mut index) };
    (number, index)
}

/// Number, index and bytes written.
pub fn write(plan: &[u8], file: &mut [u8]) -> (u8, usize, usize) {
    let (mut index, mut length) = (UNWRITTEN, UNWRITTEN);
    // SAFETY: slices with their lengths; `file` is a `&mut`, so it overlaps neither `plan` nor the two numbers, which are
    // our own and apart.
    let number =
        unsafe { wilatkhun_write(plan.as_ptr(), plan.len(), file.as_mut_ptr(), file.len(), &mut length, &mut index) };
    (number, index, length)
}

/// Which part (0 file, 1 roll), where the piece starts and how long it is.
pub fn find(file: &[u8], roll: &[u8]) -> (u8, usize, usize) {
    let (mut start, mut length) = (UNWRITTEN, UNWRITTEN);
    // SAFETY: two shared slices with their lengths, which may be one and the same; only our own numbers are written.
    let part = unsafe { wilatkhun_find(file.as_ptr(), file.len(), roll.as_ptr(), roll.len(), &mut start, &mut length) };
    (part, start, length)
}

/// Where the header ends.
pub fn header(n: u16, out: &mut [u8], at: usize) -> usize {
    // SAFETY: one `&mut` slice with its length; nothing else is lent. Any `at` may be asked for.
    unsafe { wilatkhun_header(n, out.as_mut_ptr(), out.len(), at) }
}

/// Number, index, ticks done and bytes of text.
pub fn list(plan: &[u8], yard: &mut [u8], roll: &[u8], first: u32, out: &mut [u8]) -> (u8, usize, usize, usize) {
    let (mut index, mut ticks, mut length) = (UNWRITTEN, UNWRITTEN, UNWRITTEN);
    // SAFETY: slices with their lengths; `yard` and `out` are `&mut`, so they overlap neither each other nor the
    // shared slices; the three numbers are our own and apart.
    let number = unsafe {
        wilatkhun_list(
            plan.as_ptr(),
            plan.len(),
            yard.as_mut_ptr(),
            yard.len(),
            roll.as_ptr(),
            roll.len(),
            first,
            out.as_mut_ptr(),
            out.len(),
            &mut ticks,
            &mut length,
            &mut index,
        )
    };
    (number, index, ticks, length)
}
