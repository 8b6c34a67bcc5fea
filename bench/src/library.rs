//! The proved functions of the static library. `include/tamchuwe.h` says what they answer and write.

extern "C" {
    fn tamchuwe_plan(
        network: *const u8,
        length: usize,
        buffer: *mut u8,
        room: usize,
        values: *mut u64,
        values_room: usize,
        count: *mut usize,
    ) -> u64;
    fn tamchuwe_plan_text(network: *const u8, length: usize, out: *mut u8, room: usize) -> usize;
    fn tamchuwe_mark(input: *const u8, length: usize, values: *mut u64, values_room: usize, count: *mut usize) -> u64;
    fn tamchuwe_mark_text(input: *const u8, length: usize, out: *mut u8, room: usize) -> usize;
}

/// What a count holds before a call: one that no reply has, so that one left unwritten shows.
const UNWRITTEN: usize = usize::MAX;

/// The reply's kind and how many values it has, of which as many as fit go into `values`; a plan's file goes into the
/// buffer.
pub fn plan(network: &[u8], buffer: &mut [u8], values: &mut [u64]) -> (u64, usize) {
    let mut count = UNWRITTEN;
    let (file, room) = (buffer.as_mut_ptr(), buffer.len());
    let (first, values_room) = (values.as_mut_ptr(), values.len());
    let kind = unsafe { tamchuwe_plan(network.as_ptr(), network.len(), file, room, first, values_room, &mut count) };
    (kind, count)
}

/// The length of the planner's printed lines, which go into `out` if they fit.
pub fn plan_text(network: &[u8], out: &mut [u8]) -> usize {
    unsafe { tamchuwe_plan_text(network.as_ptr(), network.len(), out.as_mut_ptr(), out.len()) }
}

/// The mark's kind and how many values it has, of which as many as fit go into `values`.
pub fn mark(input: &[u8], values: &mut [u64]) -> (u64, usize) {
    let mut count = UNWRITTEN;
    let kind = unsafe { tamchuwe_mark(input.as_ptr(), input.len(), values.as_mut_ptr(), values.len(), &mut count) };
    (kind, count)
}

/// The length of the judge's printed line, which goes into `out` if it fits.
pub fn mark_text(input: &[u8], out: &mut [u8]) -> usize {
    unsafe { tamchuwe_mark_text(input.as_ptr(), input.len(), out.as_mut_ptr(), out.len()) }
}

/// Null where the length is 0, as the header allows: the empty input is refused, and lengths and counts are answered.
pub fn takes_null() -> bool {
    let (none, out) = (std::ptr::null(), std::ptr::null_mut());
    let (no_values, mut reply, mut mark) = (std::ptr::null_mut(), UNWRITTEN, UNWRITTEN);
    let refused = "REFUSED 1 0\n".len();
    unsafe {
        tamchuwe_plan(none, 0, out, 0, no_values, 0, &mut reply) == 0
            && reply == 5
            && tamchuwe_mark(none, 0, no_values, 0, &mut mark) == 0
            && mark == 2
            && tamchuwe_plan_text(none, 0, out, 0) == refused
            && tamchuwe_mark_text(none, 0, out, 0) == refused
    }
}
