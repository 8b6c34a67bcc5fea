//! The proved functions of the static library for finals, one input and files lent apart: their C signatures stand here
//! alone.
use bench::finals::Files;

/// The answer's kind: 0 refused, 1 a final.
pub type Kind = u64;

/// How many values a final has.
pub const VALUES: usize = 9;

extern "C" {
    fn tamchuwe_final(input: *const u8, length: usize, values: *mut u64, values_room: usize, count: *mut usize)
        -> Kind;
    fn tamchuwe_final_text(input: *const u8, length: usize, out: *mut u8, room: usize) -> usize;
    fn tamchuwe_final_apart(
        network: *const u8,
        network_length: usize,
        first: *const u8,
        first_length: usize,
        second: *const u8,
        second_length: usize,
        values: *mut u64,
        values_room: usize,
        count: *mut usize,
    ) -> Kind;
    fn tamchuwe_final_apart_text(
        network: *const u8,
        network_length: usize,
        first: *const u8,
        first_length: usize,
        second: *const u8,
        second_length: usize,
        out: *mut u8,
        room: usize,
    ) -> usize;
}

/// What a count holds before a call: one that no answer has, so that one left unwritten shows.
const UNWRITTEN: usize = usize::MAX;

/// The answer's kind and how many values it has, of which as many as fit go into `values`.
pub fn of_one_input(input: &[u8], values: &mut [u64]) -> (Kind, usize) {
    let mut count = UNWRITTEN;
    let kind = unsafe { tamchuwe_final(input.as_ptr(), input.len(), values.as_mut_ptr(), values.len(), &mut count) };
    (kind, count)
}

/// The length of the printed lines, which go into `out` if they fit.
pub fn one_input_text(input: &[u8], out: &mut [u8]) -> usize {
    unsafe { tamchuwe_final_text(input.as_ptr(), input.len(), out.as_mut_ptr(), out.len()) }
}

/// As `of_one_input`, of files lent apart.
pub fn lent_apart(files: &Files, values: &mut [u64]) -> (Kind, usize) {
    let (network, [first, second]) = (&files.network, files.plans());
    let (place, room, mut count) = (values.as_mut_ptr(), values.len(), UNWRITTEN);
    let kind = unsafe {
        tamchuwe_final_apart(
            network.as_ptr(),
            network.len(),
            first.as_ptr(),
            first.len(),
            second.as_ptr(),
            second.len(),
            place,
            room,
            &mut count,
        )
    };
    (kind, count)
}

/// As `one_input_text`, of files lent apart.
pub fn apart_text(files: &Files, out: &mut [u8]) -> usize {
    let (network, [first, second]) = (&files.network, files.plans());
    unsafe {
        tamchuwe_final_apart_text(
            network.as_ptr(),
            network.len(),
            first.as_ptr(),
            first.len(),
            second.as_ptr(),
            second.len(),
            out.as_mut_ptr(),
            out.len(),
        )
    }
}

/// Null where a length is 0, as the header allows: the empty input is refused, and lengths and counts are answered.
pub fn takes_null() -> bool {
    let (none, out) = (std::ptr::null(), std::ptr::null_mut());
    let (no_values, mut one, mut apart) = (std::ptr::null_mut(), UNWRITTEN, UNWRITTEN);
    let refused = "REFUSED 1 0\n".len();
    unsafe {
        tamchuwe_final(none, 0, no_values, 0, &mut one) == 0
            && one == VALUES
            && tamchuwe_final_apart(none, 0, none, 0, none, 0, no_values, 0, &mut apart) == 0
            && apart == VALUES
            && tamchuwe_final_text(none, 0, out, 0) == refused
            && tamchuwe_final_apart_text(none, 0, none, 0, none, 0, out, 0) == refused
    }
}
