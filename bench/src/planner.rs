// The planner, by its exported calls: include/slotplan.h.
pub const LONGEST: usize = 24_300;

mod exported {
    unsafe extern "C" {
        pub safe fn slotplan_longest() -> usize;
        pub fn slotplan_print(file: *const u8, file_length: usize, out: *mut u8, out_length: usize) -> usize;
        pub fn slotplan_runs(file: *const u8, file_length: usize, times: u32) -> u64;
        pub fn slotplan_loads(file: *const u8, file_length: usize, times: u32) -> u32;
    }
}

pub fn longest() -> usize {
    exported::slotplan_longest()
}

// Writes the text of a sheet at the front of the output; its length, or 0 where the output is too short.
pub fn print_into(file: &[u8], out: &mut [u8]) -> usize {
    // SAFETY: the call reads the file's bytes, and writes bytes of the output only
    unsafe { exported::slotplan_print(file.as_ptr(), file.len(), out.as_mut_ptr(), out.len()) }
}

// The text of a sheet: its listing, or the line of the refusal.
pub fn print(file: &[u8]) -> Vec<u8> {
    let mut out = vec![0; LONGEST];
    let end = print_into(file, &mut out);
    out.truncate(end);
    out
}

// From bytes to text, so many times.
pub fn prints(file: &[u8], times: u32) -> u64 {
    let mut out = [0; LONGEST];
    (0..times).map(|_| print_into(file, &mut out) as u64).sum()
}

// Loads and settles so many times; the first sensor's candidates, joined by exclusive or.
pub fn jobs(file: &[u8], times: u32) -> u64 {
    // SAFETY: the call reads the file's bytes only
    unsafe { exported::slotplan_runs(file.as_ptr(), file.len(), times) }
}

// Loads so many times and settles never; how many loads were accepted.
pub fn loads(file: &[u8], times: u32) -> u64 {
    // SAFETY: the call reads the file's bytes only
    unsafe { exported::slotplan_loads(file.as_ptr(), file.len(), times) as u64 }
}
