//! The fuzz target under libFuzzer's words, or `fuzz seeds FOLDER SEED`, which writes its first inputs.

mod input;
mod mutator;
mod seeds;
mod trial;

use std::ffi::{c_char, c_int, CString};

extern "C" {
    fn LLVMFuzzerRunDriver(
        count: *mut c_int,
        words: *mut *mut *mut c_char,
        one: extern "C" fn(*const u8, usize) -> c_int,
    ) -> c_int;
    fn atexit(last: extern "C" fn()) -> c_int;
}

fn main() -> std::io::Result<()> {
    let words: Vec<String> = std::env::args().collect();
    if let [_, kind, folder, seed] = &words[..] {
        if kind == "seeds" {
            return seeds::write(folder, seed.parse().unwrap_or(1));
        }
    }
    let strings: Vec<CString> = words
        .into_iter()
        .filter_map(|word| CString::new(word).ok())
        .collect();
    let mut pointers: Vec<*mut c_char> = strings.iter().map(|s| s.as_ptr().cast_mut()).collect();
    let mut count = pointers.len() as c_int;
    // C's list of words ends with a null.
    pointers.push(std::ptr::null_mut());
    let mut list = pointers.as_mut_ptr();
    unsafe {
        // The driver ends the program itself.
        atexit(trial::print_counts);
        LLVMFuzzerRunDriver(&mut count, &mut list, one_input);
    }
    Ok(())
}

extern "C" fn one_input(data: *const u8, size: usize) -> c_int {
    trial::hold_all(unsafe { input::lent(data, size) });
    0
}
