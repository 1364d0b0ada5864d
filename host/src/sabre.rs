//! The library's C interface and safe wrappers of the same form as the functions of src/plain.rs.

use crate::calls::Manager;

mod c {
    extern "C" {
        pub fn sabre_start(area: *mut u8, len: usize, slots: u32, delay: u64, answer: *mut u64) -> u32;
        pub fn sabre_begin(area: *mut u8, len: usize, level: u32, row: u32, deadline: u64, answer: *mut u64) -> u32;
        pub fn sabre_request(area: *mut u8, len: usize, level: u32, row: u32, page: u32, mode: u32, answer: *mut u64) -> u32;
        pub fn sabre_unpin(area: *mut u8, len: usize, level: u32, row: u32, page: u32, answer: *mut u64) -> u32;
        pub fn sabre_end(area: *mut u8, len: usize, level: u32, row: u32, answer: *mut u64) -> u32;
        pub fn sabre_tick(area: *mut u8, len: usize, list: *mut u8, list_len: usize, answer: *mut u64) -> u32;
        pub fn sabre_look(area: *const u8, len: usize, level: u32, row: u32, answer: *mut u64) -> u32;
        pub fn sabre_view(area: *const u8, len: usize, level: u32, page: u32, answer: *mut u64) -> u32;
        pub fn sabre_count(area: *const u8, len: usize, level: u32, answer: *mut u64) -> u32;
        pub fn sabre_borders(area: *mut u8, len: usize, first: u32, second: u32, third: u32, answer: *mut u64) -> u32;
    }
}

// Safety of all ten: the library is lent the area, and for a tick the list, by address and length and
// the answer by the address of four numbers, for the time of the call. None overlaps another.

pub fn start(area: &mut [u8], slots: u32, delay: u64, answer: &mut [u64; 4]) -> u32 {
    unsafe { c::sabre_start(area.as_mut_ptr(), area.len(), slots, delay, answer.as_mut_ptr()) }
}

pub fn begin(area: &mut [u8], level: u32, row: u32, deadline: u64, answer: &mut [u64; 4]) -> u32 {
    unsafe { c::sabre_begin(area.as_mut_ptr(), area.len(), level, row, deadline, answer.as_mut_ptr()) }
}

pub fn request(area: &mut [u8], level: u32, row: u32, page: u32, mode: u32, answer: &mut [u64; 4]) -> u32 {
    unsafe { c::sabre_request(area.as_mut_ptr(), area.len(), level, row, page, mode, answer.as_mut_ptr()) }
}

pub fn unpin(area: &mut [u8], level: u32, row: u32, page: u32, answer: &mut [u64; 4]) -> u32 {
    unsafe { c::sabre_unpin(area.as_mut_ptr(), area.len(), level, row, page, answer.as_mut_ptr()) }
}

pub fn end(area: &mut [u8], level: u32, row: u32, answer: &mut [u64; 4]) -> u32 {
    unsafe { c::sabre_end(area.as_mut_ptr(), area.len(), level, row, answer.as_mut_ptr()) }
}

pub fn tick(area: &mut [u8], list: &mut [u8], answer: &mut [u64; 4]) -> u32 {
    unsafe {
        c::sabre_tick(area.as_mut_ptr(), area.len(), list.as_mut_ptr(), list.len(), answer.as_mut_ptr())
    }
}

pub fn look(area: &[u8], level: u32, row: u32, answer: &mut [u64; 4]) -> u32 {
    unsafe { c::sabre_look(area.as_ptr(), area.len(), level, row, answer.as_mut_ptr()) }
}

pub fn view(area: &[u8], level: u32, page: u32, answer: &mut [u64; 4]) -> u32 {
    unsafe { c::sabre_view(area.as_ptr(), area.len(), level, page, answer.as_mut_ptr()) }
}

pub fn count(area: &[u8], level: u32, answer: &mut [u64; 4]) -> u32 {
    unsafe { c::sabre_count(area.as_ptr(), area.len(), level, answer.as_mut_ptr()) }
}

pub fn borders(area: &mut [u8], first: u32, second: u32, third: u32, answer: &mut [u64; 4]) -> u32 {
    unsafe { c::sabre_borders(area.as_mut_ptr(), area.len(), first, second, third, answer.as_mut_ptr()) }
}

pub const LIBRARY: Manager = Manager {
    name: "library",
    start,
    begin,
    request,
    unpin,
    end,
    tick,
    look,
    view,
    count,
    borders,
};
