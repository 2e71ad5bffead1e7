//! The operations with their answers as plain numbers, as include/jestrunas.h has them, on slices.
//! A slice is valid for its length, and a `&mut` one overlaps no other: this is all that the library asks of a caller.

use crate::SHARES_MAX;

#[derive(Clone, Copy, Debug, PartialEq, Eq)]
#[repr(C)]
pub struct Verdict {
    pub reason: usize,
    pub place: usize,
    pub component: usize,
}

#[derive(Clone, Copy, Debug, PartialEq, Eq)]
#[repr(C)]
pub struct Judged {
    pub reason: usize,
    pub place: usize,
    pub component: usize,
    pub trials: usize,
}

#[derive(Clone, Copy, Debug, PartialEq, Eq)]
#[repr(C)]
pub struct Forecast {
    pub reason: usize,
    pub workspace: usize,
    pub trials: usize,
}

#[derive(Clone, Copy, Debug, PartialEq, Eq)]
#[repr(C)]
pub struct Shares {
    pub share: [u8; SHARES_MAX],
}

#[derive(Clone, Copy, Debug, PartialEq, Eq)]
#[repr(C)]
pub struct Run {
    pub reason: usize,
    pub shares: Shares,
}

#[derive(Clone, Copy, Debug, PartialEq, Eq)]
#[repr(C)]
pub struct Produced {
    pub reason: usize,
    pub length: usize,
}

extern "C" {
    fn jestrunas_read(file: *const u8, file_len: usize) -> Verdict;
    fn jestrunas_forecast(file: *const u8, file_len: usize) -> Forecast;
    fn jestrunas_judge(file: *const u8, file_len: usize, workspace: *mut u8, workspace_len: usize) -> Judged;
    fn jestrunas_run(file: *const u8, file_len: usize, shares: Shares) -> Run;
    fn jestrunas_produce(
        m: usize,
        s: usize,
        table: *const u8,
        table_len: usize,
        placement: *const u8,
        placement_len: usize,
        output: *mut u8,
        output_len: usize,
    ) -> Produced;
    fn jestrunas_join(
        first: *const u8,
        first_len: usize,
        second: *const u8,
        second_len: usize,
        output: *mut u8,
        output_len: usize,
    ) -> Produced;
    fn jestrunas_transform(m: usize, input: *const u8, input_len: usize, output: *mut u8, output_len: usize) -> usize;
}

pub fn read(file: &[u8]) -> Verdict {
    unsafe { jestrunas_read(file.as_ptr(), file.len()) }
}

pub fn forecast(file: &[u8]) -> Forecast {
    unsafe { jestrunas_forecast(file.as_ptr(), file.len()) }
}

pub fn judge(file: &[u8], workspace: &mut [u8]) -> Judged {
    unsafe { jestrunas_judge(file.as_ptr(), file.len(), workspace.as_mut_ptr(), workspace.len()) }
}

pub fn run(file: &[u8], shares: [u8; SHARES_MAX]) -> Run {
    unsafe { jestrunas_run(file.as_ptr(), file.len(), Shares { share: shares }) }
}

pub fn produce(m: usize, s: usize, table: &[u8], placement: &[u8], output: &mut [u8]) -> Produced {
    unsafe {
        jestrunas_produce(
            m,
            s,
            table.as_ptr(),
            table.len(),
            placement.as_ptr(),
            placement.len(),
            output.as_mut_ptr(),
            output.len(),
        )
    }
}

pub fn join(first: &[u8], second: &[u8], output: &mut [u8]) -> Produced {
    unsafe { jestrunas_join(first.as_ptr(), first.len(), second.as_ptr(), second.len(), output.as_mut_ptr(), output.len()) }
}

pub fn transform(m: usize, input: &[u8], output: &mut [u8]) -> usize {
    unsafe { jestrunas_transform(m, input.as_ptr(), input.len(), output.as_mut_ptr(), output.len()) }
}
