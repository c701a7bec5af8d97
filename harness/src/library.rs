//! The calls of the proved library, `libcapi.a`.

use crate::c_call;
use crate::calls::{Why, Written};

c_call!(install = "uxn_install", slice program, mutable sheet);
c_call!(load = "uxn_load", slice program);
c_call!(step = "uxn_step");
c_call!(run = "uxn_run", number budget: u32, number watch: u16);
c_call!(event = "uxn_event", number device: u32, number budget: u32, number watch: u16);
c_call!(frame = "uxn_frame", slice record, number budget: u32);

/// Admission; answers 0 if the program is admitted, else the number.
pub fn admit(program: &[u8], sheet: &mut [u8]) -> u8 {
    extern "C" {
        fn uxn_admit(
            program: *const u8,
            program_length: usize,
            sheet: *mut u8,
            sheet_length: usize,
        ) -> u8;
    }
    // Both pointers are those of live slices with their lengths, which do not overlap.
    unsafe {
        uxn_admit(
            program.as_ptr(),
            program.len(),
            sheet.as_mut_ptr(),
            sheet.len(),
        )
    }
}

/// Why a program is refused.
pub fn explain(program: &[u8]) -> Why {
    extern "C" {
        fn uxn_explain(program: *const u8, program_length: usize) -> Why;
    }
    // The pointer is that of a live slice with its length.
    unsafe { uxn_explain(program.as_ptr(), program.len()) }
}

type Move = unsafe extern "C" fn(*const u8, usize, *mut u8, usize) -> Written;

extern "C" {
    fn uxn_widen_sheet(
        sheet: *const u8,
        sheet_length: usize,
        output: *mut u8,
        output_length: usize,
    ) -> Written;
    fn uxn_narrow_sheet(
        sheet: *const u8,
        sheet_length: usize,
        output: *mut u8,
        output_length: usize,
    ) -> Written;
    fn uxn_widen_records(
        old_records: *const u8,
        old_length: usize,
        output: *mut u8,
        output_length: usize,
    ) -> Written;
    fn uxn_narrow_records(
        new_records: *const u8,
        new_length: usize,
        output: *mut u8,
        output_length: usize,
    ) -> Written;
}

/// A sheet of the old form, moved to the new one.
pub fn widen_sheet(sheet: &[u8], output: &mut [u8]) -> Written {
    moved(uxn_widen_sheet, sheet, output)
}

/// And back.
pub fn narrow_sheet(sheet: &[u8], output: &mut [u8]) -> Written {
    moved(uxn_narrow_sheet, sheet, output)
}

/// A file of frame records of the old form, moved to the new one.
pub fn widen_records(records: &[u8], output: &mut [u8]) -> Written {
    moved(uxn_widen_records, records, output)
}

/// And back.
pub fn narrow_records(records: &[u8], output: &mut [u8]) -> Written {
    moved(uxn_narrow_records, records, output)
}

fn moved(call: Move, from: &[u8], output: &mut [u8]) -> Written {
    // Both pointers are those of live slices with their lengths, which do not overlap.
    unsafe { call(from.as_ptr(), from.len(), output.as_mut_ptr(), output.len()) }
}
