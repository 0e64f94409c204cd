//! The calls of the static library, as include/matchcheck.h has them. All `unsafe` of the two calls stands here.
use std::marker::PhantomData;

/// The question stands for nothing, or there is no such report.
pub const NO_FORM: u8 = 2;
/// Memory was refused.
pub const NO_MEMORY: u8 = 6;
/// The room is too small.
pub const NO_ROOM: u8 = 7;

/// How a call ended, and how many bytes its text has.
#[repr(C)]
#[derive(Clone, Copy)]
pub struct Told {
    pub status: u8,
    pub length: usize,
}

/// A question, whose texts it borrows.
#[repr(C)]
pub struct Question<'w> {
    command: u8,
    width: u8,
    edition: u16,
    function: *const u8,
    function_length: usize,
    value: *const u8,
    value_length: usize,
    answers: *const u8,
    answers_length: usize,
    texts: PhantomData<&'w str>,
}

impl<'w> Question<'w> {
    pub fn new(command: u8, width: u8, edition: u16, function: &'w str, value: &'w str, answers: &'w str) -> Self {
        Question {
            command,
            width,
            edition,
            function: function.as_ptr(),
            function_length: function.len(),
            value: value.as_ptr(),
            value_length: value.len(),
            answers: answers.as_ptr(),
            answers_length: answers.len(),
            texts: PhantomData,
        }
    }
}

unsafe extern "C" {
    fn matchcheck_report(
        question: *const Question<'_>,
        source: *const u8,
        source_length: usize,
        room: *mut u8,
        room_length: usize,
    ) -> Told;

    fn matchcheck_explain(
        name: *const u8,
        name_length: usize,
        source: *const u8,
        source_length: usize,
        report: *const u8,
        report_length: usize,
        arms: *const u8,
        arms_length: usize,
        room: *mut u8,
        room_length: usize,
    ) -> Told;
}

pub fn report(question: &Question<'_>, source: &[u8], room: &mut [u8]) -> Told {
    // SAFETY: slices are whole, initialised, not null also where they are empty, and a `&mut` one overlaps no other.
    // The texts of the question are borrowed as long as it lives.
    unsafe { matchcheck_report(question, source.as_ptr(), source.len(), room.as_mut_ptr(), room.len()) }
}

pub fn explain(name: &[u8], source: &[u8], report: &[u8], arms: &[u8], room: &mut [u8]) -> Told {
    // SAFETY: slices are whole, initialised, not null also where they are empty, and a `&mut` one overlaps no other.
    unsafe {
        matchcheck_explain(
            name.as_ptr(),
            name.len(),
            source.as_ptr(),
            source.len(),
            report.as_ptr(),
            report.len(),
            arms.as_ptr(),
            arms.len(),
            room.as_mut_ptr(),
            room.len(),
        )
    }
}
