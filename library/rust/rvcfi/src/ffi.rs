//! The functions of `library/include/rvcfi.h`, whose declarations are trusted, as safe ones. All `unsafe` of the crate is here.

use std::mem::{offset_of, size_of};

/// `struct rvcfi_verdict`.
#[repr(C)]
#[derive(Clone, Copy, Debug, Default)]
pub(crate) struct Verdict {
    pub outcome: u32,
    pub reason: u32,
    pub first: u64,
    pub second: u64,
}

/// `struct rvcfi_image_plan`.
#[repr(C)]
#[derive(Clone, Copy, Debug, Default)]
pub(crate) struct Plan {
    pub version: u32,
    pub harts: u32,
    pub entry: u64,
    pub code_offset: u64,
    pub code_length: u64,
    pub code_address: u64,
    pub code_size: u64,
    pub data_offset: u64,
    pub data_length: u64,
    pub data_address: u64,
    pub data_end: u64,
    pub shadow_address: u64,
    pub shadow_size: u64,
}

const _: () = assert!(size_of::<Verdict>() == 24 && offset_of!(Verdict, second) == 16);
const _: () = assert!(size_of::<Plan>() == 96 && offset_of!(Plan, shadow_size) == 88);
const _: () = assert!(size_of::<usize>() == 8);

/// `RVCFI_CALLS_MOST`: how many numbers a list has at most.
pub(crate) const MOST_CALLS: usize = 8;

extern "C" {
    fn rvcfi_verify(
        image: *const u8,
        image_len: usize,
        graph: *const u8,
        graph_len: usize,
        verdict: *mut Verdict,
    ) -> u32;

    fn rvcfi_plan(image: *const u8, image_len: usize, plan: *mut Plan) -> u32;

    fn rvcfi_calls(
        graph: *const u8,
        graph_len: usize,
        calls: *mut u16,
        calls_len: usize,
        count: *mut u32,
    ) -> u32;
}

/// What is said of two texts.
pub(crate) fn verify(image: &[u8], graph: &[u8]) -> Verdict {
    let mut verdict = Verdict::default();
    // SAFETY: both slices are so many bytes that nobody writes while they are borrowed, and no pointer of a slice is null. The
    // verdict is aligned and this function's own.
    unsafe {
        rvcfi_verify(
            image.as_ptr(),
            image.len(),
            graph.as_ptr(),
            graph.len(),
            &mut verdict,
        );
    }
    verdict
}

/// What a loader maps of an image; `None` where the text is none.
pub(crate) fn plan(image: &[u8]) -> Option<Plan> {
    let mut plan = Plan::default();
    // SAFETY: as for `verify`.
    let answer = unsafe { rvcfi_plan(image.as_ptr(), image.len(), &mut plan) };
    (answer == 0).then_some(plan)
}

/// What `rvcfi_calls` answers, the numbers, and how many there are.
pub(crate) fn calls(graph: &[u8]) -> (u32, [u16; MOST_CALLS], usize) {
    let (mut numbers, mut count) = ([0; MOST_CALLS], 0);
    // SAFETY: as for `verify`; the numbers are initialised, and as many as the call is told.
    let answer = unsafe {
        rvcfi_calls(
            graph.as_ptr(),
            graph.len(),
            numbers.as_mut_ptr(),
            numbers.len(),
            &mut count,
        )
    };
    (answer, numbers, count as usize)
}
