//! The verifier of hardened RV64IM images: whether an image and its graph meet the rules, what a loader maps of the image, and
//! which system calls it may make.
//!
//! [`verify`] is compiled from code whose contracts are proved (`crates/rvcfi_c`); this crate calls it and is not proved. An
//! [`Accepted`] borrows the image, so what was verified cannot change while it is there, and a loader maps just that.
//!
//! ```
//! # let folder = concat!(env!("CARGO_MANIFEST_DIR"), "/../../tests/pairs");
//! let image = std::fs::read(format!("{folder}/plugin.img"))?;
//! let graph = std::fs::read(format!("{folder}/plugin.graph"))?;
//! let plugin = rvcfi::verify(&image, &graph)?;
//! assert_eq!(plugin.calls(), Some(&[63, 64, 93][..]));
//! assert_eq!((plugin.entry(), plugin.code().bytes.len()), (0x4000000c, 2532));
//! # Ok::<(), Box<dyn std::error::Error>>(())
//! ```
//!
//! What is refused says why in the words of the program `rvcfi verify`:
//!
//! ```
//! let refused = rvcfi::verify(b"no image", b"no graph").unwrap_err();
//! assert_eq!(refused.to_string(), "refused 22 Short 8");
//! ```
//!
//! What the image was verified for cannot change under it:
//!
//! ```compile_fail,E0502
//! # let folder = concat!(env!("CARGO_MANIFEST_DIR"), "/../../tests/pairs");
//! # let mut image = std::fs::read(format!("{folder}/plugin.img"))?;
//! # let graph = std::fs::read(format!("{folder}/plugin.graph"))?;
//! let plugin = rvcfi::verify(&image, &graph)?;
//! image[0x1040] = 0;
//! println!("{}", plugin.entry());
//! # Ok::<(), Box<dyn std::error::Error>>(())
//! ```
//!
//! [`verify`] takes memory from the C library's `malloc`. It needs 8,192 bytes of stack, and is not called from a signal handler,
//! nor from the forked child of a process with threads.
#![deny(unsafe_code)]
#![warn(missing_docs)]

pub use rejection::{BadImage, Reason, Rejection, Rule};

#[allow(unsafe_code)]
mod ffi;
mod rejection;
#[cfg(test)]
mod tests;

use std::ops::Range;

/// An image that was accepted with its graph. Every run of it, loaded as `docs/MACHINE.md` says, moves only along the graph.
#[derive(Clone, Copy, Debug)]
pub struct Accepted<'a> {
    image: &'a [u8],
    plan: ffi::Plan,
    calls: Option<Calls>,
}

/// A part of an image's file, and where a loader puts it.
#[derive(Clone, Copy, Debug, PartialEq, Eq)]
pub struct Part<'a> {
    /// Where its first byte goes.
    pub address: u64,
    /// The bytes.
    pub bytes: &'a [u8],
}

/// The numbers of a list, and how many there are.
#[derive(Clone, Copy, Debug)]
struct Calls {
    numbers: [u16; ffi::MOST_CALLS],
    count: usize,
}

/// Whether two texts are an image and its graph and go together; where they do not, the first fault.
pub fn verify<'a>(image: &'a [u8], graph: &[u8]) -> Result<Accepted<'a>, Rejection> {
    if let Some(rejection) = Rejection::of(&ffi::verify(image, graph)) {
        return Err(rejection);
    }
    let plan = ffi::plan(image).expect("an accepted image has a plan");
    Ok(Accepted {
        image,
        plan,
        calls: calls(graph)?,
    })
}

/// The list of an accepted image's graph, if it has one.
fn calls(graph: &[u8]) -> Result<Option<Calls>, Rejection> {
    match ffi::calls(graph) {
        (0, numbers, count) => Ok(Some(Calls { numbers, count })),
        (1, ..) => Ok(None),
        (4, ..) => Err(Rejection::NoMemory),
        (answer, ..) => panic!("a graph that was read is none: {answer}"),
    }
}

impl<'a> Accepted<'a> {
    /// The code: what follows in its region are zeros, and eight bytes behind the region are zeros too, which can be read.
    pub fn code(&self) -> Part<'a> {
        let plan = &self.plan;
        self.part(plan.code_address, plan.code_offset, plan.code_length)
    }

    /// The initialised data; all other bytes of its region are zeros.
    pub fn data(&self) -> Part<'a> {
        let plan = &self.plan;
        self.part(plan.data_address, plan.data_offset, plan.data_length)
    }

    fn part(&self, address: u64, offset: u64, length: u64) -> Part<'a> {
        let bytes = &self.image[offset as usize..][..length as usize];
        Part { address, bytes }
    }

    /// The addresses of code: to read and to execute.
    pub fn code_region(&self) -> Range<u64> {
        self.plan.code_address..self.plan.code_address + self.plan.code_size
    }

    /// The addresses of data: to read and to write.
    pub fn data_region(&self) -> Range<u64> {
        0..self.plan.data_end
    }

    /// The addresses of the shadow stack, which holds zeros: to read and to write, by the image alone.
    pub fn shadow_region(&self) -> Range<u64> {
        self.plan.shadow_address..self.plan.shadow_address + self.plan.shadow_size
    }

    /// Where each hart starts, with its number in x10 and 0 in all other registers.
    pub fn entry(&self) -> u64 {
        self.plan.entry
    }

    /// How many harts the image may have: 1 or 8.
    pub fn harts(&self) -> u32 {
        self.plan.harts
    }

    /// The image's version: 1, for one hart, or 2, for up to eight.
    pub fn version(&self) -> u32 {
        self.plan.version
    }

    /// The only system calls that the image makes, rising, but 93 where its entry returns; `None` where the graph has no list, and
    /// the image may make any.
    pub fn calls(&self) -> Option<&[u16]> {
        self.calls
            .as_ref()
            .map(|calls| &calls.numbers[..calls.count])
    }
}
