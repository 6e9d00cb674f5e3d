//! The functions of `ijson.h`, with slices for its pointers and lengths.

/// The status of a call, and for a fault in a text, which text and where.
#[repr(C)]
pub(crate) struct Outcome {
    pub(crate) status: u32,
    pub(crate) text: u32,
    pub(crate) offset: usize,
}

mod foreign {
    use super::Outcome;

    extern "C" {
        pub(super) fn ijson_compact(
            seed: u64,
            text: *const u8,
            count: usize,
            output: *mut u8,
            room: usize,
            length: *mut usize,
        ) -> Outcome;
        pub(super) fn ijson_canonical(
            seed: u64,
            text: *const u8,
            count: usize,
            output: *mut u8,
            room: usize,
            length: *mut usize,
        ) -> Outcome;
        pub(super) fn ijson_get(
            seed: u64,
            text: *const u8,
            count: usize,
            pointer: *const u8,
            pointer_count: usize,
            output: *mut u8,
            room: usize,
            length: *mut usize,
        ) -> Outcome;
        pub(super) fn ijson_merge_patch(
            seed: u64,
            target: *const u8,
            count: usize,
            patch: *const u8,
            patch_count: usize,
            output: *mut u8,
            room: usize,
            length: *mut usize,
        ) -> Outcome;
        pub(super) fn ijson_equal(
            seed: u64,
            first: *const u8,
            count: usize,
            second: *const u8,
            second_count: usize,
            equal: *mut u8,
        ) -> Outcome;
        pub(super) fn ijson_hash(seed: u64, text: *const u8, count: usize, hash_seed: u64, hash: *mut u64) -> Outcome;
    }
}

// Safety of each call: a slice has as many bytes as its length, its pointer is never null, and the borrow checker keeps an output apart from
// the texts. The functions read and write nothing else, keep no pointer, and accept any bytes.

pub(crate) fn compact(seed: u64, text: &[u8], output: &mut [u8], length: &mut usize) -> Outcome {
    unsafe { foreign::ijson_compact(seed, text.as_ptr(), text.len(), output.as_mut_ptr(), output.len(), length) }
}

pub(crate) fn canonical(seed: u64, text: &[u8], output: &mut [u8], length: &mut usize) -> Outcome {
    unsafe { foreign::ijson_canonical(seed, text.as_ptr(), text.len(), output.as_mut_ptr(), output.len(), length) }
}

pub(crate) fn get(seed: u64, text: &[u8], pointer: &[u8], output: &mut [u8], length: &mut usize) -> Outcome {
    unsafe {
        foreign::ijson_get(
            seed,
            text.as_ptr(),
            text.len(),
            pointer.as_ptr(),
            pointer.len(),
            output.as_mut_ptr(),
            output.len(),
            length,
        )
    }
}

pub(crate) fn merge_patch(seed: u64, target: &[u8], patch: &[u8], output: &mut [u8], length: &mut usize) -> Outcome {
    unsafe {
        foreign::ijson_merge_patch(
            seed,
            target.as_ptr(),
            target.len(),
            patch.as_ptr(),
            patch.len(),
            output.as_mut_ptr(),
            output.len(),
            length,
        )
    }
}

pub(crate) fn equal(seed: u64, first: &[u8], second: &[u8], equal: &mut u8) -> Outcome {
    unsafe { foreign::ijson_equal(seed, first.as_ptr(), first.len(), second.as_ptr(), second.len(), equal) }
}

pub(crate) fn hash(seed: u64, text: &[u8], hash_seed: u64, hash: &mut u64) -> Outcome {
    unsafe { foreign::ijson_hash(seed, text.as_ptr(), text.len(), hash_seed, hash) }
}
