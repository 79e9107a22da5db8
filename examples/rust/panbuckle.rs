//! Panbuckle from Rust: the C face's declarations, and a safe function for each. Link with libpanbuckle_c.a.

mod face {
    extern "C" {
        pub fn panbuckle_version_3() -> u32;
        pub fn panbuckle_forward(
            points: *const i32,
            points_length: usize,
            work: *mut i32,
            work_length: usize,
            rects: *mut i32,
            rects_length: usize,
            result: *mut u64,
        ) -> u32;
        pub fn panbuckle_step(work: *mut i32, work_length: usize, count: usize, rect: *mut i32, result: *mut u64) -> u32;
        pub fn panbuckle_backward(rects: *const i32, rects_length: usize, points: *mut i32, points_length: usize, result: *mut u64) -> u32;
        pub fn panbuckle_read_gdsii(
            bytes: *const u8,
            bytes_length: usize,
            name: *const u8,
            name_length: usize,
            layer: i32,
            scratch: *mut i32,
            corners: *mut i32,
            corners_length: usize,
            result: *mut u64,
        ) -> u32;
    }
}

/// The version of the face that is declared above.
const VERSION: u32 = 3;

/// The version of the archive, which has it in the function's name too. Every call below asks for it, so that a program with declarations of
/// another version does not link.
pub fn version() -> u32 {
    // SAFETY: it takes nothing.
    unsafe { face::panbuckle_version_3() }
}

/// A refusal: its number and its place, as `include/panbuckle.h` says them.
#[derive(Debug, PartialEq, Eq)]
pub struct Refused {
    pub number: u32,
    pub place: u64,
}

/// What forward says of a list. The edge is the length of the outline of the marked cells, without seams.
#[derive(Debug, PartialEq, Eq)]
pub struct Sums {
    pub count: usize,
    pub area: u64,
    pub edge: u64,
}

/// The rectangles of the points, written to the start of `rects`.
pub fn forward(points: &[i32], work: &mut [i32], rects: &mut [i32]) -> Result<Sums, Refused> {
    assert_eq!(version(), VERSION);
    let mut result = [0; 5];
    // SAFETY: each pointer is that of a slice, with the slice's length, and Rust lets no slice that is lent to be written overlap another.
    let number = unsafe {
        face::panbuckle_forward(
            points.as_ptr(),
            points.len(),
            work.as_mut_ptr(),
            work.len(),
            rects.as_mut_ptr(),
            rects.len(),
            result.as_mut_ptr(),
        )
    };
    let [_, place, count, area, edge] = result;
    if number == 0 {
        Ok(Sums { count: count as usize, area, edge })
    } else {
        Err(Refused { number, place })
    }
}

/// The first rectangle of the `count` points at the start of `work`, and how many points are left there.
pub fn step(work: &mut [i32], count: usize) -> Result<([i32; 4], usize), Refused> {
    assert_eq!(version(), VERSION);
    let (mut rect, mut result) = ([0; 4], [0; 3]);
    // SAFETY: as above; the two arrays have the sizes that the header names.
    let number = unsafe { face::panbuckle_step(work.as_mut_ptr(), work.len(), count, rect.as_mut_ptr(), result.as_mut_ptr()) };
    let [_, place, left] = result;
    if number == 0 {
        Ok((rect, left as usize))
    } else {
        Err(Refused { number, place })
    }
}

/// How many points are a corner of an odd number of the rectangles; they are written to the start of `points`.
pub fn backward(rects: &[i32], points: &mut [i32]) -> Result<usize, Refused> {
    assert_eq!(version(), VERSION);
    let mut result = [0; 3];
    // SAFETY: as above.
    let number = unsafe { face::panbuckle_backward(rects.as_ptr(), rects.len(), points.as_mut_ptr(), points.len(), result.as_mut_ptr()) };
    let [_, place, count] = result;
    if number == 0 {
        Ok(count as usize)
    } else {
        Err(Refused { number, place })
    }
}

/// How many corners the layer's boundaries have in the structure of the name; they are written to the start of `corners`, ready for forward.
pub fn read_gdsii(bytes: &[u8], name: &[u8], layer: i32, scratch: &mut [i32; 8192], corners: &mut [i32]) -> Result<usize, Refused> {
    assert_eq!(version(), VERSION);
    let mut result = [0; 3];
    // SAFETY: as above.
    let number = unsafe {
        face::panbuckle_read_gdsii(
            bytes.as_ptr(),
            bytes.len(),
            name.as_ptr(),
            name.len(),
            layer,
            scratch.as_mut_ptr(),
            corners.as_mut_ptr(),
            corners.len(),
            result.as_mut_ptr(),
        )
    };
    let [_, place, count] = result;
    if number == 0 {
        Ok(count as usize)
    } else {
        Err(Refused { number, place })
    }
}
