//! The C functions, and the one place with unsafe code. Each function here is safe for every argument: the library takes
//! every bit pattern and always returns, touches no memory but the arrays it is given, and a slice is good for its length.
//! That a written array overlaps no other is what `&mut` says.

use crate::Disk;

mod c {
    extern "C" {
        pub fn jb_sin(x: f32) -> f32;
        pub fn jb_cos(x: f32) -> f32;
        pub fn jb_tanh(x: f32) -> f32;
        pub fn jb_exp(x: f32) -> f32;
        pub fn jb_atan2(y: f32, x: f32) -> f32;
        pub fn jb_sqrt(x: f32) -> f32;
        pub fn jb_narrow(x: f64) -> f32;
        pub fn jb_answer_line(line: *const u8, line_len: usize, out: *mut u8, out_len: usize) -> u32;
        pub fn jb_ring_record(
            samples: *const f32,
            samples_len: usize,
            angles: *const f32,
            angles_len: usize,
            fit: *mut f32,
            fit_len: usize,
            counts: *mut u32,
            counts_len: usize,
        ) -> u32;
        pub fn jb_fit_disk(
            val_energy: f32,
            base0: f32,
            base1: f32,
            xs: *const f32,
            xs_len: usize,
            ys: *const f32,
            ys_len: usize,
            vals_centered: *const f32,
            vals_centered_len: usize,
            grad_angles: *const f32,
            grad_angles_len: usize,
            grad_weights: *const f32,
            grad_weights_len: usize,
            fit: *mut f32,
            fit_len: usize,
            counts: *mut u32,
            counts_len: usize,
        ) -> u32;
    }
}

pub fn sin(x: f32) -> f32 {
    // SAFETY: a value for values; no memory is touched.
    unsafe { c::jb_sin(x) }
}

pub fn cos(x: f32) -> f32 {
    // SAFETY: a value for values; no memory is touched.
    unsafe { c::jb_cos(x) }
}

pub fn tanh(x: f32) -> f32 {
    // SAFETY: a value for values; no memory is touched.
    unsafe { c::jb_tanh(x) }
}

pub fn exp(x: f32) -> f32 {
    // SAFETY: a value for values; no memory is touched.
    unsafe { c::jb_exp(x) }
}

pub fn atan2(y: f32, x: f32) -> f32 {
    // SAFETY: a value for values; no memory is touched.
    unsafe { c::jb_atan2(y, x) }
}

pub fn sqrt(x: f32) -> f32 {
    // SAFETY: a value for values; no memory is touched.
    unsafe { c::jb_sqrt(x) }
}

pub fn narrow(x: f64) -> f32 {
    // SAFETY: a value for values; no memory is touched.
    unsafe { c::jb_narrow(x) }
}

pub fn answer_line(line: &[u8], out: &mut [u8]) -> u32 {
    // SAFETY: pointers and lengths of live slices, the written one borrowed alone.
    unsafe { c::jb_answer_line(line.as_ptr(), line.len(), out.as_mut_ptr(), out.len()) }
}

pub fn ring_record(samples: &[f32], angles: &[f32], fit: &mut [f32], counts: &mut [u32]) -> u32 {
    // SAFETY: pointers and lengths of live slices, the written ones borrowed alone.
    unsafe {
        c::jb_ring_record(
            samples.as_ptr(),
            samples.len(),
            angles.as_ptr(),
            angles.len(),
            fit.as_mut_ptr(),
            fit.len(),
            counts.as_mut_ptr(),
            counts.len(),
        )
    }
}

pub fn fit_disk(disk: &Disk<'_>, fit: &mut [f32], counts: &mut [u32]) -> u32 {
    // SAFETY: pointers and lengths of live slices, the written ones borrowed alone.
    unsafe {
        c::jb_fit_disk(
            disk.val_energy,
            disk.base0,
            disk.base1,
            disk.xs.as_ptr(),
            disk.xs.len(),
            disk.ys.as_ptr(),
            disk.ys.len(),
            disk.vals_centered.as_ptr(),
            disk.vals_centered.len(),
            disk.grad_angles.as_ptr(),
            disk.grad_angles.len(),
            disk.grad_weights.as_ptr(),
            disk.grad_weights.len(),
            fit.as_mut_ptr(),
            fit.len(),
            counts.as_mut_ptr(),
            counts.len(),
        )
    }
}

/// The calls with tables, for which this crate needs a heap.
#[cfg(feature = "alloc")]
pub mod tables {
    /// Words of the struct jb_tables, which is their array and nothing else.
    pub const WORDS: usize = 14089;

    pub type Words = [f32; WORDS];

    mod c {
        extern "C" {
            pub fn jb_tables_fresh(tables: *mut super::Words);
            pub fn jb_tables_store(tables: *mut super::Words, angles: *const f32, angles_len: usize) -> u32;
            pub fn jb_tables_fit(
                tables: *const super::Words,
                samples: *const f32,
                samples_len: usize,
                angles: *const f32,
                angles_len: usize,
                fit: *mut f32,
                fit_len: usize,
                counts: *mut u32,
                counts_len: usize,
            ) -> u32;
        }
    }

    pub fn fresh(tables: &mut Words) {
        // SAFETY: all words of live tables, borrowed alone.
        unsafe { c::jb_tables_fresh(tables) }
    }

    pub fn store(tables: &mut Words, angles: &[f32]) -> u32 {
        // SAFETY: all words of live tables, borrowed alone; pointer and length of a live slice.
        unsafe { c::jb_tables_store(tables, angles.as_ptr(), angles.len()) }
    }

    pub fn fit(tables: &Words, samples: &[f32], angles: &[f32], fit: &mut [f32], counts: &mut [u32]) -> u32 {
        // SAFETY: all words of live tables, which are read alone; pointers and lengths of live slices, the written ones
        // borrowed alone.
        unsafe {
            c::jb_tables_fit(
                tables,
                samples.as_ptr(),
                samples.len(),
                angles.as_ptr(),
                angles.len(),
                fit.as_mut_ptr(),
                fit.len(),
                counts.as_mut_ptr(),
                counts.len(),
            )
        }
    }
}

#[cfg(test)]
mod tests {
    use super::*;

    const ONE: [f32; 1] = [0.0];
    const FLAT: Disk<'static> = Disk {
        val_energy: 0.0,
        base0: 0.0,
        base1: core::f32::consts::FRAC_PI_2,
        xs: &ONE,
        ys: &ONE,
        vals_centered: &ONE,
        grad_angles: &ONE,
        grad_weights: &ONE,
    };

    #[test]
    fn short_ring_buffers_are_refused_and_kept() {
        let (mut fit, mut counts) = ([7.0; 7], [7; 4]);
        for n in [16, 24] {
            let zeros = &[0.0; 24][..n];
            assert_eq!(ring_record(zeros, zeros, &mut fit[..6], &mut counts), 65536);
            assert_eq!(ring_record(zeros, zeros, &mut fit, &mut counts[..3]), 65536);
            assert_eq!((fit, counts), ([7.0; 7], [7; 4]));
        }
    }

    #[cfg(feature = "alloc")]
    #[test]
    fn short_buffers_by_tables_are_refused_and_kept() {
        let (words, zeros, mut fit, mut counts) = ([0.0; tables::WORDS], [0.0; 16], [7.0; 8], [7; 5]);
        assert_eq!(tables::fit(&words, &zeros, &zeros, &mut fit[..6], &mut counts), 65536);
        assert_eq!(tables::fit(&words, &zeros, &zeros, &mut fit, &mut counts[..3]), 65536);
        assert_eq!((fit, counts), ([7.0; 8], [7; 5]));
        assert_eq!(tables::fit(&words, &zeros, &zeros, &mut fit, &mut counts), 0);
        assert_eq!((fit[7], counts[4]), (7.0, 7));
    }

    #[test]
    fn short_disk_buffers_are_refused_and_kept() {
        let (mut fit, mut counts) = ([7.0; 11], [7; 2]);
        assert_eq!(fit_disk(&FLAT, &mut fit[..10], &mut counts), 65536);
        assert_eq!(fit_disk(&FLAT, &mut fit, &mut counts[..1]), 65536);
        assert_eq!((fit, counts), ([7.0; 11], [7; 2]));
    }

    /// Short buffers are looked at first: this disk would be refused for its pixel count.
    #[test]
    fn short_disk_buffers_come_before_the_disk() {
        let empty = Disk { xs: &[], ..FLAT };
        assert_eq!(fit_disk(&empty, &mut [7.0; 10], &mut [7; 2]), 65536);
        assert_eq!(fit_disk(&empty, &mut [7.0; 11], &mut [7; 2]), 131072);
    }

    #[test]
    fn a_refusal_keeps_buffers_that_are_long_enough() {
        let (mut fit, mut counts) = ([7.0; 12], [7; 3]);
        assert_eq!(fit_disk(&FLAT, &mut fit, &mut counts), 262144 + 96);
        assert_eq!((fit, counts), ([7.0; 12], [7; 3]));
    }
}
