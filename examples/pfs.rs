//! libpfs in safe Rust. Copy this file into your program, as the module `pfs`.
use std::ffi::CStr;
use std::fmt;
use std::os::raw::{c_char, c_int, c_void};
use std::ptr::null_mut;

#[link(name = "pfs")]
extern "C" {
    fn pfs_prepare(
        times: *const u32, times_length: usize, jobs: usize, machines: usize, instance: *mut Held,
    ) -> c_int;
    fn pfs_release(instance: *mut Held);
    fn pfs_makespan(instance: *mut Held, sequence: *const u32, length: usize, makespan: *mut u64) -> c_int;
    fn pfs_bound(instance: *mut Held, bound: *mut u64) -> c_int;
    fn pfs_neh(
        instance: *mut Held, order: *mut u32, order_length: usize, makespan: *mut u64, cells: *mut u64,
    ) -> c_int;
    fn pfs_rounds(
        instance: *mut Held, options: *const Options, order: *mut u32, order_length: usize, makespan: *mut u64,
        cells: *mut u64,
    ) -> c_int;
    fn pfs_insert(
        instance: *mut Held, sequence: *const u32, length: usize, job: u32, place: *mut usize, makespan: *mut u64,
    ) -> c_int;
    fn pfs_message(number: c_int) -> *const c_char;
}

/// The struct `pfs_instance`.
#[repr(C)]
struct Held {
    at: *mut c_void,
}

/// Which rounds are made.
#[repr(C)]
#[derive(Clone, Copy, Debug)]
pub struct Options {
    pub seed: u64,
    pub take: usize,
    pub first: u32,
    pub count: u32,
    pub passes: u32,
}

/// A call of the library is rejected, or memory has run out; the number is that of pfs.h.
#[derive(Clone, Copy, Debug, PartialEq, Eq)]
pub struct Fault(pub i32);

impl fmt::Display for Fault {
    fn fmt(&self, formatter: &mut fmt::Formatter<'_>) -> fmt::Result {
        // SAFETY: the text ends with a zero byte and is never freed.
        formatter.write_str(&unsafe { CStr::from_ptr(pfs_message(self.0)) }.to_string_lossy())
    }
}

impl std::error::Error for Fault {}

fn done(number: c_int) -> Result<(), Fault> {
    if number == 0 { Ok(()) } else { Err(Fault(number)) }
}

/// A prepared instance, which is released when it is dropped.
pub struct Instance {
    held: Held,
    jobs: usize,
}

// SAFETY: an instance may be used by any thread, and `&mut self` lets only one at a time.
unsafe impl Send for Instance {}

// SAFETY of the calls below: each list has as many entries as its length says, outputs are borrowed by the call alone,
// and the struct is as the library left it.
impl Instance {
    /// The times are listed job by job.
    pub fn new(times: &[u32], jobs: usize, machines: usize) -> Result<Instance, Fault> {
        let mut instance = Instance { held: Held { at: null_mut() }, jobs };
        done(unsafe { pfs_prepare(times.as_ptr(), times.len(), jobs, machines, &mut instance.held) })?;
        Ok(instance)
    }

    pub fn makespan(&mut self, sequence: &[u32]) -> Result<u64, Fault> {
        let mut makespan = 0;
        done(unsafe { pfs_makespan(&mut self.held, sequence.as_ptr(), sequence.len(), &mut makespan) })?;
        Ok(makespan)
    }

    pub fn bound(&mut self) -> Result<u64, Fault> {
        let mut bound = 0;
        done(unsafe { pfs_bound(&mut self.held, &mut bound) })?;
        Ok(bound)
    }

    /// The order of NEH, and its makespan.
    pub fn neh(&mut self) -> Result<(Vec<u32>, u64), Fault> {
        let (mut order, mut makespan, mut cells) = (vec![0; self.jobs], 0, 0);
        done(unsafe { pfs_neh(&mut self.held, order.as_mut_ptr(), order.len(), &mut makespan, &mut cells) })?;
        Ok((order, makespan))
    }

    /// Replaces an order by the one after these rounds of iterated greedy, and returns its makespan.
    pub fn rounds(&mut self, options: &Options, order: &mut [u32]) -> Result<u64, Fault> {
        let (mut makespan, mut cells) = (0, 0);
        done(unsafe {
            pfs_rounds(&mut self.held, options, order.as_mut_ptr(), order.len(), &mut makespan, &mut cells)
        })?;
        Ok(makespan)
    }

    /// The best place of a job in a sequence without it, and the makespan with the job there.
    pub fn insert(&mut self, sequence: &[u32], job: u32) -> Result<(usize, u64), Fault> {
        let (mut place, mut makespan) = (0, 0);
        done(unsafe {
            pfs_insert(&mut self.held, sequence.as_ptr(), sequence.len(), job, &mut place, &mut makespan)
        })?;
        Ok((place, makespan))
    }
}

impl Drop for Instance {
    fn drop(&mut self) {
        // SAFETY: the instance is as the library left it.
        unsafe { pfs_release(&mut self.held) }
    }
}
