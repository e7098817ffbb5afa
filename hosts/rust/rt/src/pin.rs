//! Processors for cores.

use crate::Error;

/// On which processors the cores run.
///
/// ```
/// use fairexec_rt::{Executor, Pin};
///
/// let pinned = Executor::builder().cores(2).pin(Pin::List(vec![0, 0]));
/// pinned.run(|here| async move { println!("core {} runs on processor 0", here.core()) })?;
/// # Ok::<(), fairexec_rt::Error>(())
/// ```
#[derive(Clone, PartialEq, Eq, Debug, Default)]
#[non_exhaustive]
pub enum Pin {
    /// Wherever the system puts their threads.
    #[default]
    No,
    /// Core 0 on the processor of this number, and each further core on the next one.
    From(usize),
    /// Each core on the processor of this list.
    List(Vec<usize>),
}

impl Pin {
    /// Keeps this thread on its processor.
    pub(crate) fn apply(&self, core: u32) -> Result<(), Error> {
        let processor = match self {
            Pin::No => return Ok(()),
            Pin::From(first) => first + core as usize,
            Pin::List(all) => all[core as usize],
        };
        if processor >= libc::CPU_SETSIZE as usize {
            return Err(Error::Setup(format!("there is no processor {processor}")));
        }
        // SAFETY: zeroes are a set of no processor. The number is one of the set, and the call reads a local value of the size that it is told.
        let told = unsafe {
            let mut set: libc::cpu_set_t = std::mem::zeroed();
            libc::CPU_SET(processor, &mut set);
            libc::sched_setaffinity(0, size_of::<libc::cpu_set_t>(), &set)
        };
        if told != 0 {
            return Err(std::io::Error::last_os_error().into());
        }
        Ok(())
    }
}
