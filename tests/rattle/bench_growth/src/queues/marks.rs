use std::time::CpuClock;

/// Tells when a part of a measure is over.
#[derive(Clone, Copy)]
pub struct Marks {
    pub is_timed: bool,
}

impl Marks {
    /// Writes what is over, and the processor time until then, in microseconds, or 0.
    pub fn tell(&self, rt: &HostRuntime, part: &str) -> Option<()> {
        let spent = if self.is_timed {
            rt.process_cpu_time().ok()?.as_micros()
        } else {
            0
        };
        println!(rt; "{part} {spent}").ok()
    }
}
