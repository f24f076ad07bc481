
// ---- Appended by compare/original: the published text ends above.

impl SiDemux {
    /// What `feed` does with a section once it is whole; answers whether it was emitted.
    pub fn offer(&mut self, pid: Pid, section: Bytes) -> bool {
        self.scratch.clear();
        self.stats.sections_completed += 1;
        self.consider(pid, section);
        !self.scratch.is_empty()
    }

    /// The watched PIDs, in order.
    pub fn watched(&self) -> Vec<u16> {
        self.pids.keys().map(|pid| pid.value()).collect()
    }
}
