//! The process's own numbers, as the kernel tells them in /proc/self.
//!
//! `metrics` tells them, `closing` and `door` ask how much memory is taken, and `serving` how much may be. A number that
//! the kernel doesn't tell is none.

use std::fs;
use std::path::Path;

/// What the kernel counts by, where it doesn't say so: Linux tells programs hundredths of a second everywhere.
const TICKS_A_SECOND: u64 = 100;
/// The key of the auxiliary vector's entry that says so.
const AT_CLKTCK: u64 = 17;

/// Resident memory in bytes.
pub fn resident() -> Option<u64> {
    resident_in(&fs::read_to_string("/proc/self/status").ok()?)
}

/// Processor time in seconds, the kernel's for the process too.
pub fn cpu_seconds() -> Option<f64> {
    Some(ticks_in(&fs::read_to_string("/proc/self/stat").ok()?)? as f64 / ticks_a_second() as f64)
}

/// The least limit of memory that the system sets: of addresses, or of the group that the process is in.
pub fn memory_limit() -> Option<u64> {
    let addresses =
        rlimit::getrlimit(rlimit::Resource::AS).ok().map(|(soft, _)| soft).filter(|&most| most != rlimit::INFINITY);
    let group = fs::read_to_string("/proc/self/cgroup").ok().and_then(|text| group_limit(&text));
    addresses.into_iter().chain(group).min()
}

/// The least limit of a group of the second version, and of those above it.
fn group_limit(text: &str) -> Option<u64> {
    let path = text.lines().find_map(|line| line.strip_prefix("0::/"))?;
    let groups = Path::new("/sys/fs/cgroup").join(path);
    let limits = groups.ancestors().filter_map(|group| fs::read_to_string(group.join("memory.max")).ok());
    limits.filter_map(|limit| limit.trim().parse().ok()).min()
}

/// Open files.
pub fn open_files() -> Option<u64> {
    // The folder is a file that is open while it is read.
    u64::try_from(fs::read_dir("/proc/self/fd").ok()?.count().saturating_sub(1)).ok()
}

/// How many files may be open.
pub fn most_files() -> Option<u64> {
    most_files_in(&fs::read_to_string("/proc/self/limits").ok()?)
}

fn resident_in(status: &str) -> Option<u64> {
    let line = status.lines().find_map(|line| line.strip_prefix("VmRSS:"))?;
    line.trim().strip_suffix(" kB")?.parse::<u64>().ok()?.checked_mul(1024)
}

/// The program's name stands in brackets and may have any characters. Behind it the fields are numbered from 3.
fn ticks_in(stat: &str) -> Option<u64> {
    let (_, fields) = stat.rsplit_once(") ")?;
    let mut fields = fields.split(' ').skip(14 - 3);
    let (user, system) = (fields.next()?.parse::<u64>().ok()?, fields.next()?.parse::<u64>().ok()?);
    user.checked_add(system)
}

fn most_files_in(limits: &str) -> Option<u64> {
    let line = limits.lines().find_map(|line| line.strip_prefix("Max open files"))?;
    line.split_whitespace().next()?.parse().ok()
}

fn ticks_a_second() -> u64 {
    fs::read("/proc/self/auxv").ok().and_then(|entries| ticks_a_second_in(&entries)).unwrap_or(TICKS_A_SECOND)
}

/// The auxiliary vector is pairs of a key and a value, each a word of the machine.
fn ticks_a_second_in(entries: &[u8]) -> Option<u64> {
    const WORD: usize = size_of::<usize>();
    let words: Vec<u64> = entries
        .chunks_exact(WORD)
        .map(|word| word.try_into().map_or(0, |word| usize::from_ne_bytes(word) as u64))
        .collect();
    words.chunks_exact(2).find(|pair| pair[0] == AT_CLKTCK).map(|pair| pair[1]).filter(|ticks| *ticks > 0)
}

#[cfg(test)]
mod tests {
    use super::*;

    #[test]
    fn the_kernels_texts_are_read() {
        assert_eq!(resident_in("Name:\tx\nVmHWM:\t  9000 kB\nVmRSS:\t    3320 kB\n"), Some(3320 * 1024));
        let stat = "7 (a ) b) S 1 7 7 0 -1 4194560 103 0 0 0 250 50 3 4 20 0 1 0 5011 5881856 213\n";
        assert_eq!(ticks_in(stat), Some(300));
        let limits =
            "Limit     Soft Limit  Hard Limit  Units\nMax open files            1024         524288     files\n";
        assert_eq!(most_files_in(limits), Some(1024));
        assert_eq!((resident_in(""), ticks_in("7 (x"), most_files_in("")), (None, None, None));
    }

    #[test]
    fn the_auxiliary_vector_says_how_the_kernel_counts() {
        let bytes = |words: &[usize]| words.iter().flat_map(|word| word.to_ne_bytes()).collect::<Vec<u8>>();
        assert_eq!(ticks_a_second_in(&bytes(&[6, 4096, 17, 250, 0, 0])), Some(250));
        assert_eq!(ticks_a_second_in(&bytes(&[6, 17, 0, 0])), None);
    }

    #[test]
    fn this_process_has_numbers() {
        assert!(resident().is_some_and(|bytes| bytes > 1 << 16 && bytes < 1 << 40));
        assert!(cpu_seconds().is_some_and(|seconds| seconds < 1e6));
        let file = fs::File::open("/proc/self/stat").expect("it is there");
        let (open, most) = (open_files().expect("it is told"), most_files().expect("it is told"));
        assert!((1..=most).contains(&open));
        drop(file);
    }
}
