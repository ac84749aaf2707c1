//! The functions of a replica, and its open handle.

use super::{done, time_of, Handle, Status};
use std::ptr;

extern "C" {
    fn ripsawbean_replica_open(replica: *mut Handle, line: *const u8, line_length: usize) -> u8;
    fn ripsawbean_replica_begin(
        replica: *mut Handle,
        line: *const u8,
        line_length: usize,
        rows: *const u8,
        rows_length: usize,
    ) -> u8;
    fn ripsawbean_replica_take(replica: *mut Handle, line: *const u8, line_length: usize) -> u8;
    fn ripsawbean_replica_ready(replica: *mut Handle, line: *const u8, line_length: usize, at: *mut u64) -> u8;
    fn ripsawbean_replica_complete(replica: *mut Handle, through: *mut u64, at: *mut u64) -> u8;
    fn ripsawbean_replica_get(
        replica: *mut Handle,
        key: *const u8,
        key_length: usize,
        out: *mut u8,
        room: usize,
        length: *mut usize,
    ) -> u8;
    fn ripsawbean_replica_rows(replica: *mut Handle, out: *mut u8, room: usize, length: *mut usize) -> u8;
    fn ripsawbean_replica_close(replica: *mut Handle);
}

/// The open handle of a replica.
pub(crate) struct OpenReplica {
    handle: Handle,
}

// SAFETY: as for `Open`.
unsafe impl Send for OpenReplica {}

impl OpenReplica {
    pub(crate) fn new(line: &[u8]) -> Result<OpenReplica, Status> {
        let mut handle = Handle { at: ptr::null_mut(), is_open: false };
        // SAFETY: as for `Open::new`. The line is only read.
        let status = unsafe { ripsawbean_replica_open(&mut handle, line.as_ptr(), line.len()) };
        done(status, OpenReplica { handle })
    }

    pub(crate) fn begin(line: &[u8], rows: &[u8]) -> Result<OpenReplica, Status> {
        let mut handle = Handle { at: ptr::null_mut(), is_open: false };
        // SAFETY: as for `new`. The rows are only read.
        let status =
            unsafe { ripsawbean_replica_begin(&mut handle, line.as_ptr(), line.len(), rows.as_ptr(), rows.len()) };
        done(status, OpenReplica { handle })
    }

    pub(crate) fn take(&mut self, line: &[u8]) -> Result<(), Status> {
        // SAFETY: as for `Open::call`, here and below.
        done(unsafe { ripsawbean_replica_take(&mut self.handle, line.as_ptr(), line.len()) }, ())
    }

    pub(crate) fn ready(&mut self, line: &[u8]) -> Result<Option<u64>, Status> {
        let mut at = 0;
        let status = unsafe { ripsawbean_replica_ready(&mut self.handle, line.as_ptr(), line.len(), &mut at) };
        done(status, time_of(at))
    }

    pub(crate) fn complete(&mut self) -> (Option<u64>, Option<u64>) {
        let (mut through, mut at) = (0, 0);
        let status = unsafe { ripsawbean_replica_complete(&mut self.handle, &mut through, &mut at) };
        assert_eq!(status, 0, "an open replica returned {status}");
        (time_of(through), time_of(at))
    }

    pub(crate) fn get(&mut self, key: &[u8], out: &mut [u8]) -> Result<usize, Status> {
        let mut length = 0;
        let status = unsafe {
            ripsawbean_replica_get(&mut self.handle, key.as_ptr(), key.len(), out.as_mut_ptr(), out.len(), &mut length)
        };
        done(status, length)
    }

    pub(crate) fn rows(&mut self, out: &mut [u8]) -> Result<usize, Status> {
        let mut length = 0;
        let status = unsafe { ripsawbean_replica_rows(&mut self.handle, out.as_mut_ptr(), out.len(), &mut length) };
        done(status, length)
    }
}

impl Drop for OpenReplica {
    fn drop(&mut self) {
        // SAFETY: the handle is this value's own, and not used again. A closed one stays closed.
        unsafe { ripsawbean_replica_close(&mut self.handle) }
    }
}
