//! A store of the C library, for one caller at a time.
use crate::error::{Error, ErrorKind};
use crate::ffi::{self, RawStore};
use crate::reason::Reason;
use crate::store::Limits;
use std::fmt;
use std::ptr::null_mut;

/// The longest reason, in bytes.
const MAX_REASON: usize = 100;
/// The most bytes of memory that a store keeps for its replies. A longer reply has memory of its own.
const MAX_KEPT: usize = 1 << 20;

/// A function that makes a call, by a text or by bytes, and one that copies the last reply.
type MakeCall = unsafe extern "C" fn(*mut RawStore, u32, *const u8, usize, *mut u8, usize, *mut usize) -> i32;
type CopyReply = unsafe extern "C" fn(*mut RawStore, *mut u8, usize, *mut usize) -> i32;

/// An open store, and the memory for its short replies.
pub struct Library {
    raw: Box<RawStore>,
    buffer: Vec<u8>,
    /// The number that `spawn_next` tries next: all below were used. There is none after the last number.
    next_pid: Option<u32>,
}

// A store may be used by any thread, one at a time: the library keeps no thread's identity, and a `&mut Library` is
// exclusive.
unsafe impl Send for Library {}

impl fmt::Debug for Library {
    fn fmt(&self, f: &mut fmt::Formatter<'_>) -> fmt::Result {
        f.write_str("Library")
    }
}

impl Library {
    pub fn open(limits: Limits, seed: u64) -> Result<Library, Error> {
        let mut library =
            Library { raw: Box::new(RawStore { opaque: [null_mut(); 2] }), buffer: vec![0; 256], next_pid: Some(0) };
        let status = unsafe {
            ffi::yoyoash_open_with_seed(&mut *library.raw, limits.processes, limits.tables, limits.objects, seed)
        };
        library.check(status, 0)?;
        Ok(library)
    }

    pub fn spawn(&mut self, pid: u32) -> Result<(), Error> {
        let status = unsafe { ffi::yoyoash_spawn(&mut *self.raw, pid) };
        self.check(status, 0)
    }

    /// Starts a process with the least number that was never used, and returns the number.
    pub fn spawn_next(&mut self) -> Result<u32, Error> {
        while let Some(pid) = self.next_pid {
            match self.spawn(pid) {
                Ok(()) => {
                    self.next_pid = pid.checked_add(1);
                    return Ok(pid);
                }
                Err(error) if error.reason() == Reason::ProcessUsed => self.next_pid = pid.checked_add(1),
                Err(error) => return Err(error),
            }
        }
        Err(Error::new(ErrorKind::SystemLimit, "process limit reached".to_owned()))
    }

    pub fn exit(&mut self, pid: u32) -> Result<(), Error> {
        let status = unsafe { ffi::yoyoash_exit(&mut *self.raw, pid) };
        self.check(status, 0)
    }

    /// Makes the call of a text, and returns the text of its reply.
    pub fn call(&mut self, pid: u32, text: &str) -> Result<Vec<u8>, Error> {
        self.send(pid, text.as_bytes(), ffi::yoyoash_call, ffi::yoyoash_reply)
    }

    /// Makes the call of these bytes, and returns the bytes of its reply.
    pub fn call_external(&mut self, pid: u32, call: &[u8]) -> Result<Vec<u8>, Error> {
        self.send(pid, call, ffi::yoyoash_call_external, ffi::yoyoash_reply_external)
    }

    fn send(&mut self, pid: u32, call: &[u8], make: MakeCall, copy: CopyReply) -> Result<Vec<u8>, Error> {
        let mut len = 0;
        let status = unsafe {
            make(&mut *self.raw, pid, call.as_ptr(), call.len(), self.buffer.as_mut_ptr(), self.buffer.len(), &mut len)
        };
        self.check(status, len)?;
        if len <= self.buffer.len() {
            return Ok(self.buffer[..len].to_vec());
        }
        if len <= MAX_KEPT {
            self.buffer.resize(len, 0);
        }
        let mut reply = vec![0; len];
        let status = unsafe { copy(&mut *self.raw, reply.as_mut_ptr(), reply.len(), &mut len) };
        self.check(status, len)?;
        Ok(reply)
    }

    /// Turns a status into a result; an error has the reason that the library gives.
    fn check(&mut self, status: i32, len: usize) -> Result<(), Error> {
        let kind = match status {
            0 => return Ok(()),
            1 => ErrorKind::BadArg,
            2 => ErrorKind::SystemLimit,
            3 => ErrorKind::NoProcess,
            4 => ErrorKind::NoMemory,
            5 => ErrorKind::Syntax { offset: len },
            7 => ErrorKind::Untold,
            _ => ErrorKind::Unknown,
        };
        Err(Error::new(kind, self.reason()))
    }

    /// Returns the reason of the last refusal, or nothing if there is none.
    fn reason(&mut self) -> String {
        let (mut words, mut len) = ([0; MAX_REASON], 0);
        let status = unsafe { ffi::yoyoash_why(&mut *self.raw, words.as_mut_ptr(), words.len(), &mut len) };
        let known = if status == 0 { len.min(words.len()) } else { 0 };
        String::from_utf8_lossy(&words[..known]).into_owned()
    }
}

impl Drop for Library {
    fn drop(&mut self) {
        unsafe { ffi::yoyoash_close(&mut *self.raw) }
    }
}
