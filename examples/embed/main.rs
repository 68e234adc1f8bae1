//! The records of a tiny tree in this process, from Rust: a build of util.o is told, util.h changes, and then it is asked
//! why util.o is out of date.
//!
//!     rustc examples/embed/main.rs -L library/out -l static=redodb -o main && ./main
use std::ffi::{c_char, c_int};
use std::ptr;

#[repr(C)]
struct Redodb {
    _private: [u8; 0],
}

// As include/redodb.h declares them. Nothing compares the two.
unsafe extern "C" {
    fn redodb_open(database: *mut *mut Redodb) -> c_int;
    fn redodb_answer(
        database: *mut Redodb,
        line: *const c_char,
        length: usize,
        room: *mut c_char,
        most: usize,
        size: *mut usize,
        logged: *mut usize,
    ) -> c_int;
    fn redodb_close(database: *mut *mut Redodb) -> c_int;
}

const OK: c_int = 0;
const FAULT: c_int = 1;
const TOO_SMALL: c_int = 2;

/// A database, which one thread at a time uses: each call takes it by `&mut`.
struct Database(*mut Redodb);

impl Database {
    fn open() -> Result<Database, c_int> {
        let mut database = ptr::null_mut();
        // SAFETY: it is a place for a pointer.
        match unsafe { redodb_open(&mut database) } {
            OK => Ok(Database(database)),
            status => Err(status),
        }
    }

    /// The answer to a line.
    fn answer(&mut self, line: &str) -> Result<String, c_int> {
        let mut room = vec![0u8; 64];
        loop {
            let mut size = 0;
            // SAFETY: the database is open, the pointers and lengths are those of a text and of a vector of one's own.
            let status = unsafe {
                redodb_answer(
                    self.0,
                    line.as_ptr().cast(),
                    line.len(),
                    room.as_mut_ptr().cast(),
                    room.len(),
                    &mut size,
                    ptr::null_mut(),
                )
            };
            match status {
                OK | FAULT => {
                    room.truncate(size);
                    return Ok(String::from_utf8_lossy(&room).into_owned());
                }
                TOO_SMALL => room.resize(size, 0),
                status => return Err(status),
            }
        }
    }
}

impl Drop for Database {
    fn drop(&mut self) {
        // SAFETY: the database is open, and nobody uses it after this.
        unsafe { redodb_close(&mut self.0) };
    }
}

fn main() -> Result<(), c_int> {
    let mut database = Database::open()?;
    for line in [
        "1 file util.h 1",
        "1 lock util.o",
        "1 start util.o",
        "1 ifchange util.o util.h",
        "1 done util.o 2",
        "1 unlock util.o",
        "1 file util.h 3",
        "2 why util.o",
        "2 ood",
        "1 lock util.o",
        "1 end",
    ] {
        print!("{}", database.answer(line)?);
    }
    Ok(())
}
