//! SQLite's library, found when the program runs: where it is not installed, there is none.

use std::ffi::{CStr, CString, c_char, c_int, c_void};
use std::hint::black_box;
use std::ptr;
use std::time::{Duration, Instant};

// SAFETY of the declaration: they are those of POSIX, in the C library that the standard library links.
unsafe extern "C" {
    fn dlopen(file: *const c_char, mode: c_int) -> *mut c_void;
    fn dlsym(library: *mut c_void, name: *const c_char) -> *mut c_void;
}

const RTLD_NOW: c_int = 2;

/// The library's names: Debian's libsqlite3-0 has the first.
const NAMES: [&CStr; 2] = [c"libsqlite3.so.0", c"libsqlite3.so"];

const SQLITE_OK: c_int = 0;

type Open = unsafe extern "C" fn(*const c_char, *mut *mut c_void) -> c_int;
type Exec =
    unsafe extern "C" fn(*mut c_void, *const c_char, *const c_void, *mut c_void, *mut *mut c_char) -> c_int;
type Prepare =
    unsafe extern "C" fn(*mut c_void, *const c_char, c_int, *mut *mut c_void, *mut *const c_char) -> c_int;
type OfHandle = unsafe extern "C" fn(*mut c_void) -> c_int;
type Version = unsafe extern "C" fn() -> *const c_char;

/// The functions that are called.
#[derive(Clone, Copy)]
pub struct Sqlite {
    open: Open,
    exec: Exec,
    prepare: Prepare,
    finalize: OfHandle,
    column_count: OfHandle,
    close: OfHandle,
    version: Version,
}

impl Sqlite {
    /// The library, where it is installed. It stays for as long as the program runs.
    pub fn find() -> Option<Self> {
        // SAFETY: the names are closed by a zero; the library has no code to be run on loading but its own.
        let library = NAMES
            .iter()
            .map(|name| unsafe { dlopen(name.as_ptr(), RTLD_NOW) })
            .find(|library| !library.is_null())?;
        let symbol = |name: &CStr| {
            // SAFETY: the library was loaded and is never let go.
            let symbol = unsafe { dlsym(library, name.as_ptr()) };
            (!symbol.is_null()).then_some(symbol)
        };
        // SAFETY: the types are those that sqlite3.h has for these names, with pointers to what is not looked into.
        unsafe {
            Some(Sqlite {
                open: std::mem::transmute::<*mut c_void, Open>(symbol(c"sqlite3_open")?),
                exec: std::mem::transmute::<*mut c_void, Exec>(symbol(c"sqlite3_exec")?),
                prepare: std::mem::transmute::<*mut c_void, Prepare>(symbol(c"sqlite3_prepare_v2")?),
                finalize: std::mem::transmute::<*mut c_void, OfHandle>(symbol(c"sqlite3_finalize")?),
                column_count: std::mem::transmute::<*mut c_void, OfHandle>(symbol(c"sqlite3_column_count")?),
                close: std::mem::transmute::<*mut c_void, OfHandle>(symbol(c"sqlite3_close")?),
                version: std::mem::transmute::<*mut c_void, Version>(symbol(c"sqlite3_libversion")?),
            })
        }
    }

    pub fn version(self) -> String {
        // SAFETY: the function gives a constant string.
        unsafe { CStr::from_ptr((self.version)()) }.to_string_lossy().into_owned()
    }
}

/// A database in memory, and a question over its tables.
pub struct Database {
    sqlite: Sqlite,
    handle: *mut c_void,
    question: CString,
}

impl Database {
    /// A database with the tables that some statements create. The error says which call failed.
    pub fn new(sqlite: Sqlite, tables: &[String], question: &str) -> Result<Self, String> {
        let question = CString::new(question).map_err(|_| "a zero in the question".to_string())?;
        let mut database = Database { sqlite, handle: ptr::null_mut(), question };
        // SAFETY: the name is closed by a zero, and the handle is written to a place of its own.
        if unsafe { (sqlite.open)(c":memory:".as_ptr(), &mut database.handle) } != SQLITE_OK {
            return Err("SQLite opens no database".to_string());
        }
        for table in tables {
            let create = CString::new(table.as_str()).map_err(|_| "a zero in a table".to_string())?;
            // SAFETY: the handle is open, the text closed by a zero; nothing is called back, and no message is asked for.
            let done = unsafe {
                (sqlite.exec)(database.handle, create.as_ptr(), ptr::null(), ptr::null_mut(), ptr::null_mut())
            };
            if done != SQLITE_OK {
                return Err(format!("SQLite refuses {table}"));
            }
        }
        match database.prepare() {
            Some(prepared) => database.finalize(prepared),
            None => return Err(format!("SQLite refuses {}", database.question.to_string_lossy())),
        }
        Ok(database)
    }

    /// The number of columns that the question's answer has.
    pub fn columns(&self) -> Option<usize> {
        let prepared = self.prepare()?;
        // SAFETY: the statement was prepared and is not finalized.
        let columns = unsafe { (self.sqlite.column_count)(prepared) };
        self.finalize(prepared);
        usize::try_from(columns).ok()
    }

    /// The time of so many calls of `sqlite3_prepare_v2`, behind one that is not timed. What they prepare goes after.
    pub fn time(&self, count: u32) -> Duration {
        let mut prepared = Vec::with_capacity(count as usize + 1);
        prepared.push(self.prepare());
        let start = Instant::now();
        for _ in 0..count {
            prepared.push(black_box(self.prepare()));
        }
        let time = start.elapsed();
        for statement in prepared {
            self.finalize(statement.expect("what is timed is prepared"));
        }
        time
    }

    fn prepare(&self) -> Option<*mut c_void> {
        let question = black_box(self.question.as_bytes_with_nul());
        let mut prepared = ptr::null_mut();
        // SAFETY: the handle is open, the text and its length are those of a string with its zero, and the statement is
        // written to a place of its own.
        let done = unsafe {
            (self.sqlite.prepare)(
                self.handle,
                question.as_ptr().cast(),
                question.len() as c_int,
                &mut prepared,
                ptr::null_mut(),
            )
        };
        (done == SQLITE_OK).then_some(prepared)
    }

    fn finalize(&self, prepared: *mut c_void) {
        // SAFETY: the statement was prepared and is not used again.
        unsafe { (self.sqlite.finalize)(prepared) };
    }
}

impl Drop for Database {
    fn drop(&mut self) {
        // SAFETY: all that was prepared is finalized; a handle that was never opened is null, which is allowed.
        unsafe { (self.sqlite.close)(self.handle) };
    }
}
