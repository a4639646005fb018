//! Imports a stream from standard input, and lists the refs: library < STREAM
use std::io::{Read, Write};

#[repr(C)]
struct Store {
    is_open: bool,
    held: *mut u8,
}

#[link(name = "ginlarch")]
extern "C" {
    fn ginlarch_open(store: *mut Store, key: *const u8, length: usize) -> u32;
    fn ginlarch_import(store: *mut Store, stream: *const u8, length: usize, done: bool, force: bool) -> u32;
    fn ginlarch_refs(store: *mut Store) -> u32;
    fn ginlarch_length(store: *mut Store) -> usize;
    fn ginlarch_read(store: *mut Store, from: usize, room: *mut u8, length: usize) -> usize;
    fn ginlarch_close(store: *mut Store);
}

fn main() -> std::io::Result<()> {
    let (mut key, mut stream) = ([0; 16], Vec::new());
    std::fs::File::open("/dev/urandom")?.read_exact(&mut key)?;
    std::io::stdin().read_to_end(&mut stream)?;
    let mut store = Store { is_open: false, held: std::ptr::null_mut() };
    // SAFETY: the handle is of zeros and of these calls alone, and each pointer is that of a slice with its length.
    unsafe {
        assert_eq!(ginlarch_open(&mut store, key.as_ptr(), key.len()), 0);
        assert_eq!(ginlarch_import(&mut store, stream.as_ptr(), stream.len(), true, false), 0);
        assert_eq!(ginlarch_refs(&mut store), 0);
        let mut refs = vec![0; ginlarch_length(&mut store)];
        ginlarch_read(&mut store, 0, refs.as_mut_ptr(), refs.len());
        ginlarch_close(&mut store);
        std::io::stdout().write_all(&refs)
    }
}
