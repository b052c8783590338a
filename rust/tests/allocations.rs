//! Adding frames allocates nothing for a frame, once its buffers have grown, and seeks nothing.

use std::alloc::{GlobalAlloc, Layout, System};
use std::io::{self, Seek, SeekFrom, Write};
use std::sync::atomic::{AtomicUsize, Ordering};

use suljanko::FileRecorder;

/// The system's allocator, with a count of what is asked of it.
struct Counting;

static ASKED: AtomicUsize = AtomicUsize::new(0);

// SAFETY: it hands everything to the system's allocator.
unsafe impl GlobalAlloc for Counting {
    unsafe fn alloc(&self, layout: Layout) -> *mut u8 {
        ASKED.fetch_add(1, Ordering::Relaxed);
        System.alloc(layout)
    }

    unsafe fn dealloc(&self, pointer: *mut u8, layout: Layout) {
        System.dealloc(pointer, layout)
    }
}

#[global_allocator]
static ALLOCATOR: Counting = Counting;

/// Storage that keeps nothing, and counts how often it is sought.
#[derive(Default)]
struct Nowhere {
    sought: usize,
}

impl Write for Nowhere {
    fn write(&mut self, bytes: &[u8]) -> io::Result<usize> {
        Ok(bytes.len())
    }

    fn flush(&mut self) -> io::Result<()> {
        Ok(())
    }
}

impl Seek for Nowhere {
    fn seek(&mut self, _: SeekFrom) -> io::Result<u64> {
        self.sought += 1;
        Ok(0)
    }
}

#[test]
fn ten_thousand_frames_ask_for_memory_a_few_times() {
    let pixels = vec![7; 2000];
    let mut recorder = FileRecorder::begin(Nowhere::default(), &[("IMAGE", b""), ("STATUS", b"")], &[]).unwrap();
    recorder.add(0, 0, &[&pixels, b"ok"]).unwrap();
    let before = ASKED.load(Ordering::Relaxed);
    for number in 1..10_000 {
        recorder.add(number, 0, &[&pixels, b"ok"]).unwrap();
    }
    let asked = ASKED.load(Ordering::Relaxed) - before;
    // the notes grow from 20 to 160,004 bytes, doubling: 14 times at most
    assert!(asked <= 16, "asked {asked} times");
    // once to begin: frames follow each other
    assert_eq!(recorder.into_storage().sought, 1);
}
