//! Standard input and output with no buffer, so that each fault is seen at its call.
//! (Rust's own take a stream that can't be read or written for an empty one, and keep what is written for a while.)
use std::io::{self, Read, Write};

/// Standard input or output, without a buffer: each call is one read or write of the system, and its fault is seen there.
#[derive(Debug)]
pub struct Standard(Stream);

impl Standard {
    /// Standard input.
    pub fn input() -> Self {
        Standard(Stream::input())
    }

    /// Standard output.
    pub fn output() -> Self {
        Standard(Stream::output())
    }
}

impl Read for Standard {
    fn read(&mut self, bytes: &mut [u8]) -> io::Result<usize> {
        self.0.read(bytes)
    }
}

impl Write for Standard {
    fn write(&mut self, bytes: &[u8]) -> io::Result<usize> {
        self.0.write(bytes)
    }

    fn flush(&mut self) -> io::Result<()> {
        self.0.flush()
    }
}

#[cfg(test)]
use in_memory::Stream;

/// In tests the streams of a thread are in memory.
#[cfg(test)]
pub mod in_memory {
    use std::cell::RefCell;
    use std::io::{self, Read, Write};

    thread_local! {
        /// What is still to be read, and what was written.
        pub static STREAMS: RefCell<(Vec<u8>, Vec<u8>)> = const { RefCell::new((Vec::new(), Vec::new())) };
    }

    #[derive(Debug)]
    pub struct Stream;

    impl Stream {
        pub fn input() -> Self {
            Stream
        }

        pub fn output() -> Self {
            Stream
        }
    }

    impl Read for Stream {
        fn read(&mut self, bytes: &mut [u8]) -> io::Result<usize> {
            STREAMS.with_borrow_mut(|streams| {
                let count = bytes.len().min(streams.0.len());
                bytes[..count].copy_from_slice(&streams.0[..count]);
                streams.0.drain(..count);
                Ok(count)
            })
        }
    }

    impl Write for Stream {
        fn write(&mut self, bytes: &[u8]) -> io::Result<usize> {
            STREAMS.with_borrow_mut(|streams| streams.1.extend_from_slice(bytes));
            Ok(bytes.len())
        }

        fn flush(&mut self) -> io::Result<()> {
            Ok(())
        }
    }
}

#[cfg(all(unix, not(test)))]
use of_unix::Stream;

/// The descriptors themselves.
#[cfg(all(unix, not(test)))]
mod of_unix {
    use std::fs::File;
    use std::io::{self, Read, Write};
    use std::mem::ManuallyDrop;
    use std::os::fd::{FromRawFd, RawFd};

    /// A file that is never closed.
    #[derive(Debug)]
    pub struct Stream(ManuallyDrop<File>);

    impl Stream {
        pub fn input() -> Self {
            Stream::of(0)
        }

        pub fn output() -> Self {
            Stream::of(1)
        }

        #[allow(unsafe_code)]
        fn of(number: RawFd) -> Self {
            // SAFETY: Rust's start has seen to it that descriptors 0 and 1 are open, and `ManuallyDrop` never closes them.
            Stream(ManuallyDrop::new(unsafe { File::from_raw_fd(number) }))
        }
    }

    impl Read for Stream {
        fn read(&mut self, bytes: &mut [u8]) -> io::Result<usize> {
            self.0.read(bytes)
        }
    }

    impl Write for Stream {
        fn write(&mut self, bytes: &[u8]) -> io::Result<usize> {
            self.0.write(bytes)
        }

        fn flush(&mut self) -> io::Result<()> {
            Ok(())
        }
    }
}

#[cfg(all(not(unix), not(test)))]
use elsewhere::Stream;

/// Rust's own streams, written through to the end at each call.
#[cfg(all(not(unix), not(test)))]
mod elsewhere {
    use std::io::{self, Read, Write};

    #[derive(Debug)]
    pub struct Stream;

    impl Stream {
        pub fn input() -> Self {
            Stream
        }

        pub fn output() -> Self {
            Stream
        }
    }

    impl Read for Stream {
        fn read(&mut self, bytes: &mut [u8]) -> io::Result<usize> {
            io::stdin().read(bytes)
        }
    }

    impl Write for Stream {
        fn write(&mut self, bytes: &[u8]) -> io::Result<usize> {
            let mut out = io::stdout().lock();
            let length = out.write(bytes)?;
            out.flush()?;
            Ok(length)
        }

        fn flush(&mut self) -> io::Result<()> {
            io::stdout().flush()
        }
    }
}
