//! The standard output, without the buffer of Rust's own: that one counts bytes as written which may never arrive.

#[cfg(unix)]
use descriptor::Device;
#[cfg(not(unix))]
use flushed::Device;

use super::{Result, Write};

/// The standard output. It has no buffer: the system has all bytes that a write reports.
#[derive(Debug)]
pub struct Stdout {
    device: Device,
}

impl Stdout {
    pub(crate) fn new() -> Stdout {
        Stdout {
            device: Device::new(),
        }
    }
}

impl Write for Stdout {
    fn write(&mut self, bytes: &[u8]) -> Result<usize> {
        self.device.write(bytes)
    }

    fn flush(&mut self) -> Result<()> {
        Ok(())
    }
}

#[cfg(unix)]
mod descriptor {
    use super::super::Result;
    use rust_std::fs::File;
    use rust_std::io::{stdout, Write};
    use rust_std::os::unix::io::AsFd;

    /// A descriptor of its own for the standard output, which the first write makes.
    #[derive(Debug)]
    pub struct Device {
        file: Option<File>,
    }

    impl Device {
        pub fn new() -> Device {
            Device { file: None }
        }

        pub fn write(&mut self, bytes: &[u8]) -> Result<usize> {
            let file = match &mut self.file {
                Some(file) => file,
                None => {
                    let descriptor = stdout().as_fd().try_clone_to_owned()?;
                    self.file.insert(File::from(descriptor))
                }
            };
            file.write(bytes)
        }
    }
}

#[cfg(any(test, not(unix)))]
mod flushed {
    use super::super::{is_interrupted, Error, ErrorKind, Result};
    use rust_std::io::{self, Write};

    /// A writer that is flushed after each write. Once that has failed each write fails: the writer still holds bytes
    /// then that no write has reported, and they must not come twice.
    #[derive(Debug)]
    pub struct Device<W = io::Stdout> {
        inner: W,
        failure: Option<ErrorKind>,
    }

    #[cfg(not(unix))]
    impl Device {
        pub fn new() -> Device {
            Device::over(io::stdout())
        }
    }

    impl<W: Write> Device<W> {
        pub fn over(inner: W) -> Device<W> {
            Device {
                inner,
                failure: None,
            }
        }

        pub fn write(&mut self, bytes: &[u8]) -> Result<usize> {
            if let Some(kind) = self.failure {
                return Err(Error::from(kind));
            }
            let count = self.inner.write(bytes)?;
            loop {
                match self.inner.flush() {
                    Ok(()) => return Ok(count),
                    Err(error) if is_interrupted(&error) => {}
                    Err(error) => {
                        self.failure = Some(error.kind());
                        return Err(error);
                    }
                }
            }
        }
    }

    #[cfg(test)]
    mod tests {
        use super::*;
        use rust_std::io::LineWriter;
        use rust_std::vec::Vec;

        // Takes a byte at a call up to `room` of them, and fails from then on.
        struct Narrow {
            room: usize,
            taken: Vec<u8>,
        }

        impl Write for Narrow {
            fn write(&mut self, bytes: &[u8]) -> Result<usize> {
                if self.taken.len() == self.room {
                    return Err(Error::from(ErrorKind::BrokenPipe));
                }
                self.taken.extend_from_slice(&bytes[..1]);
                Ok(1)
            }

            fn flush(&mut self) -> Result<()> {
                Ok(())
            }
        }

        #[test]
        fn no_byte_is_reported_that_was_not_written_and_none_comes_twice() {
            let text = b"ok\nat 0 0 4 4\nno end";
            for room in 0..=text.len() {
                let narrow = Narrow {
                    room,
                    taken: Vec::new(),
                };
                let mut device = Device::over(LineWriter::with_capacity(4, narrow));
                let mut reported = 0;
                while reported < text.len() {
                    match device.write(&text[reported..]) {
                        Ok(count) => reported += count,
                        Err(_) => {
                            core::assert!(device.write(b"more").is_err(), "{room}");
                            break;
                        }
                    }
                }
                let taken = &device.inner.get_ref().taken;
                core::assert!(reported <= taken.len(), "{room}");
                core::assert_eq!(taken[..], text[..room]);
                core::assert_eq!(reported == text.len(), room == text.len());
            }
        }
    }
}
