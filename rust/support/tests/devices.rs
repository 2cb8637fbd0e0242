//! Devices, the runtime and the macros with a handle.
#![cfg(feature = "std")]

use std::panic::catch_unwind;
use test_memory::Refusing;
use wollemigo_support::alloc::Global;
use wollemigo_support::io::{Error, ErrorKind, Read, Result, Write};
use wollemigo_support::prelude::HostRuntime;
use wollemigo_support::process::Abort;
use wollemigo_support::vec::Vec;

// A device that takes or gives up to three bytes at a call, is interrupted at every other, and fails after `left`.
struct Slow {
    left: usize,
    calls: usize,
    taken: std::vec::Vec<u8>,
}

impl Slow {
    fn new(left: usize) -> Slow {
        Slow {
            left,
            calls: 0,
            taken: std::vec::Vec::new(),
        }
    }

    // How many of so many bytes go through now.
    fn step(&mut self, wanted: usize) -> Result<usize> {
        self.calls += 1;
        if self.calls % 2 == 1 {
            return Err(Error::from(ErrorKind::Interrupted));
        }
        if self.left == 0 {
            return Err(Error::from(ErrorKind::BrokenPipe));
        }
        let count = wanted.min(self.left).min(3);
        self.left -= count;
        Ok(count)
    }
}

impl Write for Slow {
    fn write(&mut self, bytes: &[u8]) -> Result<usize> {
        let count = self.step(bytes.len())?;
        self.taken.extend_from_slice(&bytes[..count]);
        Ok(count)
    }

    fn flush(&mut self) -> Result<()> {
        Ok(())
    }
}

impl Read for Slow {
    fn read(&mut self, buffer: &mut [u8]) -> Result<usize> {
        let count = self.step(buffer.len())?;
        buffer[..count].fill(b'x');
        Ok(count)
    }
}

#[test]
fn all_is_written_through_short_and_interrupted_writes() {
    let mut device = Slow::new(100);
    device.write_all(b"ten bytes.").unwrap();
    write!(device, "{}-text", 12).unwrap();
    assert_eq!(device.taken, b"ten bytes.12-text");
}

#[test]
fn the_error_of_a_device_is_told() {
    let mut device = Slow::new(4);
    assert_eq!(
        write!(&mut device, "six by").unwrap_err().kind(),
        ErrorKind::BrokenPipe
    );
    assert_eq!(device.taken, b"six ");
    let mut bytes = Vec::from_slice(Global, b"a").unwrap();
    let mut device = Slow::new(5);
    assert_eq!(
        device.read_to_end(&mut bytes).unwrap_err().kind(),
        ErrorKind::BrokenPipe
    );
    assert_eq!(bytes, *b"axxxxx");
}

#[test]
fn all_is_read_up_to_the_end() {
    let all = [7u8; 10_000];
    let mut bytes = Vec::from_slice(Global, &[1]).unwrap();
    let mut rest = &all[..];
    assert_eq!((&mut rest).read_to_end(&mut bytes).unwrap(), 10_000);
    assert!(bytes.len() == 10_001 && bytes[1..] == all && rest.is_empty());
    let heap = Refusing::new(Global);
    heap.refuse_every();
    let mut none = Vec::new(&heap);
    assert_eq!(
        (&all[..]).read_to_end(&mut none).unwrap_err().kind(),
        ErrorKind::OutOfMemory
    );
}

#[test]
fn a_list_takes_what_is_written() {
    let mut bytes = Vec::new(Global);
    writeln!(bytes, "{} {}", 1, 2).unwrap();
    bytes.flush().unwrap();
    assert_eq!(bytes, *b"1 2\n");
    let heap = Refusing::new(Global);
    heap.refuse_every();
    let mut none = Vec::new(&heap);
    assert_eq!(
        write!(none, "{}", 1).unwrap_err().kind(),
        ErrorKind::OutOfMemory
    );
}

// What each macro does, under the names that a source imports.
mod by_name {
    use super::*;
    use wollemigo_support::prelude::{
        assert, assert_eq, assert_ne, eprintln, format, panic, println, prove, prove_eq, prove_ne,
        vec,
    };

    pub fn holds(rt: HostRuntime) {
        assert!(rt; 1 < 2);
        assert!(&rt; 1 < 2, "with {}", "words");
        assert_eq!(rt; vec![in rt.alloc(); 1].unwrap(), [1]);
        assert_ne!(rt; format!(in rt.alloc(); "{}", 1).unwrap(), "2");
        prove!(1 < 2);
        prove_eq!(1, 1);
        prove_ne!(1, 2);
    }

    pub fn fails(rt: &impl Abort, which: u32) {
        match which {
            0 => assert!(rt; 2 < 1),
            1 => assert!(rt; 2 < 1, "with {}", "words"),
            2 => assert_eq!(rt; 1, 2),
            3 => assert_ne!(rt; 1, 1),
            4 => panic!(rt; "told {which}"),
            5 => panic!(rt),
            6 => prove!(2 < 1),
            7 => prove_eq!(1, 2),
            _ => prove_ne!(1, 1),
        }
    }

    pub fn tells(rt: HostRuntime) -> Result<()> {
        println!(rt; "{} {}", 1, "line")?;
        eprintln!(rt; "a line")?;
        println!(rt)
    }
}

#[test]
fn macros_take_a_handle_first() {
    by_name::holds(HostRuntime);
    by_name::tells(HostRuntime).unwrap();
    for which in 0..6 {
        assert!(
            catch_unwind(|| by_name::fails(&HostRuntime, which)).is_err(),
            "{which}"
        );
    }
}

#[test]
fn what_is_proved_is_tested_in_debug_builds() {
    for which in 6..9 {
        let failed = catch_unwind(|| by_name::fails(&HostRuntime, which)).is_err();
        assert_eq!(failed, cfg!(debug_assertions), "{which}");
    }
}
