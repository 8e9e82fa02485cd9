//! What the program uses of Rattle's `std` that Rust has in another form: memory that may run out, and the means of the
//! process. It is not proved.

use crate::hex::FromHexError;
use std::collections::TryReserveError;
use std::fmt;
use std::fs::File;
use std::io::{self, Stdin, Write};
use std::ops::{Deref, DerefMut};
use std::os::fd::AsFd;
use std::string::FromUtf8Error;

/// Memory ran out.
#[derive(Clone, Copy, Debug, PartialEq, Eq)]
pub struct AllocError;

impl From<TryReserveError> for AllocError {
    fn from(_: TryReserveError) -> AllocError {
        AllocError
    }
}

impl From<AllocError> for FromHexError {
    fn from(_: AllocError) -> FromHexError {
        FromHexError::OutOfMemory
    }
}

#[derive(Clone, Copy)]
pub struct Global;

/// A vector whose calls fail if memory runs out.
#[derive(Debug)]
pub struct Vec<T>(std::vec::Vec<T>);

impl<T: Copy + Default> Vec<T> {
    pub fn new(_: Global) -> Vec<T> {
        Vec(std::vec::Vec::new())
    }

    pub fn zeros(alloc: Global, len: usize) -> Result<Vec<T>, AllocError> {
        let mut zeros = Vec::new(alloc);
        zeros.resize(len, T::default())?;
        Ok(zeros)
    }

    pub fn push(&mut self, item: T) -> Result<(), AllocError> {
        self.extend_from_slice(&[item])
    }

    pub fn extend_from_slice(&mut self, items: &[T]) -> Result<(), AllocError> {
        self.0.try_reserve(items.len())?;
        self.0.extend_from_slice(items);
        Ok(())
    }

    pub fn resize(&mut self, len: usize, item: T) -> Result<(), AllocError> {
        self.0.try_reserve(len.saturating_sub(self.0.len()))?;
        self.0.resize(len, item);
        Ok(())
    }

    pub fn clear(&mut self) {
        self.0.clear();
    }

    pub fn as_slice(&self) -> &[T] {
        &self.0
    }

    pub fn as_mut_slice(&mut self) -> &mut [T] {
        &mut self.0
    }
}

impl<T> Deref for Vec<T> {
    type Target = [T];

    fn deref(&self) -> &[T] {
        &self.0
    }
}

impl<T> DerefMut for Vec<T> {
    fn deref_mut(&mut self) -> &mut [T] {
        &mut self.0
    }
}

/// A text whose calls fail if memory runs out.
pub struct String(std::string::String);

impl String {
    pub fn from_utf8(bytes: Vec<u8>) -> Result<String, FromUtf8Error> {
        std::string::String::from_utf8(bytes.0).map(String)
    }

    pub fn into_bytes(self) -> Vec<u8> {
        Vec(self.0.into_bytes())
    }

    pub fn push_str(&mut self, text: &str) -> Result<(), AllocError> {
        self.0.try_reserve(text.len())?;
        self.0.push_str(text);
        Ok(())
    }

    /// What `write!` calls.
    pub fn write_fmt(&mut self, arguments: fmt::Arguments<'_>) -> Result<(), AllocError> {
        fmt::Write::write_fmt(self, arguments).map_err(|_| AllocError)
    }
}

impl fmt::Write for String {
    fn write_str(&mut self, text: &str) -> fmt::Result {
        self.push_str(text).map_err(|_| fmt::Error)
    }
}

/// A buffered writer that discards its buffer when it is dropped.
pub struct BufWriter<W: Write>(Option<io::BufWriter<W>>);

impl<W: Write> BufWriter<W> {
    pub fn with_capacity(_: Global, len: usize, writer: W) -> Result<BufWriter<W>, AllocError> {
        Ok(BufWriter(Some(io::BufWriter::with_capacity(len, writer))))
    }

    fn inner(&mut self) -> io::Result<&mut io::BufWriter<W>> {
        self.0.as_mut().ok_or_else(|| io::ErrorKind::NotConnected.into())
    }
}

impl<W: Write> Write for BufWriter<W> {
    fn write(&mut self, bytes: &[u8]) -> io::Result<usize> {
        self.inner()?.write(bytes)
    }

    fn flush(&mut self) -> io::Result<()> {
        self.inner()?.flush()
    }
}

impl<W: Write> Drop for BufWriter<W> {
    fn drop(&mut self) {
        if let Some(writer) = self.0.take() {
            let _ = writer.into_parts();
        }
    }
}

/// The means of the process.
pub struct HostRuntime;

impl HostRuntime {
    pub fn alloc(&self) -> Global {
        Global
    }

    pub fn stdin(&self) -> Stdin {
        io::stdin()
    }

    /// Standard output without a buffer for lines.
    pub fn stdout(&self) -> Stdout {
        Stdout(io::stdout().as_fd().try_clone_to_owned().map(File::from).ok())
    }
}

pub struct Stdout(Option<File>);

impl Write for Stdout {
    fn write(&mut self, bytes: &[u8]) -> io::Result<usize> {
        self.0.as_mut().ok_or(io::ErrorKind::NotConnected)?.write(bytes)
    }

    fn flush(&mut self) -> io::Result<()> {
        Ok(())
    }
}
