//! The standard streams as files, on copies of their descriptors.

use crate::at_start::{INPUT_CLOSED, OUTPUT_CLOSED};
use std::fs::File;
use std::io::{stdin, stdout, ErrorKind, Read, Result, Write};
use std::os::unix::io::AsFd;
use std::sync::atomic::{AtomicBool, Ordering};

/// A standard stream. Nothing is buffered: each read or write is a system call, and `flush` does
/// nothing. Reads and writes return an error if the stream was closed when the program started, or
/// if its descriptor could not be duplicated.
#[derive(Debug)]
pub struct Stream(Option<File>);

/// Returns standard input.
#[must_use]
pub fn input() -> Stream {
    Stream::of(&stdin(), &INPUT_CLOSED)
}

/// Returns standard output.
#[must_use]
pub fn output() -> Stream {
    Stream::of(&stdout(), &OUTPUT_CLOSED)
}

impl Stream {
    fn of(stream: &impl AsFd, closed: &AtomicBool) -> Stream {
        if closed.load(Ordering::Relaxed) {
            return Stream(None);
        }
        Stream(stream.as_fd().try_clone_to_owned().map(File::from).ok())
    }

    fn file(&mut self) -> Result<&mut File> {
        self.0
            .as_mut()
            .ok_or_else(|| ErrorKind::NotConnected.into())
    }
}

impl Read for Stream {
    fn read(&mut self, bytes: &mut [u8]) -> Result<usize> {
        self.file()?.read(bytes)
    }
}

impl Write for Stream {
    fn write(&mut self, bytes: &[u8]) -> Result<usize> {
        self.file()?.write(bytes)
    }

    fn flush(&mut self) -> Result<()> {
        Ok(())
    }
}

#[cfg(test)]
mod tests {
    use super::*;
    use std::os::unix::net::UnixStream;
    use std::sync::{Mutex, MutexGuard, PoisonError};

    /// Makes the tests run one at a time. A process that one test starts holds the open pipes of
    /// all tests until it runs its program. Another test stops this whole process, which interrupts
    /// the calls of all tests.
    pub(super) fn turn() -> MutexGuard<'static, ()> {
        static TURN: Mutex<()> = Mutex::new(());
        TURN.lock().unwrap_or_else(PoisonError::into_inner)
    }

    #[test]
    fn an_open_stream_is_its_descriptor() {
        let _turn = turn();
        let (near, far) = UnixStream::pair().unwrap();
        let open = AtomicBool::new(false);
        let (mut near, mut far) = (Stream::of(&near, &open), Stream::of(&far, &open));
        let mut bytes = [0; 3];
        assert_eq!(near.write(b"abc").unwrap(), 3);
        near.flush().unwrap();
        assert_eq!(far.read(&mut bytes).unwrap(), 3);
        assert_eq!(&bytes, b"abc");
    }

    #[test]
    fn a_stream_that_is_open_the_other_way_fails() {
        let _turn = turn();
        let open = AtomicBool::new(false);
        let read_only = File::open("/dev/null").unwrap();
        assert!(Stream::of(&read_only, &open).write(b"a").is_err());
        let write_only = File::options().write(true).open("/dev/null").unwrap();
        assert!(Stream::of(&write_only, &open).read(&mut [0]).is_err());
    }

    #[test]
    fn a_stream_without_a_byte_or_without_room_fails() {
        let _turn = turn();
        let (near, far) = UnixStream::pair().unwrap();
        near.set_nonblocking(true).unwrap();
        let mut near = Stream::of(&near, &AtomicBool::new(false));
        let error = near.read(&mut [0]).unwrap_err();
        assert_eq!(error.kind(), ErrorKind::WouldBlock);
        let mut left = 10_000;
        let error = loop {
            match near.write(&[0; 4096]) {
                Ok(count) => assert!(count > 0),
                Err(error) => break error,
            }
            left -= 1;
            assert!(left > 0, "there is always room");
        };
        assert_eq!(error.kind(), ErrorKind::WouldBlock);
        drop(far);
        assert_eq!(near.write(b"a").unwrap_err().kind(), ErrorKind::BrokenPipe);
    }

    #[test]
    fn a_stream_that_was_closed_fails() {
        let _turn = turn();
        let (near, _far) = UnixStream::pair().unwrap();
        let mut stream = Stream::of(&near, &AtomicBool::new(true));
        let kind = ErrorKind::NotConnected;
        assert_eq!(stream.write(b"a").unwrap_err().kind(), kind);
        assert_eq!(stream.read(&mut [0]).unwrap_err().kind(), kind);
        stream.flush().unwrap();
    }
}

/// The errors of the system calls, as Linux returns them.
#[cfg(all(test, target_os = "linux"))]
mod tests_of_errors {
    use super::tests::turn;
    use super::*;
    use std::io::Error;
    use std::net::{TcpListener, UdpSocket};
    use std::os::unix::net::{UnixDatagram, UnixStream};
    use std::path::Path;
    use std::process::{Child, Command, Stdio};
    use std::time::Duration;
    use std::{env, fs, process};

    /// Returns the error of a call on a new stream over the descriptor, and checks that a flush
    /// succeeds.
    fn fails(descriptor: &impl AsFd, call: fn(&mut Stream) -> Result<usize>) -> Error {
        let mut stream = Stream::of(descriptor, &AtomicBool::new(false));
        let error = call(&mut stream).unwrap_err();
        stream.flush().unwrap();
        error
    }

    fn read_fails(descriptor: &impl AsFd) -> Error {
        fails(descriptor, |stream| stream.read(&mut [0; 9]))
    }

    fn write_fails(descriptor: &impl AsFd) -> Error {
        fails(descriptor, |stream| stream.write(b"a"))
    }

    /// Reading ends when the far end is dropped, or fails once if the far end had not read all
    /// bytes sent to it.
    #[test]
    fn a_stream_whose_far_end_is_dropped_ends_or_is_reset() {
        let _turn = turn();
        for (unread, last) in [(false, Ok(0)), (true, Err(ErrorKind::ConnectionReset))] {
            let (mut near, mut far) = UnixStream::pair().unwrap();
            far.write_all(b"abc").unwrap();
            if unread {
                near.write_all(b"a").unwrap();
            }
            drop(far);
            let mut stream = Stream::of(&near, &AtomicBool::new(false));
            let mut read = || stream.read(&mut [0; 9]).map_err(|error| error.kind());
            assert_eq!([read(), read(), read()], [Ok(3), last, Ok(0)]);
            assert_eq!(write_fails(&near).kind(), ErrorKind::BrokenPipe);
        }
    }

    /// Runs this test alone in a process of its own, which may have eight descriptors, and opens
    /// all that are left.
    #[test]
    fn a_stream_that_cannot_be_copied_fails() {
        const FEW: &str = "NANORAND_FEW_DESCRIPTORS";
        let _turn = turn();
        if env::var_os(FEW).is_none() {
            let name = "stream::tests_of_errors::a_stream_that_cannot_be_copied_fails";
            let mut shell = Command::new("sh");
            shell.args(["-c", "ulimit -n 8; exec \"$0\" --exact \"$1\""]);
            shell.arg(env::current_exe().unwrap()).arg(name);
            let output = shell.env(FEW, "").output().unwrap();
            let text = String::from_utf8_lossy(&output.stdout);
            assert!(output.status.success(), "{text}");
            assert!(text.contains("1 passed"), "{text}");
            return;
        }
        let null = File::options().read(true).write(true).open("/dev/null");
        let null = null.unwrap();
        let mut held = Vec::new();
        held.extend(std::iter::from_fn(|| null.try_clone().ok()));
        assert!(!held.is_empty());
        assert_eq!(read_fails(&null).kind(), ErrorKind::NotConnected);
        assert_eq!(write_fails(&null).kind(), ErrorKind::NotConnected);
        drop(held);
        assert_eq!(
            Stream::of(&null, &AtomicBool::new(false))
                .write(b"a")
                .unwrap(),
            1
        );
    }

    #[test]
    fn a_socket_without_a_far_end_fails() {
        let _turn = turn();
        let unbound = UnixDatagram::unbound().unwrap();
        assert_eq!(write_fails(&unbound).kind(), ErrorKind::NotConnected);
        let (near, far) = UnixDatagram::pair().unwrap();
        drop(far);
        assert_eq!(write_fails(&near).kind(), ErrorKind::ConnectionRefused);
        let listener = TcpListener::bind("127.0.0.1:0").unwrap();
        assert_eq!(read_fails(&listener).kind(), ErrorKind::NotConnected);
        let near = UdpSocket::bind("127.0.0.1:0").unwrap();
        let far = UdpSocket::bind("127.0.0.1:0").unwrap();
        near.connect(far.local_addr().unwrap()).unwrap();
        near.set_read_timeout(Some(Duration::from_secs(30)))
            .unwrap();
        drop(far);
        for fails in [read_fails, write_fails] {
            assert_eq!(near.send(b"a").unwrap(), 1);
            assert_eq!(fails(&near).kind(), ErrorKind::ConnectionRefused);
        }
    }

    /// Errors whose kinds the oldest supported compiler does not name, by their numbers.
    #[test]
    fn a_file_that_cannot_be_read_or_written_fails() {
        let _turn = turn();
        let open = |path| File::options().read(true).write(true).open(path).unwrap();
        let memory = open("/proc/self/mem");
        assert_eq!(read_fails(&memory).raw_os_error(), Some(5)); // EIO: nothing is at address 0
        assert_eq!(write_fails(&memory).raw_os_error(), Some(5));
        let full = open("/dev/full");
        assert_eq!(write_fails(&full).raw_os_error(), Some(28)); // ENOSPC
        let folder = File::open(".").unwrap();
        assert_eq!(read_fails(&folder).raw_os_error(), Some(21)); // EISDIR
        assert_eq!(write_fails(&folder).raw_os_error(), Some(9)); // EBADF: open for reading
        let write_only = File::options().write(true).open("/dev/null").unwrap();
        assert_eq!(read_fails(&write_only).raw_os_error(), Some(9));
        let setting = open("/proc/self/oom_score_adj"); // accepts numbers only
        assert_eq!(write_fails(&setting).kind(), ErrorKind::InvalidInput);
        let users = open("/proc/self/uid_map"); // was already written when its namespace was created
        assert_eq!(write_fails(&users).kind(), ErrorKind::PermissionDenied);
        let mut ended = Command::new("cat").stdin(Stdio::piped()).spawn().unwrap();
        let status = File::open(format!("/proc/{}/status", ended.id())).unwrap();
        let pipe = ended.stdin.take().unwrap();
        ended.kill().unwrap();
        ended.wait().unwrap();
        assert_eq!(read_fails(&status).raw_os_error(), Some(3)); // ESRCH
        assert_eq!(write_fails(&pipe).kind(), ErrorKind::BrokenPipe);
    }

    /// Stops and continues this process again and again, until the file is gone.
    fn interrupt(file: &Path) -> Child {
        let commands = "while [ -e \"$1\" ] && kill -STOP $0; do kill -CONT $0; sleep 0.01; done";
        let process = process::id().to_string();
        let mut shell = Command::new("sh");
        shell.args(["-c", commands, &process]).arg(file);
        shell.spawn().unwrap()
    }

    /// A socket with a timeout does not wait a second time.
    #[test]
    fn a_stream_that_is_interrupted_fails() {
        let _turn = turn();
        let (near, _far) = UnixStream::pair().unwrap();
        let long = Some(Duration::from_secs(30));
        near.set_read_timeout(long).unwrap();
        near.set_write_timeout(long).unwrap();
        let file = env::temp_dir().join(format!("nanorand_program_{}", process::id()));
        fs::write(&file, "").unwrap();
        let mut shell = interrupt(&file);
        let read = read_fails(&near).kind();
        let mut full = Stream::of(&near, &AtomicBool::new(false));
        let written = loop {
            if let Err(error) = full.write(&[0; 4096]) {
                break error.kind();
            }
        };
        fs::remove_file(file).unwrap();
        assert!(shell.wait().unwrap().success());
        assert_eq!([read, written], [ErrorKind::Interrupted; 2]);
    }
}
