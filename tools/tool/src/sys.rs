//! What the standard library has not, asked of the C library: signals that end the program in order, a terminal that does not
//! echo, and errors of a socket that is not connected.
#![allow(unsafe_code)]

use std::fs::File;
use std::io;
use std::net::UdpSocket;
use std::os::fd::AsRawFd;
use std::sync::atomic::{AtomicBool, Ordering};

/// glibc's `struct termios`, on every processor that we have.
#[repr(C)]
#[derive(Clone, Copy)]
struct Termios {
    input: u32,
    output: u32,
    control: u32,
    local: u32,
    line: u8,
    characters: [u8; 32],
    in_speed: u32,
    out_speed: u32,
}

const ECHO: u32 = 8;
const FLUSH: i32 = 2;
const SIGHUP: i32 = 1;
const SIGINT: i32 = 2;
const SIGTERM: i32 = 15;
const SIGXFSZ: i32 = 25;
/// A handler that does nothing.
const IGNORE: usize = 1;
const IPPROTO_IP: i32 = 0;
const IP_RECVERR: i32 = 11;

extern "C" {
    fn signal(number: i32, handler: usize) -> usize;
    fn siginterrupt(number: i32, on: i32) -> i32;
    fn tcgetattr(fd: i32, termios: *mut Termios) -> i32;
    fn tcsetattr(fd: i32, how: i32, termios: *const Termios) -> i32;
    fn setsockopt(fd: i32, level: i32, name: i32, value: *const i32, length: u32) -> i32;
}

static INTERRUPTED: AtomicBool = AtomicBool::new(false);

/// The first signal asks for the end, the second ends at once.
extern "C" fn heard(number: i32) {
    INTERRUPTED.store(true, Ordering::SeqCst);
    unsafe { signal(number, 0) };
}

/// From now on a signal to end is told by `interrupted`, and a file that may not grow is an error like any other.
pub fn listen() {
    unsafe { signal(SIGXFSZ, IGNORE) };
    for number in [SIGINT, SIGTERM, SIGHUP] {
        unsafe {
            signal(number, heard as *const () as usize);
            siginterrupt(number, 1); // so that who waits for a line hears of it
        }
    }
}

pub fn interrupted() -> bool {
    INTERRUPTED.load(Ordering::SeqCst)
}

/// A terminal that does not echo while this lives.
pub struct Unechoed<'a> {
    terminal: &'a File,
    before: Termios,
}

impl<'a> Unechoed<'a> {
    pub fn new(terminal: &'a File) -> io::Result<Unechoed<'a>> {
        let mut before = Termios {
            input: 0,
            output: 0,
            control: 0,
            local: 0,
            line: 0,
            characters: [0; 32],
            in_speed: 0,
            out_speed: 0,
        };
        let fd = terminal.as_raw_fd();
        if unsafe { tcgetattr(fd, &mut before) } != 0 {
            return Err(io::Error::last_os_error());
        }
        let without = Termios { local: before.local & !ECHO, ..before };
        if unsafe { tcsetattr(fd, FLUSH, &without) } != 0 {
            return Err(io::Error::last_os_error());
        }
        Ok(Unechoed { terminal, before })
    }
}

impl Drop for Unechoed<'_> {
    fn drop(&mut self) {
        unsafe { tcsetattr(self.terminal.as_raw_fd(), FLUSH, &self.before) };
    }
}

/// That nobody listens is told to a socket that is not connected too.
pub fn tell_errors(socket: &UdpSocket) {
    let on = 1;
    // without it the time limits tell the same, later
    unsafe { setsockopt(socket.as_raw_fd(), IPPROTO_IP, IP_RECVERR, &on, 4) };
}
