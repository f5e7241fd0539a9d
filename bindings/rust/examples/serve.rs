//! A simulated segment behind a TCP port of this machine, as a level converter is: a program that speaks M-Bus over TCP
//! finds the meters of a list there.
//!
//! usage: serve LIST PORT [--clients N]
//!
//! LIST is a file with a meter list, PORT a port of 127.0.0.1, 0 for any that is free; the one that it listens on is
//! printed. Clients are served one after the other, at 2400 Bd. The meters stay as the client before left them; a part
//! of a telegram that it left does not. With `--clients` the program ends after so many, else it goes on.
//!
//! The status is 2 where the arguments are wrong, and 1 where the list cannot be read or is refused, or the port cannot
//! be listened on. A client that goes away, or does not take its replies, is reported and left, and the next one served.

use jezynar::{Clock, Segment, SendRefusal};
use std::ffi::OsString;
use std::fs::File;
use std::io::{self, ErrorKind, Read, Write};
use std::net::{Ipv4Addr, TcpListener, TcpStream};
use std::path::{Path, PathBuf};
use std::process::ExitCode;
use std::time::{Duration, SystemTime};

const USAGE: &str = "usage: serve LIST PORT [--clients N]";
const BAUD: u32 = 2400;
/// The most bytes that a list has, and one more.
const READ: u64 = 3 + 65_535 + 1;
/// The most bytes of a piece that is sent to the segment.
const PIECE: usize = 1024;
/// How long a client may leave replies unread that the connection cannot hold.
const UNREAD_LIMIT: Duration = Duration::from_secs(1);

struct Arguments {
    list: PathBuf,
    port: u16,
    /// After how many clients it ends.
    clients: u64,
}

fn arguments(mut given: impl Iterator<Item = OsString>) -> Result<Arguments, String> {
    let (mut places, mut clients) = (Vec::new(), u64::MAX);
    while let Some(argument) = given.next() {
        if argument == "--clients" {
            let number = given.next().unwrap_or_default();
            let count = number.to_str().and_then(|text| text.parse().ok()).filter(|count| *count > 0);
            clients = count.ok_or_else(|| format!("--clients is a number from 1, not {number:?}; {USAGE}"))?;
        } else {
            places.push(argument);
        }
    }
    let Ok([list, port]) = <[OsString; 2]>::try_from(places) else {
        return Err(USAGE.to_string());
    };
    let number = port.to_str().and_then(|text| text.parse().ok());
    let port = number.ok_or_else(|| format!("the port is a number from 0 to 65535, not {port:?}; {USAGE}"))?;
    Ok(Arguments { list: list.into(), port, clients })
}

fn read(list: &Path) -> io::Result<Vec<u8>> {
    let mut bytes = Vec::new();
    File::open(list)?.take(READ).read_to_end(&mut bytes)?;
    Ok(bytes)
}

/// The system time.
fn clock() -> io::Result<Clock> {
    let since = SystemTime::now().duration_since(SystemTime::UNIX_EPOCH).ok();
    let clock = since.and_then(|time| Clock::from_unix(time.as_secs_f64()));
    clock.ok_or_else(|| io::Error::other("the system time is not from 1970 to 9999"))
}

/// Hands a piece to the segment, and all its replies to the client.
fn pass(piece: &[u8], segment: &mut Segment, client: &mut TcpStream) -> io::Result<()> {
    match segment.send(piece, &clock()?) {
        // What is due is not asked for: a connection hands out the bytes that are there.
        Ok(_) => {}
        // More replies than the queue holds: in halves. One byte completes at most one telegram, whose replies fit.
        Err(SendRefusal::QueueFull) if piece.len() > 1 => {
            let (front, back) = piece.split_at(piece.len() / 2);
            pass(front, segment, client)?;
            return pass(back, segment, client);
        }
        Err(refusal) => return Err(io::Error::other(refusal)),
    }
    let (mut replies, mut part) = (Vec::new(), [0; 32]);
    loop {
        let count = segment.receive(&mut part);
        if count == 0 {
            let not_taken = |error: &io::Error| matches!(error.kind(), ErrorKind::WouldBlock | ErrorKind::TimedOut);
            let written = client.write_all(&replies);
            return written
                .map_err(|e| if not_taken(&e) { io::Error::other("it does not take its replies") } else { e });
        }
        replies.extend_from_slice(&part[..count]);
    }
}

/// Serves one client until it ends its side.
fn serve_client(segment: &mut Segment, client: &mut TcpStream) -> io::Result<()> {
    client.set_nodelay(true)?;
    client.set_write_timeout(Some(UNREAD_LIMIT))?;
    let mut piece = [0; PIECE];
    loop {
        match client.read(&mut piece) {
            Ok(0) => return Ok(()),
            Ok(count) => pass(&piece[..count], segment, client)?,
            Err(error) if error.kind() == ErrorKind::Interrupted => {}
            Err(error) => return Err(error),
        }
    }
}

fn serve(arguments: &Arguments) -> Result<(), String> {
    let name = arguments.list.display();
    let list = read(&arguments.list).map_err(|error| format!("the list {name} cannot be read: {error}"))?;
    // The meters' values begin to rise now.
    let origin = clock().map_err(|error| error.to_string())?.secs;
    let opened = Segment::open_list(&list, BAUD, false, origin);
    let mut segment = opened.map_err(|refusal| format!("the list {name} is {refusal}"))?;

    let no_port = |error| format!("port {} cannot be listened on: {error}", arguments.port);
    let listener = TcpListener::bind((Ipv4Addr::LOCALHOST, arguments.port)).map_err(no_port)?;
    let address = listener.local_addr().map_err(no_port)?;
    writeln!(io::stdout(), "listening on {address}").map_err(|error| format!("the port cannot be printed: {error}"))?;

    for number in 1..=arguments.clients {
        let served = match listener.accept() {
            Ok((mut client, _)) => {
                // Empties the waiting input: a part of a telegram that the client before left.
                segment.set_baud(BAUD).map_err(|refusal| refusal.to_string())?;
                serve_client(&mut segment, &mut client)
            }
            Err(error) if error.kind() == ErrorKind::ConnectionAborted => Err(error),
            Err(error) => return Err(format!("no further client can be taken: {error}")),
        };
        if let Err(error) = served {
            eprintln!("serve: client {number} is left: {error}");
        }
    }
    Ok(())
}

fn main() -> ExitCode {
    let (status, why) = match arguments(std::env::args_os().skip(1)) {
        Err(why) => (2, why),
        Ok(arguments) => match serve(&arguments) {
            Err(why) => (1, why),
            Ok(()) => return ExitCode::SUCCESS,
        },
    };
    eprintln!("serve: {why}");
    ExitCode::from(status)
}
