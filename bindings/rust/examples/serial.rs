//! A task between a serial port and a simulated segment. It reads exactly as many bytes as are due and sends them, so
//! that it wakes two or three times for each telegram instead of once for each byte. It reads past the end of no
//! telegram, so that no reply waits for the next one.
//!
//! usage: serial
//!
//! The port is anything that reads. Here it is a stand-in over the bytes that a master would send, so that the program
//! runs anywhere. It prints what each wake read, what came back, and how often it woke.

use jezynar::frame::{Frame, Mask, LONGEST, SELECTED};
use jezynar::list::{self, Medium, MeterSpec};
use jezynar::{Clock, Segment};
use std::error::Error;
use std::io::{self, ErrorKind, Read};

/// A stand-in for a serial port, over bytes in memory. The task wakes for each read that hands out bytes.
struct Port<'a> {
    bytes: &'a [u8],
    wakes: usize,
}

impl Read for Port<'_> {
    fn read(&mut self, lent: &mut [u8]) -> io::Result<usize> {
        let count = self.bytes.read(lent)?;
        self.wakes += usize::from(count > 0);
        Ok(count)
    }
}

fn hex(bytes: &[u8]) -> String {
    bytes.iter().map(|byte| format!(" {byte:02X}")).collect()
}

/// All that is queued.
fn replies(segment: &mut Segment) -> Vec<u8> {
    let (mut replies, mut part) = (Vec::new(), [0; 32]);
    loop {
        let count = segment.receive(&mut part);
        if count == 0 {
            return replies;
        }
        replies.extend_from_slice(&part[..count]);
    }
}

/// Serves the port until it ends.
fn serve(port: &mut impl Read, segment: &mut Segment, clock: &Clock) -> Result<(), Box<dyn Error>> {
    // No more than a telegram is ever due.
    let mut buffer = [0; LONGEST];
    // Nothing waits in a segment that was opened: one byte is due.
    let mut due = 1;
    loop {
        let piece = &mut buffer[..due];
        match port.read_exact(piece) {
            Ok(()) => println!("read{}", hex(piece)),
            Err(error) if error.kind() == ErrorKind::UnexpectedEof => return Ok(()),
            Err(error) => return Err(error.into()),
        }
        due = segment.send(piece, clock)?;
        // The queue is emptied after each send, and what is due completes at most one telegram, whose replies fit: so
        // no send is refused for a full queue.
        let reply = replies(segment);
        if !reply.is_empty() {
            println!("  reply{}", hex(&reply));
        }
    }
}

fn main() -> Result<(), Box<dyn Error>> {
    let meters = list::write(&[
        MeterSpec::new(1, "12345678", "SEN", Medium::Water),
        MeterSpec::new(2, "12345699", "SEN", Medium::Water),
    ])?;
    // The same time in every run; a task at a real port takes the system's.
    let origin = 1_790_812_800.0;
    let mut segment = Segment::open_list(&meters, 2400, false, origin)?;
    let clock = Clock::from_unix(origin + 60.0).ok_or("after the year 9999")?;

    let sent = [
        Frame::snd_nke(1).to_vec()?,
        Frame::select(&Mask::new("12345699")?).to_vec()?,
        Frame::req_ud2(SELECTED, false).to_vec()?,
    ];
    let bytes = sent.concat();
    let mut port = Port { bytes: &bytes, wakes: 0 };
    serve(&mut port, &mut segment, &clock)?;
    println!("{} telegrams, {} bytes, {} wakes", sent.len(), bytes.len(), port.wakes);
    Ok(())
}
