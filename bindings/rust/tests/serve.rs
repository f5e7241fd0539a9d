//! The program examples/serve, with a master that talks to it over TCP.
//!
//! On a bus, silence is told by waiting. Here each telegram of the search goes over a connection of its own, whose
//! sending side the master closes after the telegram: the replies then end where the stream ends, and silence is a
//! stream without a byte. So nothing depends on how fast the machine is. (A telegram that always answers, sent after
//! each select, would need a meter that the list is known to have, and could not mark the end of half a telegram.)
//! What takes longer than `LIMIT` has failed.
mod common;

use common::{example, examples, program, NKE_ALL};
use jezynar::frame::{parse, Frame, Mask, Parsed, ALL, SELECTED};
use std::fmt::Write as _;
use std::io::{BufRead, BufReader, ErrorKind, Read, Write};
use std::net::{Shutdown, TcpListener, TcpStream};
use std::path::Path;
use std::process::{Child, Command, ExitStatus, Stdio};
use std::sync::mpsc;
use std::thread;
use std::time::{Duration, Instant};

const LIMIT: Duration = Duration::from_secs(10);

/// The program as it runs. It is ended with the test, if it has not ended by itself.
struct Server {
    child: Child,
    port: u16,
}

impl Drop for Server {
    fn drop(&mut self) {
        self.child.kill().ok();
        self.child.wait().ok();
    }
}

fn spawn(arguments: &[&str]) -> Child {
    let mut command = Command::new(program("serve"));
    command.args(arguments).stdin(Stdio::null()).stdout(Stdio::piped()).stderr(Stdio::piped());
    command.spawn().expect("the program")
}

/// Waits until the program has ended: its status and what it wrote to stderr.
fn ended(child: &mut Child) -> (ExitStatus, String) {
    let start = Instant::now();
    let status = loop {
        if let Some(status) = child.try_wait().expect("the program's status") {
            break status;
        }
        if start.elapsed() > LIMIT {
            child.kill().ok();
            panic!("the program did not end");
        }
        thread::sleep(Duration::from_millis(5));
    };
    let mut words = String::new();
    child.stderr.take().expect("stderr").read_to_string(&mut words).expect("text");
    (status, words)
}

impl Server {
    fn start(list: &Path, clients: u32) -> Server {
        let mut child = spawn(&[list.to_str().expect("a path"), "0", "--clients", &clients.to_string()]);
        let out = child.stdout.take().expect("stdout");
        let mut server = Server { child, port: 0 };
        let (sender, receiver) = mpsc::channel();
        thread::spawn(move || {
            let mut line = String::new();
            BufReader::new(out).read_line(&mut line).ok();
            sender.send(line).ok();
        });
        let line = receiver.recv_timeout(LIMIT).expect("the program prints its port");
        let port = line.strip_prefix("listening on 127.0.0.1:").and_then(|rest| rest.trim_end().parse().ok());
        server.port = port.unwrap_or_else(|| panic!("{line:?}, {}", ended(&mut server.child).1));
        server
    }

    fn connect(&self) -> TcpStream {
        let client = TcpStream::connect(("127.0.0.1", self.port)).expect("a connection");
        client.set_read_timeout(Some(LIMIT)).expect("a timeout");
        client.set_write_timeout(Some(LIMIT)).expect("a timeout");
        client.set_nodelay(true).expect("no delay");
        client
    }

    /// Sends some bytes over a connection of their own: all that is replied.
    fn exchange(&self, bytes: &[u8]) -> Vec<u8> {
        let mut client = self.connect();
        client.write_all(bytes).expect("the bytes are sent");
        client.shutdown(Shutdown::Write).expect("the sending side is closed");
        let mut replies = Vec::new();
        client.take(100_000).read_to_end(&mut replies).expect("the replies");
        replies
    }

    /// Waits until the program has ended, with status 0: what it wrote to stderr.
    fn end(mut self) -> String {
        let (status, words) = ended(&mut self.child);
        assert_eq!(status.code(), Some(0), "{words}");
        words
    }
}

fn bytes(frame: Frame) -> Vec<u8> {
    frame.to_vec().expect("a telegram")
}

/// A search as document 01 has it, telegram by telegram.
struct Master<'a> {
    server: &'a Server,
    lines: Vec<String>,
    probes: u32,
    readings: u32,
}

impl Master<'_> {
    fn probe(&mut self, known: &str) {
        self.probes += 1;
        assert!(self.probes < 10_000, "too many probes");
        let text = format!("{known:F<8}");
        let mask = Mask::new(&text).expect("a mask");
        let replies = self.server.exchange(&bytes(Frame::select(&mask)));
        assert!(replies.iter().all(|byte| *byte == 0xE5), "{text}: {replies:02X?}");
        match replies.len() {
            0 => {}
            1 => {
                let id = self.read(&mask);
                self.lines.push(id.map_or(format!("mute {text}"), |id| format!("one {id}")));
            }
            count if known.len() == 8 => self.lines.push(format!("many {text} {count}")),
            _ => (0..10).for_each(|digit| self.probe(&format!("{known}{digit}"))),
        }
    }

    /// The id of the selected meter, if its reply is one whole RSP_UD with data that begin with an id of the mask.
    fn read(&mut self, mask: &Mask) -> Option<String> {
        self.readings += 1;
        let reply = self.server.exchange(&bytes(Frame::req_ud2(SELECTED, false)));
        let Parsed::Complete { frame: Frame::Long { control, ci, data, .. }, used } = parse(&reply) else {
            return None;
        };
        let id: [u8; 4] = data.get(..4)?.try_into().ok()?;
        let fits = id.iter().zip(mask.data()).all(|(is, asked)| {
            [4, 0].iter().all(|shift| asked >> shift & 0x0F == 0x0F || (asked ^ is) >> shift & 0x0F == 0)
        });
        let good = used == reply.len() && control & 0xCF == 0x08 && matches!(ci, 0x72 | 0x73) && fits;
        good.then(|| id.iter().rev().fold(String::new(), |text, two| format!("{text}{two:02X}")))
    }
}

/// What the listing program writes of a list, by the telegrams of a master. How many telegrams were sent.
fn listing(server: &Server) -> (String, u32) {
    let mut master = Master { server, lines: Vec::new(), probes: 0, readings: 0 };
    master.probe("");
    let mut text = format!("{} entries, {} probes\n", master.lines.len(), master.probes);
    for line in &master.lines {
        writeln!(text, "{line}").expect("text");
    }
    (text, master.probes + master.readings)
}

/// Searches a list, with the words that are stored beside it. The program ends after exactly as many clients as telegrams
/// were sent: the probes, and a reading for each entry but a `many`. How many these were.
fn search(name: &str) -> u32 {
    let want = String::from_utf8(example(&format!("{name}.out"))).expect("text");
    let probes: u32 = want.split(' ').nth(2).and_then(|word| word.parse().ok()).expect("the number of probes");
    let readings = want.lines().filter(|line| line.starts_with("one ") || line.starts_with("mute ")).count() as u32;
    let server = Server::start(&examples().join(format!("{name}.list")), probes + readings);
    let (text, sent) = listing(&server);
    assert_eq!(text, want, "{name}");
    assert_eq!(sent, probes + readings, "{name}");
    assert_eq!(server.end(), "", "{name}");
    sent
}

#[test]
fn praxis_is_searched_over_tcp() {
    assert_eq!(search("praxis"), 281 + 13);
}

#[test]
fn every_list_is_searched_over_tcp() {
    let mut seen = 0;
    for file in std::fs::read_dir(examples()).expect("the folder examples/") {
        let path = file.expect("a file").path();
        let name = path.file_stem().and_then(|name| name.to_str()).expect("a name");
        if path.extension().is_some_and(|end| end == "list") && !name.starts_with("refused_") {
            search(name);
            seen += 1;
        }
    }
    assert!(seen >= 4, "{seen} lists");
}

/// Reads one whole telegram from a connection that stays open.
fn telegram(client: &mut TcpStream) -> Vec<u8> {
    let mut got = Vec::new();
    while let Parsed::Incomplete { due } = parse(&got) {
        let begin = got.len();
        got.resize(begin + due, 0);
        client.read_exact(&mut got[begin..]).expect("a reply");
    }
    got
}

#[test]
fn one_connection_takes_telegrams_in_any_pieces() {
    let server = Server::start(&examples().join("two_water.list"), 1);
    let mut client = server.connect();
    let req = bytes(Frame::req_ud2(1, false));
    for size in [1, 2, 5, 15] {
        for piece in [bytes(Frame::snd_nke(1)), req.clone(), req.clone()].concat().chunks(size) {
            client.write_all(piece).expect("a piece is sent");
        }
        assert_eq!(telegram(&mut client), [0xE5]);
        for _ in 0..2 {
            let reply = telegram(&mut client);
            let Parsed::Complete { frame: Frame::Long { control, address, ci, data }, .. } = parse(&reply) else {
                panic!("no data: {reply:02X?}");
            };
            assert_eq!((control, address, ci, &data[..4]), (0x08, 1, 0x72, &[0x78, 0x56, 0x34, 0x12][..]));
        }
    }
    drop(client);
    assert_eq!(server.end(), "");
}

/// The meters stay as the client before left them; half a telegram does not.
#[test]
fn clients_one_after_the_other() {
    let server = Server::start(&examples().join("two_water.list"), 5);
    let select = bytes(Frame::select(&Mask::new("12345699").unwrap()));
    assert_eq!(server.exchange(&select), [0xE5]);
    assert_eq!(server.exchange(&NKE_ALL[..3]), []);
    let reply = server.exchange(&bytes(Frame::req_ud2(SELECTED, false)));
    assert!(matches!(parse(&reply), Parsed::Complete { frame: Frame::Long { address: 2, .. }, .. }), "{reply:02X?}");
    // The next client is taken when the one before has ended.
    let mut first = server.connect();
    let mut second = server.connect();
    second.write_all(&bytes(Frame::snd_nke(1))).unwrap();
    first.write_all(&bytes(Frame::snd_nke(ALL))).unwrap();
    assert_eq!((telegram(&mut first), telegram(&mut first)), (vec![0xE5], vec![0xE5]));
    drop(first);
    assert_eq!(telegram(&mut second), [0xE5]);
    drop(second);
    assert_eq!(server.end(), "");
}

/// 200 telegrams in one piece, each acknowledged by 64 meters: three times what the segment's queue holds.
#[test]
fn more_replies_than_the_queue_holds() {
    let server = Server::start(&examples().join("worst_case.list"), 1);
    assert_eq!(server.exchange(&NKE_ALL.repeat(200)), vec![0xE5; 200 * 64]);
    assert_eq!(server.end(), "");
}

/// Bytes that are no telegram are not answered, discard what is behind them in the same piece, and do not end the
/// connection.
#[test]
fn other_bytes_are_not_answered() {
    let server = Server::start(&examples().join("two_water.list"), 2);
    assert_eq!(server.exchange(&[0; 5000]), []);
    let nke = bytes(Frame::snd_nke(1));
    let mut client = server.connect();
    client.write_all(&[&nke[..], &[0x10, 0x40, 0xFE, 0x3F, 0x16], &nke].concat()).unwrap();
    assert_eq!(telegram(&mut client), [0xE5]);
    client.write_all(&bytes(Frame::req_ud2(1, false))).unwrap();
    assert!(telegram(&mut client).len() > 1);
    drop(client);
    assert_eq!(server.end(), "");
}

/// A client that closes its connection with replies unread resets it: one line says so, and the next one is served.
#[test]
fn a_client_that_goes_away() {
    let server = Server::start(&examples().join("two_water.list"), 2);
    let mut client = server.connect();
    client.write_all(&bytes(Frame::req_ud2(1, false))).unwrap();
    assert_eq!(client.peek(&mut [0]).unwrap(), 1);
    drop(client);
    assert_eq!(server.exchange(&bytes(Frame::snd_nke(ALL))), [0xE5, 0xE5]);
    one_line(&server.end(), "client 1 is left: ");
}

/// A client that goes on sending and takes no reply, until nothing more is taken from it either.
fn sends_only(server: &Server) -> TcpStream {
    let mut client = server.connect();
    client.set_nonblocking(true).unwrap();
    let telegrams = NKE_ALL.repeat(1000);
    let (start, mut moved, mut sent) = (Instant::now(), Instant::now(), 0);
    while moved.elapsed() < Duration::from_millis(200) && start.elapsed() < LIMIT {
        match client.write(&telegrams[sent % NKE_ALL.len()..]) {
            Ok(count) => (moved, sent) = (Instant::now(), sent + count),
            Err(error) => {
                assert_eq!(error.kind(), ErrorKind::WouldBlock);
                thread::sleep(Duration::from_millis(1));
            }
        }
    }
    client
}

#[test]
fn clients_that_do_not_take_their_replies() {
    // One that goes away at last, and one that does not.
    for (goes, words) in [(true, "client 1 is left: "), (false, "client 1 is left: it does not take its replies")] {
        let server = Server::start(&examples().join("worst_case.list"), 2);
        let client = Some(sends_only(&server)).filter(|_| !goes);
        assert_eq!(server.exchange(&bytes(Frame::snd_nke(1))), [0xE5]);
        one_line(&server.end(), words);
        drop(client);
    }
}

fn one_line(words: &str, part: &str) {
    assert!(words.starts_with("serve: ") && words.contains(part), "{words:?}");
    assert_eq!(words.matches('\n').count(), 1, "{words:?}");
    assert!(words.ends_with('\n'), "{words:?}");
}

/// The program does not begin: its status, one line on stderr with these words, and nothing on stdout.
fn not_begun(arguments: &[&str], status: i32, part: &str) {
    let mut child = spawn(arguments);
    let (got, words) = ended(&mut child);
    let mut out = String::new();
    child.stdout.take().expect("stdout").read_to_string(&mut out).expect("text");
    assert_eq!((got.code(), &*out), (Some(status), ""), "{arguments:?} {words}");
    one_line(&words, part);
}

#[test]
fn lists_that_cannot_be_served() {
    let at = |name: &str| examples().join(name).to_str().expect("a path").to_string();
    not_begun(&[&at("no_such.list"), "0"], 1, "no_such.list cannot be read: ");
    not_begun(&[&at(""), "0"], 1, " cannot be read: ");
    for (name, part) in [
        ("refused_1_empty", " is refused, number 1: "),
        ("refused_2_more", " is refused, number 2: "),
        ("refused_3_meters", " is refused, number 3: "),
        ("refused_3_past_the_end", " is refused, number 2: "),
        ("refused_4_primary", " is refused, number 4: record 1: "),
        ("refused_9_fault", " is refused, number 9: record 0: "),
    ] {
        not_begun(&[&at(&format!("{name}.list")), "0"], 1, part);
    }
}

#[test]
fn ports_and_arguments_that_are_wrong() {
    let list = examples().join("praxis.list").to_str().expect("a path").to_string();
    let taken = TcpListener::bind("127.0.0.1:0").unwrap();
    let port = taken.local_addr().unwrap().port().to_string();
    not_begun(&[&list, &port], 1, &format!("port {port} cannot be listened on: "));
    for wrong in ["", "x", "-1", "65536", "80 ", "0x50"] {
        not_begun(&[&list, wrong], 2, "the port is a number from 0 to 65535");
    }
    for wrong in ["", "x", "-1", "0", "1.5"] {
        not_begun(&[&list, "0", "--clients", wrong], 2, "--clients is a number from 1");
    }
    not_begun(&[&list, "0", "--clients"], 2, "--clients is a number from 1");
    not_begun(&[], 2, "usage: ");
    not_begun(&[&list], 2, "usage: ");
    not_begun(&[&list, "0", "1"], 2, "usage: ");
}
