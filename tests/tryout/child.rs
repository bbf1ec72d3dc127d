// One run of the program under test: what it printed, and whether it ended in good order. A socket
// pair of datagrams gives each read exactly one part, and an empty datagram is the end.

use crate::way::Way;
use std::fs::{self, File};
use std::io::{self, Read, Write};
use std::os::fd::OwnedFd;
use std::os::unix::net::UnixDatagram;
use std::process::{Child, ChildStdin, Command, ExitStatus, Stdio};
use std::sync::atomic::{AtomicUsize, Ordering};
use std::sync::mpsc;
use std::thread;
use std::time::Duration;

// A program that prints without end is cut off here.
const MOST_OUTPUT: u64 = 100_000_000;

pub struct Ended {
    pub output: Vec<u8>,
    pub fault: Option<String>,
    pub hung: bool,
}

enum Feed {
    Parts(UnixDatagram),
    Pipe(ChildStdin),
    Nothing,
}

pub fn run(text: &[u8], way: &Way) -> Ended {
    match begin(text, way) {
        Ok((child, feed)) => attend(child, feed, text, way),
        Err(error) => Ended {
            output: vec![],
            fault: Some(format!("the program could not be started: {error}")),
            hung: false,
        },
    }
}

fn begin(text: &[u8], way: &Way) -> io::Result<(Child, Feed)> {
    let program = std::env::var("TRYOUT").unwrap_or("crates/tryout/out/tryout".to_string());
    let spawn = |stdin: Stdio| {
        let mut command = Command::new(&program);
        command.stdin(stdin).stdout(Stdio::piped()).spawn()
    };
    match way {
        Way::Pipe => {
            let mut child = spawn(Stdio::piped())?;
            let stdin = child.stdin.take().expect("a pipe was asked for");
            Ok((child, Feed::Pipe(stdin)))
        }
        Way::File => Ok((spawn(Stdio::from(file_of(text)?))?, Feed::Nothing)),
        _ => {
            let (near, far) = UnixDatagram::pair()?;
            let child = spawn(Stdio::from(OwnedFd::from(far)))?;
            Ok((child, Feed::Parts(near)))
        }
    }
}

// The file goes with its last user.
fn file_of(text: &[u8]) -> io::Result<File> {
    static NUMBER: AtomicUsize = AtomicUsize::new(0);
    let number = NUMBER.fetch_add(1, Ordering::Relaxed);
    let name = format!("tryout-{}-{number}", std::process::id());
    let path = std::env::temp_dir().join(name);
    fs::write(&path, text)?;
    let file = File::open(&path);
    fs::remove_file(&path)?;
    file
}

fn attend(mut child: Child, feed: Feed, text: &[u8], way: &Way) -> Ended {
    let stdout = child.stdout.take().expect("a pipe was asked for");
    let patience = Duration::from_secs(20 + text.len() as u64 / 100_000);
    // A second hold on our end: an input that stays open must outlast the feeding.
    let _kept = match &feed {
        Feed::Parts(socket) => socket.try_clone().ok(),
        _ => None,
    };
    thread::scope(|scope| {
        scope.spawn(move || feed.give(text, way));
        let (sender, receiver) = mpsc::channel();
        scope.spawn(move || {
            let mut output = Vec::new();
            let _ = stdout.take(MOST_OUTPUT).read_to_end(&mut output);
            let _ = sender.send(output);
        });
        let in_time = receiver.recv_timeout(patience);
        let status = in_time.is_ok().then(|| ended(&mut child)).flatten();
        let _ = child.kill();
        let _ = child.wait();
        let output = in_time.or_else(|_| receiver.recv()).unwrap_or_default();
        let fault = match status {
            None => Some("the program did not end".to_string()),
            Some(status) if status.code().is_some() => None,
            Some(status) => Some(format!("the program broke off: {status}")),
        };
        Ended {
            output,
            fault,
            hung: status.is_none(),
        }
    })
}

// Its output has ended, and so it should be at its end; but it may have been cut off.
fn ended(child: &mut Child) -> Option<ExitStatus> {
    for _ in 0..20_000 {
        if let Ok(Some(status)) = child.try_wait() {
            return Some(status);
        }
        thread::sleep(Duration::from_micros(100));
    }
    None
}

impl Feed {
    // A program that has ended takes no more: that is its right, so no error counts here.
    fn give(self, text: &[u8], way: &Way) {
        let _ = match self {
            Feed::Parts(socket) => give_parts(&socket, text, way),
            Feed::Pipe(mut pipe) => pipe.write_all(text),
            Feed::Nothing => Ok(()),
        };
    }
}

fn give_parts(socket: &UnixDatagram, text: &[u8], way: &Way) -> io::Result<()> {
    for part in way.parts(text) {
        socket.send(part)?;
    }
    match way {
        Way::Open => {}
        Way::Endless => {
            let more = [text[text.len() - 1]; 50_000];
            loop {
                socket.send(&more)?;
            }
        }
        // Asked once more after the end, a file says again that it has ended.
        _ => {
            socket.send(&[])?;
            socket.send(&[])?;
        }
    }
    Ok(())
}
