//! The program that is compared: started, fed and heard.

use crate::pieces::Way;
use std::fs::{File, OpenOptions};
use std::io::{self, PipeWriter, Read, Seek, Write};
use std::os::fd::OwnedFd;
use std::os::unix::net::UnixDatagram;
use std::process::{Child, Command, ExitStatus, Stdio};
use std::sync::mpsc::{channel, Receiver, RecvTimeoutError, Sender};
use std::time::{Duration, Instant};

/// How long the program may be silent, or take to end.
pub const LIMIT: Duration = Duration::from_secs(10);

/// No sheet is answered with more bytes than this.
const MOST_OUTPUT: usize = 1 << 26;

/// The end of the input that is kept here.
pub enum Feeder {
    Datagrams(UnixDatagram),
    Pipe(PipeWriter),
    File,
}

impl Feeder {
    /// One piece. An error means that the program has ended.
    pub fn send(&mut self, piece: &[u8]) -> io::Result<()> {
        match self {
            Feeder::Datagrams(socket) => socket.send(piece).map(|_| ()),
            Feeder::Pipe(pipe) => pipe.write_all(piece),
            Feeder::File => Ok(()),
        }
    }

    /// The end of the input. An empty datagram is read as 0 bytes.
    pub fn end(self) -> io::Result<()> {
        match self {
            Feeder::Datagrams(socket) => socket.send(&[]).map(|_| ()),
            Feeder::Pipe(_) | Feeder::File => Ok(()),
        }
    }
}

/// The program's standard input, and the end that feeds it.
pub fn input(way: Way, text: &[u8]) -> io::Result<(Stdio, Feeder)> {
    match way {
        Way::Datagrams(_) => {
            let (feeds, reads) = UnixDatagram::pair()?;
            Ok((OwnedFd::from(reads).into(), Feeder::Datagrams(feeds)))
        }
        Way::Pipe(_) => {
            let (reads, feeds) = io::pipe()?;
            Ok((reads.into(), Feeder::Pipe(feeds)))
        }
        Way::File => Ok((file_of(text)?.into(), Feeder::File)),
    }
}

/// A file of this text without a name.
fn file_of(text: &[u8]) -> io::Result<File> {
    let name = format!("sheet-{}", std::process::id());
    let path = std::env::temp_dir().join(name);
    let mut options = OpenOptions::new();
    let mut file = options
        .read(true)
        .write(true)
        .create_new(true)
        .open(&path)?;
    std::fs::remove_file(&path)?;
    file.write_all(text)?;
    file.rewind()?;
    Ok(file)
}

/// What the program writes to one of its files, as far as it was heard.
pub struct Stream {
    chunks: Receiver<Vec<u8>>,
    pub bytes: Vec<u8>,
}

impl Stream {
    /// Listens to a file. Without one it is at its end.
    fn of(file: Option<impl Read + Send + 'static>) -> Stream {
        let (sender, chunks) = channel();
        if let Some(file) = file {
            std::thread::spawn(move || hear(file, sender));
        }
        Stream {
            chunks,
            bytes: Vec::new(),
        }
    }

    /// Waits for more; false at its end.
    pub fn more(&mut self) -> Result<bool, String> {
        if self.bytes.len() > MOST_OUTPUT {
            return Err("it prints without end".to_string());
        }
        match self.chunks.recv_timeout(LIMIT) {
            Ok(chunk) => {
                self.bytes.extend_from_slice(&chunk);
                Ok(true)
            }
            Err(RecvTimeoutError::Disconnected) => Ok(false),
            Err(RecvTimeoutError::Timeout) => Err("it is silent and does not end".to_string()),
        }
    }
}

fn hear(mut file: impl Read, sender: Sender<Vec<u8>>) {
    let mut buffer = vec![0; 65_536];
    while let Ok(length @ 1..) = file.read(&mut buffer) {
        if sender.send(buffer[..length].to_vec()).is_err() {
            break;
        }
    }
}

/// The program while it runs. It does not outlive this.
pub struct Running {
    child: Child,
    pub output: Stream,
    pub error: Stream,
}

impl Running {
    pub fn start(command: &mut Command) -> Result<Running, String> {
        let spawned = command.spawn();
        // The program alone keeps its end of the input, so that its own end
        // is noticed.
        command.stdin(Stdio::null());
        let mut child = spawned.map_err(|error| format!("it does not start: {error}"))?;
        Ok(Running {
            output: Stream::of(child.stdout.take()),
            error: Stream::of(child.stderr.take()),
            child,
        })
    }

    /// Waits for the end.
    pub fn ended(&mut self) -> Result<ExitStatus, String> {
        let start = Instant::now();
        while start.elapsed() < LIMIT {
            match self.child.try_wait() {
                Ok(Some(status)) => return Ok(status),
                Ok(None) => std::thread::sleep(Duration::from_micros(100)),
                Err(error) => return Err(error.to_string()),
            }
        }
        Err("it does not end".to_string())
    }
}

impl Drop for Running {
    fn drop(&mut self) {
        // It may have ended already.
        let _ = self.child.kill();
        let _ = self.child.wait();
    }
}

/// What came of a run: all that was written, and what was wrong besides.
#[derive(Default)]
pub struct Ended {
    pub output: Vec<u8>,
    pub error: Vec<u8>,
    pub fault: Option<String>,
}

/// The program run on a text in these pieces. It must end by itself with 0.
pub fn run(program: &mut Command, text: &[u8], way: Way, pieces: &[&[u8]]) -> Ended {
    let mut ended = Ended::default();
    ended.fault = run_into(&mut ended, program, text, way, pieces).err();
    ended
}

fn run_into(
    ended: &mut Ended,
    program: &mut Command,
    text: &[u8],
    way: Way,
    pieces: &[&[u8]],
) -> Result<(), String> {
    let (stdin, feeder) = input(way, text).map_err(|error| format!("no input: {error}"))?;
    program.stdin(stdin).stdout(Stdio::piped());
    let mut running = Running::start(program.stderr(Stdio::piped()))?;
    std::thread::scope(|scope| {
        scope.spawn(move || feed(feeder, pieces));
        let heard = to_the_end(&mut running);
        ended.output = std::mem::take(&mut running.output.bytes);
        ended.error = std::mem::take(&mut running.error.bytes);
        // From here on nobody reads, which ends the feeding.
        drop(running);
        heard
    })
}

fn feed(mut feeder: Feeder, pieces: &[&[u8]]) {
    let sent = pieces.iter().try_for_each(|piece| feeder.send(piece));
    // A program that ended early is told by its output.
    let _ = sent.and_then(|()| feeder.end());
}

fn to_the_end(running: &mut Running) -> Result<(), String> {
    while running.output.more()? {}
    while running.error.more()? {}
    let status = running.ended()?;
    if status.success() {
        Ok(())
    } else {
        Err(format!("it ended with {status}"))
    }
}

/// The lengths of the reads of the standard input, a line each.
pub fn print_reads() -> io::Result<()> {
    use std::os::fd::AsFd;
    let mut input = File::from(io::stdin().as_fd().try_clone_to_owned()?);
    let mut buffer = vec![0; crate::pieces::LARGEST];
    loop {
        let length = input.read(&mut buffer)?;
        println!("{length}");
        if length == 0 {
            return Ok(());
        }
    }
}
