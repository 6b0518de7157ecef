//! A proved program, `target/bin/NAME`, started for a test.

use std::io::{Read, Write};
use std::path::Path;
use std::process::{Child, Command, ExitStatus, Stdio};
use std::sync::mpsc;
use std::thread;
use std::time::{Duration, Instant};

/// The top of the repository.
pub const TOP: &str = concat!(env!("CARGO_MANIFEST_DIR"), "/..");

/// More than any of them takes.
pub const LIMIT: Duration = Duration::from_secs(60);

pub fn program(name: &str, input: Stdio, output: Stdio) -> Child {
    let path = Path::new(TOP).join("target/bin").join(name);
    assert!(
        path.is_file(),
        "there is no target/bin/{name}; `make target/bin/{name}` at the top of the repository makes it"
    );
    Command::new(path).stdin(input).stdout(output).stderr(Stdio::piped()).spawn().expect("the program starts")
}

/// Hands the program its input, this many bytes at a time, while the test goes on. It may stop reading before the end.
pub fn feed(child: &mut Child, input: &[u8], piece: usize) {
    let mut pipe = child.stdin.take().expect("its input is a pipe");
    let input = input.to_vec();
    thread::spawn(move || input.chunks(piece).try_for_each(|some| pipe.write_all(some)));
}

/// All that a program prints that has to end by itself.
pub fn output(child: &mut Child) -> String {
    let mut pipe = child.stdout.take().expect("its output is a pipe");
    let (tell, told) = mpsc::channel();
    thread::spawn(move || {
        let mut text = String::new();
        let _ = tell.send(pipe.read_to_string(&mut text).map(|_| text));
    });
    told.recv_timeout(LIMIT).map_or_else(|_| not_ended(child), |text| text.expect("the output is text"))
}

/// The end of a program that has to end by itself.
pub fn ended(mut child: Child) -> ExitStatus {
    let start = Instant::now();
    while start.elapsed() < LIMIT {
        if let Some(status) = child.try_wait().expect("the program can be waited for") {
            let mut error = String::new();
            child.stderr.take().expect("a pipe").read_to_string(&mut error).expect("text");
            assert_eq!(error, "");
            return status;
        }
        thread::sleep(Duration::from_millis(2));
    }
    not_ended(&mut child)
}

/// Ends a program that did not end by itself, and the test.
pub fn not_ended(child: &mut Child) -> ! {
    let _ = child.kill();
    let _ = child.wait();
    panic!("the program did not end");
}
