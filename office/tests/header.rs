//! The C header: its example is compiled with every warning and run, and what it says of stack and threads holds.
#![cfg(unix)]

#[path = "tools/run.rs"]
mod run;

use office::model::faults::LAST;
use office::{ffi, house, table};
use run::{read, scratch, top};
use std::process::Command;

/// The folder of the archive, as `build.rs` has it.
fn archive() -> std::path::PathBuf {
    let package = std::path::PathBuf::from(env!("CARGO_MANIFEST_DIR"));
    let folder = std::env::var_os("ORDER_LIB").map_or(package.join("../target/staticlib"), |named| package.join(named));
    folder.join("liborder.a")
}

#[test]
fn the_example_in_c_is_compiled_and_run_against_all_calls() {
    let program = scratch("order-c");
    for language in ["-std=c99", "-std=c11"] {
        let compiled = Command::new("cc")
            .args([language, "-Wall", "-Wextra", "-Wpedantic", "-Werror", "-I", "office/include", "examples/order.c"])
            .arg(archive())
            .args(["-o", &program])
            .current_dir(top())
            .output()
            .expect("a C compiler is there: it links the archive too");
        assert!(compiled.status.success(), "{}", String::from_utf8_lossy(&compiled.stderr));
        let ran = Command::new(&program).output().expect("it starts");
        let printed = String::from_utf8_lossy(&ran.stdout).into_owned();
        assert_eq!(ran.status.code(), Some(0), "{printed}");
        assert!(printed.contains("cost 130000\nsize 2\n"), "{printed}");
    }
    let source = read("examples/order.c");
    let header = read("office/include/order.h");
    let calls: Vec<&str> =
        header.lines().filter_map(|line| line.strip_prefix("uint32_t ")?.split('(').next()).collect();
    assert!(calls.len() >= 4, "{calls:?}");
    for call in calls {
        assert!(source.contains(&format!("{call}(")), "the example does not call {call}");
    }
}

/// A caller without a C library has two functions to write.
#[test]
fn the_archive_asks_for_memcpy_and_memset_alone() {
    let listed = Command::new("nm").arg("-u").arg(archive()).output().expect("nm is there: it comes with the linker");
    assert!(listed.status.success(), "{}", String::from_utf8_lossy(&listed.stderr));
    let text = String::from_utf8(listed.stdout).expect("names");
    // A line of a name has its kind before it; others name the archive's members.
    let mut asked: Vec<&str> = text.lines().filter_map(|line| Some(line.trim().split_once(' ')?.1)).collect();
    asked.sort();
    asked.dedup();
    assert_eq!(asked, ["memcpy", "memset"]);
}

/// Each number has one line, and the ABI's number is the one that the example prints.
#[test]
fn the_header_lists_every_refusal() {
    let header = read("office/include/order.h");
    for number in 1..=LAST {
        let line = format!(" *   {number:2}  ");
        assert_eq!(header.lines().filter(|text| text.starts_with(&line)).count(), 1, "{number}");
    }
    assert!(!header.contains(&format!(" *   {:2}  ", LAST + 1)));
    let version = header.lines().find_map(|line| line.strip_prefix("#define ORDER_VERSION ")).expect("a number");
    assert!(read("examples/order.c").contains(&format!("is(\"version\", ORDER_VERSION, {version});")));
}

#[test]
fn a_small_stack_is_enough_and_threads_may_share_what_is_read() {
    let job = house::pack(&read("examples/house.txt")).expect("a house");
    let cat = table::pack(&read("examples/table.csv")).expect("a table");
    std::thread::scope(|threads| {
        for _ in 0..4 {
            let (job, cat) = (&job, &cat);
            let thread = std::thread::Builder::new().stack_size(128 * 1024);
            let run = move || {
                let mut work = vec![0xa5; 1_792_256 + 1];
                let mut out = [0; 68];
                // One byte further on: no buffer needs an alignment.
                let number = ffi::choose(job, cat, &mut work[1..], &mut out[1..]);
                assert_eq!((number, &out[1..5]), (0, &572_410_u32.to_be_bytes()[..]));
            };
            thread.spawn_scoped(threads, run).expect("the thread starts");
        }
    });
}
