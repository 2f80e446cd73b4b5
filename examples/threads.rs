// The same in Rust: arguments printed from a thread that has thread-local data, and their number as the status.
use std::cell::Cell;

thread_local! { static PRINTED: Cell<u32> = const { Cell::new(100) }; }

fn main() {
    let arguments: Vec<String> = std::env::args().skip(1).collect();
    let count = arguments.len() as i32;
    let thread = std::thread::spawn(move || {
        for argument in arguments {
            println!("{} <{argument}>", PRINTED.get());
            PRINTED.set(PRINTED.get() + 1);
        }
    });
    thread.join().expect("the thread ends");
    println!("{}", PRINTED.get());
    std::process::exit(count);
}
