//! `server FILE ADDRESS`: reads a subject from each connection, a dictionary string in a line, and writes its triples.
//! `cargo run --example server FILE 127.0.0.1:0`

use std::env;
use std::io::{self, BufRead, BufReader, Read, Write};
use std::net::{TcpListener, TcpStream};
use std::sync::Arc;
use std::thread;
use std::time::Duration;
use tickmarl_hdt::{Graph, Pattern};

const THREADS: usize = 4; // the threads and the lines limit the memory of all answers
const LINES: u64 = 1_000;

fn main() -> Result<(), Box<dyn std::error::Error>> {
    let arguments: Vec<String> = env::args().collect();
    let [_, path, address] = &arguments[..] else { return Err("usage: server FILE ADDRESS".into()) };
    let graph = Graph::open_path(path)?;
    let listener = Arc::new(TcpListener::bind(address)?);
    println!("{}", listener.local_addr()?);
    let threads = [(); THREADS].map(|()| {
        let (graph, listener) = (graph.clone(), listener.clone());
        thread::spawn(move || {
            for stream in listener.incoming() {
                if let Err(error) = stream.and_then(|stream| serve(&graph, stream)) {
                    eprintln!("{error}");
                }
            }
        })
    });
    threads.into_iter().for_each(|thread| thread.join().expect("no thread panics"));
    Ok(())
}

fn serve(graph: &Graph, mut stream: TcpStream) -> io::Result<()> {
    stream.set_read_timeout(Some(Duration::from_secs(10)))?;
    let mut line = String::new();
    BufReader::new(&stream).take(4_096).read_line(&mut line)?;
    let subject = line.trim_end_matches('\n');
    let (text, _) = graph.page_text(Pattern::any().subject(subject), 0, LINES).map_err(io::Error::other)?;
    stream.write_all(&text)
}
