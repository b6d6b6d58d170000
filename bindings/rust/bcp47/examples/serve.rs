//! Answers each request with the tag, of those that it is given, which the reader's Accept-Language header is served best by. It prints
//! the port. Arguments: a registry, and the tags, of which the first is the default.
use bcp47::{Available, Registry};
use std::error::Error;
use std::io::{BufRead, BufReader, Write};
use std::net::{TcpListener, TcpStream};
use std::{env, thread};

/// The language that a reader gets, by the fields of a request.
fn negotiated<'a>(available: &'a Available, fields: &[(String, String)], otherwise: &'a str) -> &'a str {
    let accept: Vec<_> =
        fields.iter().filter(|(name, _)| name == "accept-language").map(|(_, body)| &body[..]).collect();
    available.best(accept.join(", ")).ok().flatten().unwrap_or(otherwise)
}

fn answer(mut stream: TcpStream, available: &Available, otherwise: &str) -> Result<(), Box<dyn Error>> {
    let lines = BufReader::new(stream.try_clone()?).lines().map_while(Result::ok).take_while(|line| !line.is_empty());
    let pairs =
        lines.filter_map(|line| line.split_once(':').map(|(name, body)| (name.to_lowercase(), body.to_owned())));
    let fields: Vec<_> = pairs.collect();
    let language = negotiated(available, &fields, otherwise);
    let head =
        format!("Content-Language: {language}\r\nVary: Accept-Language\r\nContent-Length: {}", language.len() + 1);
    Ok(write!(stream, "HTTP/1.1 200 OK\r\n{head}\r\nConnection: close\r\n\r\n{language}\n")?)
}

fn main() -> Result<(), Box<dyn Error>> {
    let words: Vec<String> = env::args().skip(1).collect();
    let available = Registry::open(&words[0])?.available(&words[1..])?;
    let listener = TcpListener::bind("127.0.0.1:0")?;
    println!("{}", listener.local_addr()?.port());
    thread::scope(|scope| {
        for stream in listener.incoming().flatten() {
            scope.spawn(|| answer(stream, &available, &words[1]).unwrap_or_else(|error| eprintln!("{error}")));
        }
    });
    Ok(())
}
