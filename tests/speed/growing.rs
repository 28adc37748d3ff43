// A text that arrives in chunks, rendered anew: CHUNK EVERY OPTIONS, with the text on standard input. tests/speed/growing builds it with
// Debian's crate pulldown-cmark. A call follows only one in EVERY chunks, and none if EVERY is 0. OPTIONS other than 0: tables,
// strikethrough, task lists and footnotes.
use pulldown_cmark::{html, Options, Parser};
use std::io::Read;

fn main() {
    let words: Vec<usize> = std::env::args().skip(1).map(|it| it.parse().expect("a number")).collect();
    let [chunk, every, bits] = words[..] else { panic!("three numbers are wanted") };
    let mut options = Options::empty();
    if bits != 0 {
        options = Options::ENABLE_TABLES | Options::ENABLE_STRIKETHROUGH | Options::ENABLE_TASKLISTS | Options::ENABLE_FOOTNOTES;
    }
    let mut text = String::new();
    std::io::stdin().read_to_string(&mut text).expect("a text in UTF-8");
    let (mut end, mut number, mut written) = (0, 0, 0);
    while end < text.len() {
        end = text.len().min(end + chunk);
        while !text.is_char_boundary(end) {
            end += 1;
        }
        number += 1;
        if every != 0 && number % every == 0 {
            let mut out = String::new();
            html::push_html(&mut out, Parser::new_ext(&text[..end], options));
            written += out.len();
        }
    }
    println!("{written}");
}
