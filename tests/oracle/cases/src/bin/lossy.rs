//! Answers of the program `cases` with every text put through `from_utf8_lossy`, as the Rust puts the texts of a descriptor. A text
//! is a word in hexadecimal, or `-`: the one behind each of these names, and the last two of an event's or a service's line.
use std::io::Read;

const TEXTS: [&str; 6] = ["url", "provider", "name", "text", "broadcaster_name", "network_name"];

fn lossy(word: &str) -> String {
    if word == "-" || word == "none" {
        return word.to_string();
    }
    let bytes: Vec<u8> = (0..word.len() / 2).map(|i| u8::from_str_radix(&word[2 * i..2 * i + 2], 16).unwrap()).collect();
    String::from_utf8_lossy(&bytes).bytes().map(|b| format!("{b:02x}")).collect()
}

fn main() {
    let mut input = String::new();
    std::io::stdin().read_to_string(&mut input).unwrap();
    for line in input.lines() {
        let words: Vec<&str> = line.split(' ').collect();
        let at_end = words.contains(&"free_ca") && words[words.len() - 1] != "none";
        let text = |i: usize| i > 0 && TEXTS.contains(&words[i - 1]) || at_end && i + 2 >= words.len();
        let said: Vec<String> =
            words.iter().enumerate().map(|(i, w)| if text(i) { lossy(w) } else { w.to_string() }).collect();
        println!("{}", said.join(" "));
    }
}
