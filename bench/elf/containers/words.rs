//! Counts words and sells things, for bench/elf/containers.py, which stops it anywhere in its own functions.

use std::collections::{BTreeMap, BTreeSet, HashMap, HashSet};
use std::rc::Rc;
use std::sync::Arc;

const TEXT: &str = "the quick brown fox jumps over the lazy dog and the extraordinarily long-winded narrator";

struct Item {
    price: u32,
    name: String,
    note: Option<String>,
}

#[inline(never)]
fn split(text: &str) -> Vec<String> {
    let mut words = Vec::new();
    let mut word = String::new();
    for letter in text.bytes() {
        if letter == b' ' {
            words.push(word.clone());
            word.clear();
        } else {
            word.push(letter as char);
        }
    }
    words.push(word);
    words
}

#[inline(never)]
fn tally(words: &[String]) -> HashMap<String, i32> {
    let mut counts: HashMap<String, i32> = HashMap::new();
    let mut seen: HashSet<u64> = HashSet::new();
    let mut places: HashMap<u8, Vec<usize>> = HashMap::new();
    for (place, word) in words.iter().enumerate() {
        *counts.entry(word.clone()).or_insert(0) += 1;
        seen.insert(word.len() as u64);
        places.entry(word.len() as u8).or_insert_with(Vec::new).push(place);
    }
    let mut sorted: BTreeMap<String, usize> = BTreeMap::new();
    let mut lengths: BTreeSet<u64> = BTreeSet::new();
    for (place, word) in words.iter().enumerate() {
        sorted.insert(word.clone(), place);
        lengths.insert(word.len() as u64 * 7 % 5);
    }
    for number in 0..40 {
        sorted.insert(format!("number {}", number), number);
    }
    sorted.remove("the");
    counts.insert("sorted".to_string(), (sorted.len() + lengths.len()) as i32);
    let half: &[String] = &words[..words.len() / 2];
    let boxed: Box<[u16]> = half.iter().map(|word| word.len() as u16).collect();
    counts.insert("boxes".to_string(), boxed.len() as i32);
    counts
}

#[inline(never)]
fn make(price: u32) -> Box<Item> {
    let name = "x".repeat(price as usize);
    let note: Option<String> = if price > 5 { Some("expensive".to_string()) } else { None };
    let mut item = Box::new(Item { price, name, note });
    item.price += 1;
    item
}

#[inline(never)]
fn sell(stock: &mut Vec<Rc<Item>>) -> Option<Arc<String>> {
    let mut best: Option<Rc<Item>> = None;
    let mut sold: Vec<Option<u32>> = Vec::new();
    for item in stock.iter() {
        let own = Rc::clone(item);
        if best.as_ref().map_or(true, |best| best.price < own.price) {
            best = Some(own);
        }
        sold.push(best.as_ref().map(|best| best.price));
    }
    let name = Arc::new(best.map(|best| best.name.clone() + best.note.as_deref().unwrap_or(""))?);
    let other = Arc::clone(&name);
    drop(name);
    Some(other)
}

#[inline(never)]
fn run() -> usize {
    let words = split(TEXT);
    let counts = tally(&words);
    let mut stock: Vec<Rc<Item>> = Vec::new();
    for price in (1..20).step_by(3) {
        let item = make(price);
        stock.push(Rc::new(*item));
    }
    let sold = sell(&mut stock);
    counts.len() + sold.map_or(0, |sold| sold.len())
}

fn main() {
    std::process::exit((run() == 0) as i32)
}
