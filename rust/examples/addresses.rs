//! Addresses of a network that are free: blocks are put in and taken out, and they are text, in
//! ranges and in blocks.

use range_sets::{NextValue, RangeSet2};
use std::error::Error;
use std::net::Ipv4Addr;
use std::ops::RangeInclusive;

type Addresses = RangeSet2<Ipv4Addr>;

/// The addresses of a block as `10.0.0.0/8`.
fn block(text: &str) -> Result<RangeInclusive<Ipv4Addr>, Box<dyn Error>> {
    let (first, bits) = text.split_once('/').ok_or("a block has a slash")?;
    let first = u32::from(first.parse::<Ipv4Addr>()?);
    let others = u32::MAX.checked_shr(bits.parse()?).unwrap_or(0);
    if first & others != 0 {
        return Err("a block begins at a multiple of its size".into());
    }
    Ok(first.into()..=(first | others).into())
}

/// The set of a text as `10.0.0.0..10.1.0.0, 224.0.0.0..`.
fn read(text: &str) -> Result<Addresses, Box<dyn Error>> {
    let mut set = Addresses::empty();
    for range in text.split(", ") {
        match range.split_once("..").ok_or("a range has two dots")? {
            (start, "") => set.insert(start.parse()?..),
            (start, end) => set.insert(start.parse()?..end.parse()?),
        }
    }
    Ok(set)
}

/// The text that `read` reads.
fn text(set: &Addresses) -> String {
    let ranges: Vec<String> = set.iter().map(|range| format!("{range:?}")).collect();
    ranges.join(", ")
}

/// The fewest blocks that have exactly these addresses.
fn blocks(set: &Addresses) -> String {
    let number = |address: &Ipv4Addr| u64::from(u32::from(*address));
    let mut found = Vec::new();
    for range in set {
        let mut start = number(range.start());
        let end = range.end().map_or(1 << 32, |end| number(end));
        while start < end {
            // The largest block that begins there and has no more addresses than are left.
            let most = 63 - (end - start).leading_zeros();
            let bits = (start | 1 << 32).trailing_zeros().min(most);
            found.push(format!("{}/{}", Ipv4Addr::from(start as u32), 32 - bits));
            start += 1 << bits;
        }
    }
    found.join(" ")
}

/// How many addresses there are: those below the greatest, and that one.
fn count(set: &Addresses) -> u128 {
    let last = Ipv4Addr::BROADCAST;
    set.rank(&last) + u128::from(set.contains(&last))
}

fn main() -> Result<(), Box<dyn Error>> {
    let mut free = Addresses::from(block("10.0.0.0/22")?);
    let all = count(&free);
    free.remove(block("10.0.1.0/24")?);
    let left = count(&free);
    println!("{left} of {all} are free: {}", text(&free));
    assert_eq!(read(&text(&free))?, free);
    assert_eq!(count(&!&free), (1 << 32) - left);
    let taken = **free.first().ok_or("nothing is free")?.start();
    free.remove(taken..=taken);
    assert_eq!(taken.next_value().as_ref(), free.next_member(&taken));
    let within = taken..Ipv4Addr::new(10, 0, 4, 0);
    let half = (!&free).first_fit_aligned(within, 128, 128).ok_or("full")?;
    let left = blocks(&free);
    println!("{taken} is taken, {half}/25 is free\nleft in blocks: {left}");
    Ok(())
}
