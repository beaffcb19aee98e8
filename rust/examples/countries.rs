//! Which country an address belongs to, by a table of 100,000 blocks, as registries of addresses
//! publish them. The table is made here: its countries mean nothing.

use range_sets::RangeMap;
use std::error::Error;
use std::fmt;
use std::net::Ipv4Addr;

const BLOCKS: usize = 100_000;

/// Two letters.
#[derive(Clone, Copy, PartialEq, Eq)]
struct Country([u8; 2]);

impl fmt::Display for Country {
    fn fmt(&self, f: &mut fmt::Formatter<'_>) -> fmt::Result {
        write!(f, "{}{}", char::from(self.0[0]), char::from(self.0[1]))
    }
}

type Countries = RangeMap<Ipv4Addr, Country>;

/// The lines of a table: the first address of a block, how many it has, and its country.
fn table() -> Vec<String> {
    let mut random = 1u64;
    let mut below = |n: u64| {
        random ^= random << 13;
        random ^= random >> 7;
        random ^= random << 17;
        (random >> 16) % n
    };
    let mut first = u32::from(Ipv4Addr::new(1, 0, 0, 0));
    let mut country = *b"AA";
    (0..BLOCKS)
        .map(|_| {
            let count = 256 << below(9);
            // Half of the blocks go to the country of the one before, and some addresses to none.
            if below(2) == 0 {
                country = [b'A' + below(26) as u8, b'A' + below(26) as u8];
            }
            first += if below(4) == 0 {
                256 * below(64) as u32
            } else {
                0
            };
            let line = format!("{},{count},{}", Ipv4Addr::from(first), Country(country));
            first += count;
            line
        })
        .collect()
}

/// Reads a table. Blocks of one country that touch become one range.
fn read(lines: &[String]) -> Result<Countries, Box<dyn Error>> {
    let mut countries = Countries::new();
    for line in lines {
        let mut fields = line.split(',');
        let mut field = || fields.next().ok_or("a line has three fields");
        let first: Ipv4Addr = field()?.parse()?;
        let count: u32 = field()?.parse()?;
        let country = Country(field()?.as_bytes().try_into()?);
        let last = u32::from(first) + (count - 1);
        countries.insert(first..=last.into(), country);
    }
    Ok(countries)
}

fn main() -> Result<(), Box<dyn Error>> {
    let countries = read(&table())?;
    println!("{BLOCKS} blocks are {} ranges", countries.len());
    for address in ["8.8.8.8", "42.7.7.7", "77.12.0.9", "223.0.0.1"] {
        let address: Ipv4Addr = address.parse()?;
        match countries.get_key_value(&address) {
            Some((range, country)) => println!("{address} is in {country}, as all of {range:?}"),
            None => println!("{address} is in no country"),
        }
    }
    Ok(())
}
