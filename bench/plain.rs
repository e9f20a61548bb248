// The sales of sales.rt.in in plain Rust: the same requests, the same rule, the same words.
// Arguments: how many trains, how many people a trip is for at most, and how runs are measured: loops or ones.
use std::collections::BTreeMap;
use std::hint::black_box;
use std::time::Instant;

const SEATS: u16 = 400;
const STOPS: u8 = 30;
const REQUESTS: u32 = 3000;

// Numbers that look random, the same at each run.
struct Dice {
    x: u64,
}

impl Dice {
    fn below(&mut self, bound: u8) -> u8 {
        self.x = self
            .x
            .wrapping_mul(6364136223846793005)
            .wrapping_add(1442695040888963407);
        ((self.x >> 33) % u64::from(bound)) as u8
    }

    fn demand(&mut self, train: u32, most: u8) -> Demand {
        let from = self.below(29);
        let to = from + 1 + self.below(29 - from);
        let people = 1 + self.below(most);
        Demand { train, trip: Trip { from, to }, people }
    }
}

#[derive(Clone, Copy)]
struct Trip {
    from: u8,
    to: u8,
}

#[derive(Clone, Copy)]
struct Demand {
    train: u32,
    trip: Trip,
    people: u8,
}

#[allow(dead_code)]
#[derive(Clone, Copy)]
struct Party {
    train: u32,
    trip: Trip,
    seats: [u16; 8],
    count: u8,
}

impl Party {
    fn seats(&self) -> &[u16] {
        &self.seats[..usize::from(self.count)]
    }

    fn push(&mut self, seat: u16) {
        self.seats[usize::from(self.count)] = seat;
        self.count += 1;
    }
}

#[allow(dead_code)]
enum Record {
    Opened(u32),
    Sold(u32, Party),
}

// A seat's word: the bit k says that the stretch from the stop k to the next is held.

fn held(word: u64, stop: u8) -> bool {
    (word >> stop) & 1 == 1
}

fn mask(trip: Trip) -> u64 {
    (1 << trip.to) - (1 << trip.from)
}

fn covers(word: u64, trip: Trip) -> bool {
    word & mask(trip) == mask(trip)
}

// How many held stretches would be left beside the trip, by a loop to each side.
fn left_by_loops(word: u64, trip: Trip) -> u8 {
    let mut start = trip.from;
    while start > 0 && held(word, start - 1) {
        start -= 1;
    }
    let mut end = trip.to;
    while end < STOPS - 1 && held(word, end) {
        end += 1;
    }
    trip.from - start + (end - trip.to)
}

// The same by counting the ones at the ends of a shifted word.
fn left_by_ones(word: u64, trip: Trip) -> u8 {
    let before = (word << (63 - trip.from) << 1).leading_ones();
    let behind = (word >> trip.to).trailing_ones();
    (before + behind) as u8
}

// Of the seats that cover the trip and are not taken, the one that leaves least beside it, and of these the lowest.
fn choose<const ONES: bool>(words: &[u64], trip: Trip, taken: &[u16]) -> Option<u16> {
    let mut best = None;
    let mut least = u8::MAX;
    for (seat, &word) in words.iter().enumerate() {
        if !covers(word, trip) {
            continue;
        }
        let left = if ONES {
            left_by_ones(word, trip)
        } else {
            left_by_loops(word, trip)
        };
        if left < least && !taken.contains(&(seat as u16)) {
            best = Some(seat as u16);
            least = left;
            if left == 0 {
                break;
            }
        }
    }
    best
}

// The trains by their numbers, a word for each seat; the tickets; and the journal.
struct Office {
    trains: BTreeMap<u32, Vec<u64>>,
    tickets: Vec<Party>,
    journal: Vec<Record>,
}

impl Office {
    fn open(&mut self, train: u32) {
        let word = (1 << (STOPS - 1)) - 1;
        self.journal.push(Record::Opened(train));
        self.trains.insert(train, vec![word; usize::from(SEATS)]);
    }

    // Sells a trip to so many people, or to none of them.
    fn sell<const ONES: bool>(&mut self, demand: Demand) -> Option<(u32, Party)> {
        let trip = demand.trip;
        if trip.from >= trip.to || trip.to >= STOPS || demand.people < 1 || demand.people > 8 {
            return None;
        }
        let words = self.trains.get_mut(&demand.train)?;
        let mut party = Party { train: demand.train, trip, seats: [0; 8], count: 0 };
        for _ in 0..demand.people {
            let seat = choose::<ONES>(words, trip, party.seats())?;
            party.push(seat);
        }
        let ticket = self.tickets.len() as u32 + 1;
        self.journal.push(Record::Sold(ticket, party));
        self.tickets.push(party);
        for &seat in party.seats() {
            words[usize::from(seat)] &= !mask(trip);
        }
        Some((ticket, party))
    }
}

struct Tally {
    sold: u64,
    refused: u64,
    sum: u64,
}

impl Tally {
    fn add(&mut self, n: u32) {
        self.sum = self.sum.wrapping_mul(31).wrapping_add(u64::from(n));
    }

    fn note(&mut self, sold: Option<(u32, Party)>) {
        match sold {
            Some((ticket, party)) => {
                self.sold += 1;
                self.add(ticket);
                for &seat in party.seats() {
                    self.add(u32::from(seat));
                }
            }
            None => self.refused += 1,
        }
    }
}

// Sells a train at an office of its own.
fn sell_out<const ONES: bool>(dice: &mut Dice, tally: &mut Tally, train: u32, most: u8) {
    let mut office = Office { trains: BTreeMap::new(), tickets: Vec::new(), journal: Vec::new() };
    office.open(train);
    for _ in 0..REQUESTS {
        tally.note(office.sell::<ONES>(dice.demand(train, most)));
    }
    black_box(&office);
}

fn main() {
    let args: Vec<String> = std::env::args().collect();
    let trains: u32 = args[1].parse().expect("how many trains?");
    let most: u8 = args[2].parse().expect("how many people at most?");
    let ones = match args[3].as_str() {
        "ones" => true,
        "loops" => false,
        _ => panic!("loops or ones?"),
    };
    let mut dice = Dice { x: 1 };
    let mut tally = Tally { sold: 0, refused: 0, sum: 0 };
    let start = Instant::now();
    for train in 0..trains {
        if ones {
            sell_out::<true>(&mut dice, &mut tally, train, most);
        } else {
            sell_out::<false>(&mut dice, &mut tally, train, most);
        }
    }
    let time = start.elapsed();
    println!("sold {} refused {} sum {}", tally.sold, tally.refused, tally.sum);
    eprintln!("{}", time.as_micros());
}
