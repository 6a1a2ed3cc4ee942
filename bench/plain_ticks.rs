// What the replay of ticks is compared with: it reads all of standard input, splits its lines into words, and
// checks each reading against the one before.
use std::io::Read;

fn main() {
    let mut text = String::new();
    std::io::stdin().read_to_string(&mut text).unwrap();
    let (mut last, mut time, mut good) = (0u64, 0u64, 0u64);
    for line in text.lines().skip(1) {
        let mut words = line.split(' ');
        match words.next() {
            Some("tick") => {
                let advance: u64 = words.next().unwrap().parse().unwrap();
                time += advance;
                for word in words {
                    let (_, reading) = word.split_once(':').unwrap();
                    let reading: u64 = reading.parse().unwrap();
                    assert!(reading >= last && 1000 * (reading - last) <= 1010 * advance + 1000);
                    last = reading;
                    good += 1;
                }
            }
            _ => {}
        }
    }
    println!("{good} {time}");
}
