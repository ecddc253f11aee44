//! The requests' own road: a request comes back from its bytes, and a buffer
//! changes only where a call wrote its answer.

use crate::dimacs::record_bytes;
use crate::generate::requests::Subject;
use crate::protocol::{self, line, Request, BEFORE};
use crate::random::Random;

pub fn check(random: &mut Random) {
    let requests = Subject::draw(random).requests(3, random);
    let mut stream = protocol::stream(&requests);
    assert_eq!(protocol::requests(&stream), (requests.clone(), true));
    requests.iter().for_each(check_buffer);
    stream.pop();
    assert_eq!(protocol::requests(&stream), (requests[..2].to_vec(), false));
}

/// The places of the buffer that still hold what was there before the call.
fn check_buffer(request: &Request) {
    let line = line(request);
    let Some((answer, places)) = line.split_once(" :") else {
        assert!(request.call <= protocol::JUDGE, "{line}");
        return;
    };
    let before = BEFORE.to_string();
    let places: Vec<&str> = places.split_whitespace().collect();
    assert_eq!(places.len(), usize::from(request.room), "{line}");
    let words: Vec<&str> = answer.split(' ').collect();
    let written = match words[0] {
        "closed" | "plan" => places.len(),
        "holds" | "fails" => words[1].parse().expect("a count"),
        "written" => words[3].parse().expect("a count"),
        "printed" => words[1].parse().expect("a count"),
        "rules" => {
            let count = |word: &str| word.parse().expect("a count");
            record_bytes(count(words[1]), count(words[2]))
        }
        _ => 0,
    };
    assert!(
        places[written..].iter().all(|&place| place == before),
        "{line}"
    );
    let values = ["-1", "0", "1"];
    let is_value = |place: &&str| values.contains(place);
    assert!(
        words[0] != "closed" || places.iter().all(is_value),
        "{line}"
    );
    assert!(
        words[0] != "plan" || places.iter().all(|p| is_value(p) && *p != "0"),
        "{line}"
    );
}
