//! Elections by chance. What is cited as Szufa et al. is Szufa, Faliszewski, Janeczko, Lackner, Slinko, Sornat and
//! Talmon, How to Sample Approval Elections?, IJCAI 2022.
use crate::random::Random;
use std::f64::consts::TAU;
use std::iter;

/// The candidates that each voter approves, in ascending order.
pub type Ballots = Vec<Vec<u64>>;

/// Draws the ballots of an election from the numbers of candidates and voters.
pub type Model = fn(u64, u64, &mut Random) -> Ballots;

/// All models, by their names.
const MODELS: [(&str, Model); 22] = [
    ("independent", independent),
    ("resampled", resampled),
    ("popular", popular),
    ("parties", |candidates, voters, random| parties(5, candidates, voters, random)),
    ("ten_parties", |candidates, voters, random| parties(10, candidates, voters, random)),
    ("line", |candidates, voters, random| within::<1>(50, candidates, voters, random)),
    ("square", square),
    ("cube", |candidates, voters, random| within::<3>(350, candidates, voters, random)),
    ("noise", noise),
    ("mallows", mallows),
    ("party", party),
    ("unapproved", unapproved),
    ("jury", jury),
    ("slates", slates),
    ("lists", |candidates, voters, random| lists(&[40, 25, 15, 10, 6, 4], [90, 2], candidates, voters, random)),
    ("three_lists", |candidates, voters, random| lists(&[40, 35, 25], [85, 5], candidates, voters, random)),
    ("known", |candidates, voters, random| known(&[35, 25, 20, 12, 8], candidates, voters, random)),
    ("three_known", |candidates, voters, random| known(&[40, 35, 25], candidates, voters, random)),
    ("circle", circle),
    ("outliers", outliers),
    ("radii", radii),
    ("hierarchy", hierarchy),
];

/// The model with this name.
pub fn named(name: &str) -> Option<Model> {
    MODELS.iter().find(|(known, _)| *known == name).map(|&(_, model)| model)
}

/// Ballots of voters who decide on each candidate separately, and all by the same chances.
fn by_chance(
    candidates: u64,
    voters: u64,
    random: &mut Random,
    approves: impl Fn(u64, &mut Random) -> bool,
) -> Ballots {
    (0..voters).map(|_| (1..=candidates).filter(|&n| approves(n, random)).collect()).collect()
}

/// p-IC of Szufa et al.: each voter approves each candidate with chance p = 1/5.
fn independent(candidates: u64, voters: u64, random: &mut Random) -> Ballots {
    by_chance(candidates, voters, random, |_, random| random.below(5) == 0)
}

/// (p, phi)-resampling of Szufa et al.: a voter follows the central ballot, which approves a share p = 1/5; with chance
/// phi = 1/2 the voter decides on a candidate anew, and approves it with chance p.
fn resampled(candidates: u64, voters: u64, random: &mut Random) -> Ballots {
    let some = candidates.div_ceil(5);
    let approves = |n, random: &mut Random| if random.below(2) == 0 { n <= some } else { random.below(5) == 0 };
    by_chance(candidates, voters, random, approves)
}

/// The chance of being approved falls evenly from 2/5 for the first candidate to 0 for the last.
fn popular(candidates: u64, voters: u64, random: &mut Random) -> Ballots {
    by_chance(candidates, voters, random, |n, random| random.below(5 * candidates) < 2 * (candidates - n) + 1)
}

/// (p, phi, g)-disjoint of Szufa et al.: the candidates fall into g parties at random. Each voter draws one of them and
/// approves it; with chance phi = 3/10 the voter decides on a candidate anew, and approves it with chance p = 1/10.
/// `parties` has g = 5, `ten_parties` has g = 10.
fn parties(g: u64, candidates: u64, voters: u64, random: &mut Random) -> Ballots {
    let parties: Vec<u64> = (0..candidates).map(|_| random.below(g)).collect();
    let ballot = |_| {
        let own = random.below(g);
        let mut approves = |party| if random.below(10) < 3 { random.below(10) == 0 } else { party == own };
        (1..).zip(&parties).filter(|&(_, &party)| approves(party)).map(|(n, _)| n).collect()
    };
    (0..voters).map(ballot).collect()
}

/// t-Euclidean of Szufa et al.: candidates and voters are points of a cube of dimension t with sides of 1,000. A voter
/// approves all candidates within the radius. `line` has t = 1 and radius 50, `cube` has t = 3 and radius 350.
fn within<const T: usize>(radius: i64, candidates: u64, voters: u64, random: &mut Random) -> Ballots {
    let places: Vec<[i64; T]> = (0..candidates).map(|_| random.point()).collect();
    (0..voters).map(|_| near(&places, random.point(), radius)).collect()
}

/// Points of a square, as for `within`. A voter approves the nearest fifth of the candidates.
fn square(candidates: u64, voters: u64, random: &mut Random) -> Ballots {
    let places: Vec<[i64; 2]> = (0..candidates).map(|_| random.point()).collect();
    let ballot = |_| {
        let voter = random.point();
        let mut near: Vec<u64> = (1..=candidates).collect();
        near.sort_by_key(|&n| distance(places[n as usize - 1], voter));
        first_fifth(near)
    };
    (0..voters).map(ballot).collect()
}

/// (p, phi)-noise of Szufa et al. with the Hamming distance: the chance of a ballot is proportional to phi = 3/10 to
/// the power of its distance from the central ballot, which approves a share p = 1/5. So each voter departs from the
/// central ballot on each candidate with chance phi / (1 + phi) = 3/13.
fn noise(candidates: u64, voters: u64, random: &mut Random) -> Ballots {
    let some = candidates.div_ceil(5);
    by_chance(candidates, voters, random, |n, random| (n <= some) != (random.below(13) < 3))
}

/// Mallows, Non-null ranking models, 1957: each voter draws one of four groups, each with a central ranking. The chance
/// of the voter's ranking is proportional to phi = 19/20 to the power of the number of pairs that it orders otherwise
/// (repeated insertion). The voter approves the first 3 to 12 of the ranking.
fn mallows(candidates: u64, voters: u64, random: &mut Random) -> Ballots {
    let centres: Vec<Vec<u64>> = (0..4).map(|_| random.shuffled(candidates)).collect();
    let ballot = |_| {
        let mut ranking = Vec::new();
        for &n in &centres[random.below(4) as usize] {
            // A geometric number, modulo the number of places.
            let back = iter::repeat_with(|| random.below(20)).take_while(|&draw| draw > 0).count();
            ranking.insert(ranking.len() - back % (ranking.len() + 1), n);
        }
        ranking.truncate(3 + random.below(10) as usize);
        ranking.sort();
        ranking
    };
    (0..voters).map(ballot).collect()
}

/// A party of 12 clones: 60 of the voters (at most half) approve exactly these. The other voters approve each other
/// candidate with chance 1/5.
fn party(candidates: u64, voters: u64, random: &mut Random) -> Ballots {
    let own = (voters / 2).min(60);
    let ballot = |voter| {
        let mut approves = |n| if voter < own { n <= 12 } else { n > 12 && random.below(5) == 0 };
        (1..=candidates).filter(|&n| approves(n)).collect()
    };
    (0..voters).map(ballot).collect()
}

/// Nobody approves candidates with even numbers. Each voter approves each other candidate with chance 1/5.
fn unapproved(candidates: u64, voters: u64, random: &mut Random) -> Ballots {
    by_chance(candidates, voters, random, |n, random| n % 2 == 1 && random.below(5) == 0)
}

/// p-IC of Szufa et al. with p = 1/2, meant for few voters.
fn jury(candidates: u64, voters: u64, random: &mut Random) -> Ballots {
    by_chance(candidates, voters, random, |_, random| random.below(2) == 0)
}

/// Slates on one list, whose voters cross over. Slates have 20, 16, 12 and 8 of each 64 candidates and attract 35, 30,
/// 20 and 10 of 95 voters; the other candidates are independent. 35 % of the voters tick exactly their slate. Each
/// other voter approves 55 to 95 % of the slate and 5 to 25 % of the rest, more for well-known persons. A voter who
/// likes more than 20 candidates ticks 20 of them.
fn slates(candidates: u64, voters: u64, random: &mut Random) -> Ballots {
    let slate_of = |n: u64| [20, 36, 48, 56].iter().position(|&end| (n - 1) * 64 < end * candidates);
    // Few are well known: the lowest of six even draws.
    let lowest_of_six = |random: &mut Random| (0..6).map(|_| random.below(101)).min().unwrap_or(0);
    let fame: Vec<u64> = (0..candidates).map(|_| lowest_of_six(random)).collect();
    let ballot = |_| {
        let own = random.weighted(&[35, 30, 20, 10]);
        let is_loyal = random.happens(35);
        let mut approves = |n: u64| match (slate_of(n) == Some(own), is_loyal) {
            (is_own, true) => is_own,
            (true, false) => random.happens(55 + fame[n as usize - 1] * 2 / 5),
            (false, false) => random.happens(5 + fame[n as usize - 1] / 5),
        };
        let liked: Vec<u64> = (1..=candidates).filter(|&n| approves(n)).collect();
        some_of(liked, 20, random)
    };
    (0..voters).map(ballot).collect()
}

/// Parties of unequal size, with noise: candidates and voters draw a party by these weights. A voter approves each
/// candidate of the own party with the first chance, and each other one with the second (in percent). `lists` has six
/// parties, `three_lists` has three and more noise.
fn lists(weights: &[u64], [own, other]: [u64; 2], candidates: u64, voters: u64, random: &mut Random) -> Ballots {
    let parties: Vec<usize> = (0..candidates).map(|_| random.weighted(weights)).collect();
    let ballot = |_| {
        let party = random.weighted(weights);
        let mut approves = |n: u64| random.happens(if parties[n as usize - 1] == party { own } else { other });
        (1..=candidates).filter(|&n| approves(n)).collect()
    };
    (0..voters).map(ballot).collect()
}

/// Parties of unequal size whose candidates differ: each candidate has a chance between 30 and 95 % with the voters of
/// the own party, and one of at most 12 % with all others; for one candidate in ten the latter is three times as high.
/// `known` has five parties, `three_known` has three.
fn known(weights: &[u64], candidates: u64, voters: u64, random: &mut Random) -> Ballots {
    let candidate = |_| {
        let (own, other) = (30 + random.below(66), random.below(13));
        let times = if random.happens(10) { 3 } else { 1 };
        (random.weighted(weights), own, other * times)
    };
    let all: Vec<(usize, u64, u64)> = (0..candidates).map(candidate).collect();
    let ballot = |_| {
        let party = random.weighted(weights);
        let mut approves = |&(of, own, other): &_| random.happens(if of == party { own } else { other });
        (1..).zip(&all).filter(|(_, candidate)| approves(candidate)).map(|(n, _)| n).collect()
    };
    (0..voters).map(ballot).collect()
}

/// The candidates stand evenly on a circle, and the voters anywhere in the square around it. Each voter has a radius of
/// half to all of the circle's.
fn circle(candidates: u64, voters: u64, random: &mut Random) -> Ballots {
    let place = |n| {
        let (sine, cosine) = (TAU * n as f64 / candidates as f64).sin_cos();
        [cosine, sine].map(|side| 500 + (500.0 * side) as i64)
    };
    let places: Vec<[i64; 2]> = (0..candidates).map(place).collect();
    (0..voters).map(|_| near(&places, random.point(), 250 + random.below(251) as i64)).collect()
}

/// A crowd in the middle of a square, and outliers: each side of a candidate's place is near the middle with chance
/// 4/5, and otherwise close to an edge. Voters stand round the middle, each with a radius of 100 to 350.
fn outliers(candidates: u64, voters: u64, random: &mut Random) -> Ballots {
    let side = |random: &mut Random| match random.below(10) {
        0 => random.normal(0, 30),
        1 => random.normal(1000, 30),
        _ => random.normal(500, 150),
    };
    let places: Vec<[i64; 2]> = (0..candidates).map(|_| [side(random), side(random)]).collect();
    let ballot = |_| {
        let voter = [random.normal(500, 200), random.normal(500, 200)];
        near(&places, voter, 100 + random.below(251) as i64)
    };
    (0..voters).map(ballot).collect()
}

/// Points of a cube, as for `within`. Each voter has a radius of 150 to 450.
fn radii(candidates: u64, voters: u64, random: &mut Random) -> Ballots {
    let places: Vec<[i64; 3]> = (0..candidates).map(|_| random.point()).collect();
    (0..voters).map(|_| near(&places, random.point(), 150 + random.below(301) as i64)).collect()
}

/// Two wings, each of three parties, each of three factions. A voter approves each candidate of the own faction with
/// chance 90 %, others of the own party with 40 %, others of the own wing with 8 %, and those of the other wing with
/// 1 %. Six of eleven voters are of the first wing; parties attract 5, 3 and 2 of ten voters.
fn hierarchy(candidates: u64, voters: u64, random: &mut Random) -> Ballots {
    let candidate = |_| [random.below(2), random.below(3), random.below(3)].map(|n| n as usize);
    let all: Vec<[usize; 3]> = (0..candidates).map(candidate).collect();
    let ballot = |_| {
        let own = [random.weighted(&[6, 5]), random.weighted(&[5, 3, 2]), random.weighted(&[1, 1, 1])];
        let mut approves = |other: &[usize; 3]| {
            let levels = own.iter().zip(other).take_while(|(a, b)| a == b).count();
            random.happens([1, 8, 40, 90][levels])
        };
        (1..).zip(&all).filter(|(_, other)| approves(other)).map(|(n, _)| n).collect()
    };
    (0..voters).map(ballot).collect()
}

/// The ballot of a voter who approves all candidates within the radius.
fn near<const T: usize>(places: &[[i64; T]], voter: [i64; T], radius: i64) -> Vec<u64> {
    let is_near = |place| distance(place, voter) <= radius.pow(2);
    (1..).zip(places).filter(|&(_, &place)| is_near(place)).map(|(n, _)| n).collect()
}

/// The square of the distance between two points.
fn distance<const T: usize>(a: [i64; T], b: [i64; T]) -> i64 {
    a.iter().zip(b).map(|(a, b)| (a - b).pow(2)).sum()
}

/// The ballot that approves the first fifth of a ranking.
fn first_fifth(mut ranking: Vec<u64>) -> Vec<u64> {
    ranking.truncate(ranking.len().div_ceil(5));
    ranking.sort();
    ranking
}

/// At most so many of these candidates, by chance.
fn some_of(mut liked: Vec<u64>, most: usize, random: &mut Random) -> Vec<u64> {
    while liked.len() > most {
        liked.remove(random.below(liked.len() as u64) as usize);
    }
    liked
}

#[cfg(test)]
mod tests {
    use super::*;

    #[test]
    fn each_seed_draws_an_election_of_its_own() {
        for (name, model) in MODELS {
            let drawn = |seed| model(20, 30, &mut Random::new(&[20, 30, seed]));
            assert_eq!(drawn(0), drawn(0), "{name}, the same seed");
            for seed in 1..20 {
                assert_ne!(drawn(0), drawn(seed), "{name}, seed {seed}");
            }
        }
    }
}
