//! All ways to number the inner vertices of a section, and all maps from the vertices of one section to those of another, one after another: how many of
//! them take the one section to the other.

use super::common::sections::Section;

/// More ways than this are not tried.
const MOST: usize = 5_000;

/// One list for each depth, taken from those that the depth has.
fn choices(lists: &[Vec<Vec<u16>>]) -> impl Iterator<Item = Vec<Vec<u16>>> {
    let count: usize = lists.iter().map(Vec::len).product();
    (0..count).map(|mut index| {
        let mut choose = |options: &Vec<Vec<u16>>| {
            let chosen = options[index % options.len()].clone();
            index /= options.len();
            chosen
        };
        lists.iter().map(&mut choose).collect()
    })
}

/// Whether a product is small enough.
fn few(factors: impl Iterator<Item = usize>) -> bool {
    let product = |so_far: usize, factor: usize| so_far.checked_mul(factor).filter(|&count| count <= MOST);
    factors.into_iter().try_fold(1, product).is_some()
}

/// All orders of the numbers below `count`.
fn orders(count: u16) -> Vec<Vec<u16>> {
    let with = |order: &Vec<u16>, place: usize, v: u16| [&order[..place], &[v], &order[place..]].concat();
    (0..count).fold(vec![Vec::new()], |shorter, v| {
        let longer = shorter
            .iter()
            .flat_map(|order| (0..=order.len()).map(move |place| with(order, place, v)));
        longer.collect()
    })
}

/// All maps from `count` numbers to the numbers below `targets`.
fn maps(count: u16, targets: u16) -> Vec<Vec<u16>> {
    let image = |index: usize, v: u16| (index / (targets as usize).pow(v as u32) % targets as usize) as u16;
    let all = 0..(targets as usize).pow(count as u32);
    all.map(|index| (0..count).map(|v| image(index, v)).collect()).collect()
}

/// How many ways were tried, and how many of them fit.
#[derive(Clone, Copy, PartialEq, Debug)]
pub struct Tried {
    pub ways: usize,
    pub fit: usize,
}

/// How many numberings of the inner vertices make the one section the other, number for number; none if they are too many to try.
pub fn renumberings(a: &Section, b: &Section) -> Option<Tried> {
    if !few(a.inner().iter().flat_map(|&count| 1..=count as usize)) {
        return None;
    }
    let lists: Vec<Vec<Vec<u16>>> = a.inner().iter().map(|&count| orders(count)).collect();
    let wanted = b.numbers();
    let mut tried = Tried { ways: 0, fit: 0 };
    for orders in choices(&lists) {
        tried.ways += 1;
        tried.fit += (a.numbered(&orders).numbers() == wanted) as usize;
    }
    Some(tried)
}

/// Whether a map keeps end states and symbols and carries each edge to an edge. A list for each depth says where its vertices go.
fn carries(a: &Section, b: &Section, map: &[Vec<u16>]) -> bool {
    let keeps = |from: &[u16], to: &[u16], places: &[u16]| {
        let images = places.iter().map(|&place| to[place as usize]);
        images.eq(from.iter().copied())
    };
    let onto_edges = |t: usize| {
        let image = |e: &(u16, u16, u16)| (map[t][e.0 as usize], e.1, map[t + 1][e.2 as usize]);
        a.steps[t].iter().all(|e| b.steps[t].binary_search(&image(e)).is_ok())
    };
    let n = a.steps.len();
    keeps(&a.roots, &b.roots, &map[0]) && keeps(&a.goals, &b.goals, &map[n]) && (0..n).all(onto_edges)
}

/// Whether a map has each vertex of the other section for just one.
fn is_one_to_one(b: &Section, map: &[Vec<u16>]) -> bool {
    map.iter().zip(&b.vertices).all(|(images, &count)| {
        let mut sorted = images.clone();
        sorted.sort();
        sorted.into_iter().eq(0..count)
    })
}

/// The map back.
fn inverse(map: &[Vec<u16>]) -> Vec<Vec<u16>> {
    let back = |images: &Vec<u16>| {
        let mut vertices: Vec<u16> = (0..images.len() as u16).collect();
        vertices.sort_by_key(|&v| images[v as usize]);
        vertices
    };
    map.iter().map(back).collect()
}

/// Of all maps from the vertices of one section to those of another with as many depths, those that carry edges to edges, and those that match: one to one,
/// and the map back carries edges to edges too. None if there are too many to try.
pub fn matchings(a: &Section, b: &Section) -> Option<(Tried, usize)> {
    let counts = || a.vertices.iter().zip(&b.vertices);
    if !few(counts().flat_map(|(&count, &targets)| (0..count).map(move |_| targets as usize))) {
        return None;
    }
    let lists: Vec<Vec<Vec<u16>>> = counts().map(|(&count, &targets)| maps(count, targets)).collect();
    let (mut tried, mut matching) = (Tried { ways: 0, fit: 0 }, 0);
    for map in choices(&lists) {
        tried.ways += 1;
        if carries(a, b, &map) {
            tried.fit += 1;
            matching += (is_one_to_one(b, &map) && carries(b, a, &inverse(&map))) as usize;
        }
    }
    Some((tried, matching))
}
