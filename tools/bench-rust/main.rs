// The merges that `bench run` measures, by a plain union-find over owned vectors, for comparison. Build and run by hand:
//
//     rustc -O -o /tmp/bench-rust tools/bench-rust/main.rs && /tmp/bench-rust
use std::collections::VecDeque;
use std::hint::black_box;
use std::mem;
use std::time::Instant;

const ROUNDS: u32 = 200;

// A place: the code of its kind, a bit for each kind that nothing is below, and its slots by rising name.
#[derive(Clone, Debug, PartialEq)]
struct Place {
    kind: u8,
    slots: Vec<(u64, usize)>,
}

type Sheet = Vec<Place>;

const THING: u8 = 0xFF;

fn end(parent: &mut [usize], mut x: usize) -> usize {
    while parent[x] != x {
        parent[x] = parent[parent[x]];
        x = parent[x];
    }
    x
}

// The slots of two joined places, one for each name; where both have a name, the two targets are to be joined.
fn united(
    a: Vec<(u64, usize)>,
    b: Vec<(u64, usize)>,
    todo: &mut Vec<(usize, usize)>,
) -> Vec<(u64, usize)> {
    let mut all = Vec::with_capacity(a.len() + b.len());
    let (mut i, mut j) = (0, 0);
    while i < a.len() || j < b.len() {
        if j == b.len() || i < a.len() && a[i].0 < b[j].0 {
            all.push(a[i]);
            i += 1;
        } else if i == a.len() || b[j].0 < a[i].0 {
            all.push(b[j]);
            j += 1;
        } else {
            todo.push((a[i].1, b[j].1));
            all.push(a[i]);
            i += 1;
            j += 1;
        }
    }
    all
}

// The merge of two sheets, or none where they clash.
fn merge(first: &Sheet, second: &Sheet) -> Option<Sheet> {
    let shift = first.len();
    let mut all = first.clone();
    for place in second {
        let slots = place.slots.iter().map(|&(n, t)| (n, t + shift)).collect();
        all.push(Place { kind: place.kind, slots });
    }
    let mut parent: Vec<usize> = (0..all.len()).collect();
    let mut todo = vec![(0, shift)];
    while let Some((x, y)) = todo.pop() {
        let (x, y) = (end(&mut parent, x), end(&mut parent, y));
        if x == y {
            continue;
        }
        let (x, y) = (x.min(y), x.max(y));
        parent[y] = x;
        all[x].kind &= all[y].kind;
        if all[x].kind == 0 {
            return None;
        }
        let a = mem::take(&mut all[x].slots);
        let b = mem::take(&mut all[y].slots);
        all[x].slots = united(a, b, &mut todo);
    }
    Some(numbered(all, &mut parent))
}

// The classes in the order in which the slots in turn lead to them.
fn numbered(mut all: Sheet, parent: &mut [usize]) -> Sheet {
    let mut number = vec![usize::MAX; all.len()];
    let mut next = VecDeque::from([0]);
    number[0] = 0;
    let mut count = 1;
    let mut made = Vec::new();
    while let Some(p) = next.pop_front() {
        let mut slots = mem::take(&mut all[p].slots);
        for slot in &mut slots {
            let target = end(parent, slot.1);
            if number[target] == usize::MAX {
                number[target] = count;
                count += 1;
                next.push_back(target);
            }
            slot.1 = number[target];
        }
        made.push(Place { kind: all[p].kind, slots });
    }
    made
}

fn sheet_of(places: Vec<Vec<(u64, usize)>>) -> Sheet {
    places.into_iter().map(|slots| Place { kind: THING, slots }).collect()
}

fn tree(n: usize) -> Sheet {
    let within = |p| if p < n { p } else { 0 };
    sheet_of((0..n).map(|p| vec![(1, within(2 * p + 1)), (2, within(2 * p + 2)), (3, p)]).collect())
}

fn chain(n: usize) -> Sheet {
    sheet_of((1..=n).map(|p| if p < n { vec![(1, p)] } else { vec![] }).collect())
}

fn chain_back(n: usize) -> Sheet {
    let slots = |p: usize| {
        let mut slots = Vec::new();
        if p + 1 < n {
            slots.push((1, p + 1));
        }
        if p > 0 {
            slots.push((2, p - 1));
        }
        slots
    };
    sheet_of((0..n).map(slots).collect())
}

fn chain_to_ring(n: usize) -> Sheet {
    let mut sheet = chain(n);
    sheet[n - 1].slots.push((2, n - 1));
    sheet
}

fn measure(title: &str, first: &Sheet, second: &Sheet) {
    let mut best = u128::MAX;
    let mut merged = 0;
    for _ in 0..ROUNDS {
        let start = Instant::now();
        let made = black_box(merge(black_box(first), black_box(second)));
        let took = start.elapsed().as_nanos();
        best = best.min(took);
        merged = made.map_or(0, |sheet| sheet.len());
    }
    println!("{title:<28}{:>8} microseconds; places merged: {merged}", best / 1000);
}

fn main() {
    let ring = sheet_of(vec![vec![(1, 0)]]);
    measure("two trees of 500 places", &tree(500), &tree(500));
    measure("two chains of 500 places", &chain(500), &chain(500));
    measure("a ring and 999 places", &ring, &chain(999));
    measure("a fold from the end", &chain_back(500), &chain_to_ring(500));
}
