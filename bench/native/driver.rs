//! Runs the search for sheets on orders, each a file of numbers: the kerf, how many sizes and how many wants; of each size its
//! width, height, cost and limit (-1: none); of each want its width, height, whether it may turn (1 or 0), and its count. A line
//! for each has its cost and bound, calls, and milliseconds of the processor: in all, the longest call, up to the best plan.

use cut_classes::{ceilings, grid_of};
use cut_measure::{Kind, Size};
use cut_search::search::Search;
use cut_search_bars::found::{Found, FoundUnit};
use cut_search_bars::stock::SearchSize;
use cut_tree::Node;
use cut_wants::wants::Want;
use standard::alloc::Global;

struct Order {
    kerf: u32,
    sizes: Vec<SearchSize>,
    wants: Vec<Want>,
}

struct Outcome {
    cost: Option<u64>,
    calls: u32,
    longest: f64,
    until_best: f64,
}

/// Milliseconds of the processor so far.
fn spent() -> f64 {
    let text = std::fs::read_to_string("/proc/self/schedstat").unwrap();
    text.split(' ').next().unwrap().parse::<f64>().unwrap() / 1e6
}

fn sheet(w: i64, h: i64) -> Size {
    Size::new(Kind::Sheet, w as u32, h as u32).unwrap()
}

fn read(path: &str) -> Order {
    let text = std::fs::read_to_string(path).unwrap();
    let mut numbers = text.split_whitespace().map(|it| it.parse::<i64>().unwrap());
    let mut next = || numbers.next().unwrap();
    let (kerf, sizes, wants) = (next() as u32, next(), next());
    let sizes = (0..sizes).map(|_| {
        let (size, cost, limit) = (sheet(next(), next()), next() as u64, u32::try_from(next()).ok());
        SearchSize { size, cost, limit }
    });
    let sizes = sizes.collect();
    let wants = (1..=wants).map(|demand| {
        let (size, may_turn, left) = (sheet(next(), next()), next() > 0, next() as u32);
        Want { demand: demand as u32, size, may_turn, left, worth: 1 }
    });
    Order { kerf, sizes, wants: wants.collect() }
}

fn add(node: &Node, times: u32, made: &mut [u32]) {
    match node {
        Node::Piece(demand, _) => made[*demand as usize - 1] += times,
        Node::Rest => {}
        Node::Trim(_, _, first) => add(first, times, made),
        Node::Cut(_, _, first, second) => {
            add(first, times, made);
            add(second, times, made);
        }
    }
}

/// What units cost that make all wants.
fn whole_cost(order: &Order, units: &[FoundUnit]) -> Option<u64> {
    let mut made = vec![0; order.wants.len()];
    units.iter().for_each(|unit| add(&unit.node, unit.times, &mut made));
    let is_whole = made.iter().zip(&order.wants).all(|(made, want)| *made == want.left);
    let costs = units.iter().map(|unit| order.sizes[unit.place].cost * unit.times as u64);
    is_whole.then(|| costs.sum())
}

/// Makes the table by which the planner certifies prices: a call of its own.
fn certify(order: &Order, numbers: &[u32], points: usize) {
    let sizes: Vec<Size> = order.sizes.iter().map(|it| it.size).collect();
    let priced = order.wants.iter().zip(numbers).filter(|(_, number)| **number > 0);
    let wants: Vec<Want> = priced.map(|(want, number)| Want { worth: *number, ..*want }).collect();
    let grid = grid_of(Global, order.kerf, &sizes, &wants, points).unwrap();
    ceilings(Global, order.kerf, &grid, &wants).unwrap();
}

fn run(order: &Order, search: &mut Search, calls: u32) -> Outcome {
    let begun = spent();
    let mut prices: Option<(standard::Vec<u32>, usize)> = None;
    let mut outcome = Outcome { cost: None, calls: 0, longest: 0.0, until_best: 0.0 };
    while outcome.calls < calls {
        let before = spent();
        outcome.calls += 1;
        if let Some((numbers, points)) = prices.take() {
            certify(order, &numbers, points);
        } else {
            match search.go_on(Global, 0, outcome.cost).unwrap() {
                Found::Ended => break,
                Found::Nothing => {}
                Found::Prices { numbers, points } => prices = Some((numbers, points)),
                Found::Units(units) => {
                    let cost = whole_cost(order, &units);
                    if cost.is_some_and(|cost| outcome.cost.is_none_or(|best| cost < best)) {
                        outcome.cost = cost;
                        outcome.until_best = spent() - begun;
                    }
                }
            }
        }
        outcome.longest = outcome.longest.max(spent() - before);
    }
    outcome
}

fn main() {
    let mut words = std::env::args().skip(1);
    let calls = words.next().unwrap().parse().unwrap();
    for path in words {
        let (order, begun) = (read(&path), spent());
        let (sizes, wants) = (&order.sizes, &order.wants);
        let mut search = Search::new(Global, Kind::Sheet, order.kerf, None, None, sizes, wants).unwrap();
        let outcome = run(&order, &mut search, calls);
        let Search::Sheets(sheets) = &search else { continue };
        let cost = outcome.cost.map_or("-".to_string(), |cost| cost.to_string());
        let Outcome { calls, longest, until_best, .. } = outcome;
        let (bound, all) = (sheets.bound(), spent() - begun);
        println!("{cost} {bound} {calls} {all:.0} {longest:.0} {until_best:.0}");
    }
}
