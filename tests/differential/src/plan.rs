//! Which history is told: the fixed list first, then histories thrown by the dice.

use crate::dice::Dice;
use crate::values::{Style, STYLES};

/// The order in which a book is filled or struck.
#[derive(Clone, Copy, Debug)]
pub enum Order {
    Random,
    Rising,
    Falling,
}

pub const ORDERS: [Order; 3] = [Order::Random, Order::Rising, Order::Falling];

/// How a history opens.
#[derive(Clone, Copy, Debug)]
pub enum Opening {
    /// With a start.
    Fresh,
    /// With a book of so many entries.
    Given(usize),
    /// With a book of so many entries, all of which are then struck.
    StrikeAll(usize, Order),
    /// With a start, adds until the book is full, one more, and strikes until it is empty, one more.
    FillAndStrike(Order, Order),
    /// With a start and so many adds.
    Adds(usize),
    /// With a start, trays of adds until the book is full, and trays of strikes until it is empty.
    Trays(Order, Order),
}

/// A history before its dice are thrown.
#[derive(Clone, Copy, Debug)]
pub struct Plan {
    pub k: usize,
    pub c: usize,
    pub style: Style,
    pub opening: Opening,
    /// Steps of any sort behind the opening.
    pub steps: usize,
    /// Whether some damage stays in the book.
    pub stays: bool,
}

impl Plan {
    /// A history of so many steps of any sort.
    fn mixed(k: usize, c: usize, style: Style, opening: Opening, steps: usize) -> Plan {
        Plan {
            k,
            c,
            style,
            opening,
            steps,
            stays: false,
        }
    }

    /// A history that is its opening, where half the entries share a torque.
    fn run(k: usize, c: usize, opening: Opening) -> Plan {
        Plan::mixed(k, c, Style::Torque, opening, 0)
    }
}

/// The histories of every run, small ones first.
pub fn fixed() -> Vec<Plan> {
    [small(), runs(), middling(), large()].concat()
}

/// Small books and steps of any sort; these alone bring every call to every refusal that it has.
fn small() -> Vec<Plan> {
    let mut plans = Vec::new();
    for c in [3, 8, 1, 13, 2, 21, 5, 40] {
        for k in 1..=4 {
            let style = STYLES[(plans.len() / 4 + k) % 4];
            plans.push(Plan {
                stays: (plans.len() / 4 + k) % 2 == 0,
                ..Plan::mixed(k, c, style, Opening::Fresh, 300)
            });
        }
    }
    plans
}

/// Small books filled, and struck to the last entry, in every order.
fn runs() -> Vec<Plan> {
    let mut plans = Vec::new();
    for k in 1..=4 {
        for strikes in ORDERS {
            for n in [1, 2, 3, 4, 7, 12, 20, 33, 64, 127, 300] {
                plans.push(Plan::run(k, n, Opening::StrikeAll(n, strikes)));
            }
            for adds in ORDERS {
                plans.push(Plan::run(k, 50, Opening::FillAndStrike(adds, strikes)));
            }
        }
    }
    plans
}

/// Books of hundreds.
fn middling() -> Vec<Plan> {
    let mut plans = Vec::new();
    for (k, style) in (1..=4).zip(STYLES) {
        plans.push(Plan::mixed(k, 100, style, Opening::Fresh, 300));
        plans.push(Plan::mixed(k, 512, style, Opening::Given(500), 100));
        plans.push(Plan {
            stays: true,
            ..Plan::mixed(k, 512, style, Opening::Given(200), 100)
        });
    }
    plans
}

/// The greatest books.
fn large() -> Vec<Plan> {
    let mut plans = Vec::new();
    for k in 1..=4 {
        for order in ORDERS {
            for n in [700, 1500, 4096] {
                plans.push(Plan::run(k, n, Opening::StrikeAll(n, order)));
            }
        }
        let n = [4096, 4095, 2000, 3000][k - 1];
        plans.push(Plan::mixed(k, 4096, Style::Torque, Opening::Given(n), 40));
        plans.push(Plan::run(k, 4096, Opening::Adds(2500)));
        let (adds, strikes) = (ORDERS[k % 3], ORDERS[k / 2]);
        plans.push(Plan::run(k, 4096, Opening::Trays(adds, strikes)));
    }
    plans
}

/// A history beyond the fixed list: mostly of a small book, seldom of a great one.
pub fn thrown(dice: &mut Dice) -> Plan {
    let k = 1 + dice.below(4);
    let style = dice.one(&STYLES);
    let steps = 60 + dice.below(300);
    let tiny = 1 + dice.below(8);
    let small = 1 + dice.below(40);
    let order = dice.one(&ORDERS);
    let stays = dice.chance(40);
    let plan = match dice.below(1000) {
        0 => Plan::run(k, 4096, Opening::StrikeAll(1 + dice.below(4096), order)),
        1..=4 => Plan::mixed(k, 4096, style, Opening::Given(1 + dice.below(4096)), 30),
        5 => Plan::run(k, 4096, Opening::Adds(1000 + dice.below(2000))),
        6..=20 => Plan::mixed(k, 512, style, Opening::Given(dice.below(513)), 80),
        21..=50 => {
            let c = 41 + dice.below(260);
            Plan::mixed(k, c, style, Opening::Given(dice.below(c + 1)), 100)
        }
        51..=80 => {
            let n = 1 + dice.below(200);
            Plan::run(k, n + dice.below(3), Opening::StrikeAll(n, order))
        }
        81..=100 => {
            let adds = dice.one(&ORDERS);
            Plan::run(k, small, Opening::FillAndStrike(adds, order))
        }
        101..=500 => Plan::mixed(k, tiny, style, Opening::Fresh, steps),
        _ => Plan::mixed(k, small, style, Opening::Fresh, steps),
    };
    Plan { stays, ..plan }
}
