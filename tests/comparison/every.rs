// To size 4 the verdict is found by all pairs of orderings of rows and columns, straight from
// what the verdicts mean. The second program and the library are both held to it.

use crate::call::{reply_name, Call, Outcome, ELIMINATION, PERMUTED, SINGULAR};
use crate::calls;
use crate::group::Group;
use crate::register::{narrow, Entries, Register};
use crate::second;

// A verdict, and for PERMUTED its order: rows, then columns.
struct Judgment {
    reply: usize,
    order: Option<(Vec<usize>, Vec<usize>)>,
}

pub fn group(group: &mut Group) {
    let all: Vec<Vec<Vec<usize>>> = (0..=4).map(permutations).collect();
    for size in 1..=4 {
        let pairs = size * (size - 1) / 2;
        for pattern in 0..1 << pairs {
            for order in orders(group, size, &all[size]) {
                let register = of_bits(size, pattern, order);
                every_column(group, &register, &all[size]);
                if group.failed() {
                    return;
                }
            }
        }
    }
    for verdict in ["SINGULAR", "PERMUTED", "ELIMINATION"] {
        group.need(verdict, 1_000);
    }
}

// All orders to size 3; at size 4 the order t:t and seven others, as all are too many.
fn orders(group: &mut Group, size: usize, all: &[Vec<usize>]) -> Vec<(Vec<usize>, Vec<usize>)> {
    if size < 4 {
        let rows = all.iter();
        return rows
            .flat_map(|r| all.iter().map(|c| (r.clone(), c.clone())))
            .collect();
    }
    let mut dice = group.dice();
    let mut orders = vec![(all[0].clone(), all[0].clone())];
    orders.extend((0..7).map(|_| (dice.shuffled(size), dice.shuffled(size))));
    orders
}

// Each bit of the pattern is one entry over the diagonal.
fn of_bits(size: usize, pattern: usize, order: (Vec<usize>, Vec<usize>)) -> Register {
    let (rows, cols) = order;
    let mut entries: Entries = (0..size).map(|place| (rows[place], cols[place])).collect();
    let mut bit = 0;
    for late in 0..size {
        for early in 0..late {
            if pattern >> bit & 1 == 1 {
                entries.insert((rows[early], cols[late]));
            }
            bit += 1;
        }
    }
    Register {
        size,
        entries,
        rows,
        cols,
    }
}

fn every_column(group: &mut Group, register: &Register, all: &[Vec<usize>]) {
    for column in 0..register.size {
        for chosen in 0..1_usize << register.size {
            let rows = (0..register.size).filter(|&row| chosen >> row & 1 == 1);
            let new_rows: Vec<usize> = rows.collect();
            let mut dice = group.dice();
            let call = calls::lend(&mut dice, register, column, narrow(&new_rows));
            let wanted = group.same(&call);
            let spiked = second::spiked_pattern(register, column, &new_rows);
            let judgment = judge(&spiked, &register.col_places(), all);
            hold_second(group, &call, &wanted, judgment);
        }
    }
}

fn hold_second(group: &mut Group, call: &Call, second: &Outcome, judgment: Judgment) {
    let (size, lists) = (call.size, &second.lists);
    let same_order = match &judgment.order {
        None => true,
        Some((rows, cols)) => {
            lists.order_rows[..size] == narrow(rows) && lists.order_cols[..size] == narrow(cols)
        }
    };
    if second.reply != judgment.reply || !same_order {
        let (reply, order) = (reply_name(judgment.reply), judgment.order);
        let said = second.told(&call.lists);
        let told = call.told();
        let what = "all orderings and the second program differ";
        group.fail(&format!(
            "{what}: {reply} {order:?}\nsecond program\n{said}the call\n{told}"
        ));
    }
}

fn judge(spiked: &Entries, old_places: &[usize], all: &[Vec<usize>]) -> Judgment {
    let picks = |rows: &Vec<usize>| (0..rows.len()).all(|col| spiked.contains(&(rows[col], col)));
    if !all.iter().any(picks) {
        return Judgment {
            reply: SINGULAR,
            order: None,
        };
    }
    let mut sound = Vec::new();
    for rows in all {
        for cols in all.iter().filter(|cols| triangular(spiked, rows, cols)) {
            let read: Vec<usize> = cols.iter().map(|&column| old_places[column]).collect();
            sound.push((read, rows.clone(), cols.clone()));
        }
    }
    sound.sort();
    // Two sound orders with the same columns would leave the rows open.
    assert!(
        sound.windows(2).all(|two| two[0].0 != two[1].0),
        "the columns decide the rows"
    );
    match sound.into_iter().next() {
        Some((_, rows, cols)) => Judgment {
            reply: PERMUTED,
            order: Some((rows, cols)),
        },
        None => Judgment {
            reply: ELIMINATION,
            order: None,
        },
    }
}

fn triangular(entries: &Entries, rows: &[usize], cols: &[usize]) -> bool {
    let place = |list: &[usize], number: usize| list.iter().position(|&at| at == number);
    (0..rows.len()).all(|at| entries.contains(&(rows[at], cols[at])))
        && entries
            .iter()
            .all(|&(row, column)| place(rows, row) <= place(cols, column))
}

// In dictionary order, so that 0, 1 .. comes first.
fn permutations(size: usize) -> Vec<Vec<usize>> {
    let mut all = vec![Vec::new()];
    for _ in 0..size {
        let longer = |list: &Vec<usize>| {
            let free = (0..size).filter(|number| !list.contains(number));
            free.map(|number| [&list[..], &[number]].concat())
                .collect::<Vec<_>>()
        };
        all = all.iter().flat_map(longer).collect();
    }
    all
}
