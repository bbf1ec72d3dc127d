// Sound registers: everything is accepted, and reads and writes as much as it ever does.

use crate::calls::Case;
use crate::cases::{call_all, of_size, to_write, want_no_room, want_read, LARGE, SMALL};
use crate::group::Group;
use crate::held;
use crate::sheet::call::ReadCall;
use crate::sheet::{lend, second};

pub fn group(group: &mut Group) {
    for (sizes, draws) in [(SMALL, 150), (LARGE, 12)] {
        for size in sizes {
            for _ in 0..draws {
                let case = of_size(&mut group.dice(), size);
                accepted(group, &case);
                every_column(group, &case);
                there_and_back(group, &case);
            }
        }
    }
    for verdict in [100, 101, 102] {
        group.need(&format!("replace {verdict}"), 20);
    }
}

fn accepted(group: &mut Group, case: &Case) {
    let [check, write, replace] = call_all(group, case);
    if check != 0 || write != 0 || replace < 100 {
        let told = case.call.told();
        group.fail(&format!(
            "{check}, {write} and {replace} to a sound register\n{told}"
        ));
    }
}

fn every_column(group: &mut Group, case: &Case) {
    let size = case.register.size;
    for column in (0..size).step_by(1 + size / 20) {
        let rows = held::look(group, size, &case.call.lists, column);
        if rows != case.register.rows_of(column).len() {
            group.fail(&format!(
                "{rows} rows in column {column}\n{}",
                case.call.told()
            ));
        }
    }
}

// The sheet is read into lists without a spare place; one byte less is no room for it.
fn there_and_back(group: &mut Group, case: &Case) {
    let needed = lend::needed(case.register.size, case.register.entries.len());
    let lists = lend::rubbish(&mut group.dice(), needed);
    let bytes = second::sheet(&case.register);
    want_no_room(group, &to_write(case, bytes.len() - 1));
    want_read(group, &ReadCall { bytes, lists }, 0, "a good sheet");
}
