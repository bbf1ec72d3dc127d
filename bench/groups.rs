// All that is measured: replacements by register and verdict, and sheets. Every round goes over
// everything, so that a slow while of the machine falls on all alike.

use crate::dice::Dice;
use crate::draws::{self, Draw};
use crate::plain::Plain;
use crate::registers::Register;
use crate::replies::{ELIMINATION, PERMUTED, SINGULAR};
use crate::timing::{Desk, Least, UNTIMED};

const VERDICTS: [(usize, &str); 3] = [
    (SINGULAR, "SINGULAR"),
    (PERMUTED, "PERMUTED"),
    (ELIMINATION, "ELIMINATION"),
];

pub struct Group<'a> {
    pub register: &'a Register,
    pub verdict: &'static str,
    pub inputs: Vec<Input>,
}

// A replacement, and the check of its register measured beside it.
pub struct Input {
    pub draw: Draw,
    pub replace: Least,
    pub check: Least,
}

pub struct Sheet<'a> {
    pub register: &'a Register,
    pub bytes: usize,
    pub write: Least,
    pub read: Least,
}

pub fn draw<'a>(
    dice: &mut Dice,
    plain: &mut Plain,
    registers: &'a [Register],
) -> Result<Vec<Group<'a>>, String> {
    let mut groups = Vec::new();
    for register in registers {
        for (verdict, name) in VERDICTS {
            let draws = draws::of_verdict(dice, plain, &register.lists, verdict)?;
            let input = |draw| Input {
                draw,
                replace: UNTIMED,
                check: UNTIMED,
            };
            groups.push(Group {
                register,
                verdict: name,
                inputs: draws.into_iter().map(input).collect(),
            });
        }
    }
    Ok(groups)
}

pub fn sheets(registers: &[Register]) -> Vec<Sheet<'_>> {
    let sheet = |register| Sheet {
        register,
        bytes: 0,
        write: UNTIMED,
        read: UNTIMED,
    };
    registers.iter().map(sheet).collect()
}

pub fn round(desk: &mut Desk, groups: &mut [Group], sheets: &mut [Sheet]) -> Result<(), String> {
    for group in groups {
        let lists = &group.register.lists;
        for input in &mut group.inputs {
            desk.replace(lists, &input.draw, &mut input.replace)?;
            desk.check(lists, &mut input.check)?;
        }
    }
    for sheet in sheets {
        sheet.bytes = desk.write(&sheet.register.lists, &mut sheet.write)?;
        desk.read(sheet.bytes, &mut sheet.read)?;
    }
    Ok(())
}
