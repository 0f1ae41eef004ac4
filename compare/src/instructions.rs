//! One call of a proved function on one of the measured modules, for `compare/instructions` to count the instructions of. `classes sheet`, `classes
//! cycles` and `classes yields` list the modules by name and words; `sheet N`, `cycles N` and `yields N` call `pm_sheet`, `pm_cycles` and `pm_yields` on
//! the Nth.
mod classes;
#[allow(dead_code)]
mod form;
#[allow(dead_code)]
mod kinds;
#[allow(dead_code)]
mod nesting;
#[allow(dead_code)]
mod pieces;
#[allow(dead_code)]
mod pinnaclemug;
#[allow(dead_code)]
mod refusals;
mod typical;

use classes::Named;
use pinnaclemug::ROW;

fn held(of: &str) -> Vec<Named> {
    match of {
        "sheet" => classes::of_sheets(),
        "cycles" => classes::of_walks(),
        "yields" => classes::of_yields(),
        _ => panic!("sheet, cycles or yields"),
    }
}

fn call(of: &str, (name, chunks): &Named) {
    let words = form::write(chunks);
    match of {
        "sheet" => {
            let mut tray = vec![0; ROW * chunks.len()];
            let lines = pinnaclemug::sheet(&words, &mut tray);
            assert_eq!(lines, Ok(chunks.len()), "{name}");
        }
        "cycles" => assert!(pinnaclemug::cycles(&words, 0).is_ok(), "{name}"),
        _ => assert!(
            pinnaclemug::yields(&words, 0, &classes::list()).is_ok(),
            "{name}"
        ),
    }
}

fn main() {
    let words: Vec<String> = std::env::args().skip(1).collect();
    match &words[..] {
        [first, of] if first == "classes" => {
            for (name, chunks) in held(of) {
                println!("{name}\t{}", form::write(&chunks).len());
            }
        }
        [of, which] => {
            let which: usize = which.parse().expect("a number");
            call(of, &held(of)[which]);
        }
        _ => panic!("classes OF, or OF N"),
    }
}
