//! The planners of the proved library beside the same steps in plain Rust and beside the report's
//! DHW, and its leader sheets, archives and prices beside plain Rust: on the same trees, in one
//! run, as ratios. Nothing passes or fails by its time.
//!
//! `tools/build-library.sh` writes the library; `cargo run --release` in this folder then prints the table.

mod archive;
mod clock;
mod columns;
mod dhw;
mod library;
mod load;
mod measure;
mod plain;
mod planner;
mod price;
mod quick;
mod sheets;
mod show;
mod tree;

use load::{Load, DOUBLES, MOST_NODES, NODES};
use planner::{Kind, COLUMNS, GREEDY, KINDS, QUICK};
use show::{FilmRow, GrowthRow, PriceRow, Row, SheetRow};

fn main() {
    let [loads, long_loads] = [NODES, MOST_NODES].map(load::loads);
    let noted = load::loads_with_notes();
    let mut all = 0;
    for load in loads.iter().chain(&long_loads).chain(&noted) {
        for kind in KINDS {
            measure::check_agreement(load, kind);
        }
        all += 1;
    }
    let noted = noted.len();
    println!("All forms agree on {all} trees, {noted} of them with weights of 0.");

    show::print_head();
    let rows = rows_of(&loads, &KINDS);
    rows.iter().for_each(Row::print);
    show::print_worst(&rows);

    show::print_head_of_most();
    // Level and best have a table of their own below.
    show::print_worst(&rows_of(&long_loads, &[QUICK, GREEDY].concat()));

    show::print_head_by_size();
    for loads in &load::loads_by_size() {
        for kind in QUICK {
            show::print_by_size(&loads.each_ref().map(|load| {
                measure::check_agreement(load, kind);
                let times = measure::times(load, kind);
                Row { load, kind, times }
            }));
        }
    }

    show::print_head_of_growth();
    let mut rows = vec![];
    for load in &loads {
        let sizes = load.in_sizes(DOUBLES);
        for kind in COLUMNS {
            measure::check_agreement(&sizes[0], kind);
            let times = measure::growth(&sizes, kind);
            let row = GrowthRow { load, kind, times };
            row.print();
            rows.push(row);
        }
    }
    show::print_worst_growth(&rows, COLUMNS);

    show::print_head_of_sheets();
    let rows = sheet_rows_of(&loads);
    rows.iter().flatten().for_each(SheetRow::print);
    show::print_worst_of_sheets(&rows);
    show::print_head_of_most();
    show::print_worst_of_sheets(&sheet_rows_of(&long_loads));

    show::print_head_of_film();
    show::print_worst_of_film(&film_rows_of(&loads));
    show::print_head_of_most();
    show::print_worst_of_film(&film_rows_of(&long_loads));

    show::print_head_of_prices();
    show::print_worst_of_prices(&price_rows_of(&loads));
    show::print_head_of_most();
    show::print_worst_of_prices(&price_rows_of(&long_loads));
}

/// The times of these planners.
fn rows_of<'a>(loads: &'a [Load], kinds: &[Kind]) -> Vec<Row<'a>> {
    let of_load = |load: &'a Load| {
        kinds.iter().map(move |&kind| {
            let times = measure::times(load, kind);
            Row { load, kind, times }
        })
    };
    loads.iter().flat_map(of_load).collect()
}

/// The times of the sheets of two plans.
fn sheet_rows_of(loads: &[Load]) -> Vec<[SheetRow<'_>; 2]> {
    let of_load = |load| {
        measure::plans(load).map(|plan| {
            measure::check_sheets(load, &plan);
            let times = measure::sheet_times(load, &plan);
            SheetRow { load, plan, times }
        })
    };
    loads.iter().map(of_load).collect()
}

/// The times of all that is done with film of two plans.
fn film_rows_of(loads: &[Load]) -> Vec<[FilmRow<'_>; 2]> {
    let of_load = |load| {
        measure::plans(load).map(|plan| {
            let times = measure::film_times(load, &plan);
            FilmRow { load, plan, times }
        })
    };
    loads.iter().map(of_load).collect()
}

/// The times of the prices of two plans, and of the saving.
fn price_rows_of(loads: &[Load]) -> Vec<PriceRow<'_>> {
    let of_load = |load| PriceRow {
        load,
        prices: measure::plans(load).map(|plan| {
            let times = measure::price_times(load, &plan);
            (plan, times)
        }),
        saving: measure::saving_times(load),
    };
    loads.iter().map(of_load).collect()
}
