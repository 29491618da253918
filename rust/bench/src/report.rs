//! The report in markdown: the preface, a table a section, and what is above the limits.

use crate::calls::Side;
use crate::cases::{Case, Family, SIZES};
use crate::chain::Order;
use crate::costs::{Compared, Cost, Measured, MOST_INSTRUCTIONS, MOST_TIME};
use crate::machine::{self, Processor};
use crate::runs::{self, RUNS};
use crate::shapes::{Shape, PAGE};
use crate::{stack, timing, Outcome};

/// A row: what it is, in words of its own, the cells that describe it, and its cost.
struct Row {
    name: String,
    lead: String,
    cost: Cost,
}

/// A section with a table of costs.
struct Section {
    title: &'static str,
    text: &'static str,
    /// The heads of the cells that describe the rows, and the rule below them.
    heads: [&'static str; 2],
    rows: Vec<Row>,
}

impl Section {
    fn print(&self, measured: &Measured, out: &mut String) {
        let Section {
            title, text, heads, ..
        } = self;
        let (costs, rules) = (Compared::HEADS, Compared::RULES);
        *out += &format!("\n## {title}\n\n{text}\n\n");
        *out += &format!("| {} | {costs} |\n| {} | {rules} |\n", heads[0], heads[1]);
        for row in &self.rows {
            let cells = row.cost.compared(measured).cells();
            *out += &format!("| {} | {cells} |\n", row.lead);
        }
    }
}

/// Checks and evaluations of right refutations by their size.
fn by_size() -> [Section; 2] {
    let sizes = SIZES.map(Family::Sized);
    let check = |family: Family| {
        let shape = Shape::of(family);
        let pages = shape.check_pages();
        let Shape {
            clauses,
            a,
            b,
            steps,
            gates,
            ..
        } = shape;
        Row {
            name: format!("check of {clauses} clauses"),
            lead: format!("{clauses} | {a} | {b} | {steps} | {gates} | {pages}"),
            cost: Cost::of(Case::Check(family)),
        }
    };
    let evaluate = |family: Family| {
        let shape = Shape::of(family);
        let pages = shape.evaluation_pages();
        let Shape { clauses, gates, .. } = shape;
        Row {
            name: format!("evaluation of {gates} gates"),
            lead: format!("{clauses} | {gates} | {pages}"),
            cost: Cost::of(Case::Evaluate(family)),
        }
    };
    [
        Section {
            title: "Check, by clauses",
            text: "Pages of 4,096 bytes touched: A, B and steps read, 64 bytes of work a step and 8 of gates a gate written; \
                   counted from these lengths, each table starting on a page of its own.",
            heads: ["clauses | A | B | steps | gates | pages", "---: | ---: | ---: | ---: | ---: | ---:"],
            rows: sizes.map(check).into(),
        },
        Section {
            title: "Evaluate, on the circuits of these checks",
            text: "Pages touched: the assignment and the gates, read.",
            heads: ["clauses | gates | pages", "---: | ---: | ---:"],
            rows: sizes.map(evaluate).into(),
        },
    ]
}

/// The families whose branches are foreseen otherwise than those of the sizes, with their names.
const OTHERS: [(Family, &str); 3] = [
    (
        Family::Coloured,
        "random pivots of all colours, different tables by turns",
    ),
    (
        Family::Chain(Order::ByNumber),
        "a chain of 512 steps, pivots by number",
    ),
    (
        Family::Chain(Order::Random),
        "a chain of 512 steps, pivots in random order",
    ),
];

/// The same calls on these.
fn by_branches() -> Section {
    let rows = OTHERS.into_iter().flat_map(|(family, name)| {
        let Shape {
            refutations,
            clauses,
            steps,
            gates,
            ..
        } = Shape::of(family);
        let row = |job: &str, case| Row {
            name: format!("{job}, {name}"),
            lead: format!("{job}, {name} | {refutations} | {clauses} | {steps} | {gates}"),
            cost: Cost::of(case),
        };
        [
            row("check", Case::Check(family)),
            row("evaluate", Case::Evaluate(family)),
        ]
    });
    Section {
        title: "Tables whose branches are foreseen otherwise",
        text: "A processor learns the branches of a table that is checked again and again. The refutations with random pivots are several, \
               called by turns, each with another circuit and assignment, so that no call can be foreseen from the one before; a call's cost is the mean \
               of a round. Not quite half of their pivots are common, the others A-only or B-only; in the tables above most are common. \
               In a chain each step resolves the result of the step before with an input clause, so that it waits for the record just written; \
               by number, pivots, colours and sides follow a pattern, in random order none.",
        heads: ["call | tables | clauses | steps | gates", "--- | ---: | ---: | ---: | ---:"],
        rows: rows.collect(),
    }
}

/// A page of steps, as the difference of two calls.
fn step_page(common: bool) -> Cost {
    let [more, less] = [513, 1].map(|steps| Cost::of(Case::Steps { common, steps }));
    Cost::difference(more, less)
}

/// What a page of each kind of record costs: differences of two calls that differ by whole pages.
fn by_page() -> Section {
    let between = |more, less| Cost::difference(Cost::of(more), Cost::of(less));
    let rows = [
        (
            "clause records (64), read by a check without steps",
            between(Case::Clauses(1_024), Case::Clauses(64)).part_of(15),
        ),
        (
            "steps (512), one gate each: 8 pages of work, 1 of gates",
            step_page(false),
        ),
        (
            "steps (512), three gates each: 8 pages of work, 3 of gates",
            step_page(true),
        ),
        (
            // The two pages of steps differ by two pages of gates.
            "gates (512), written by a check",
            Cost::difference(step_page(true), step_page(false)).part_of(2),
        ),
        (
            "gates (512), evaluated",
            between(Case::Gates(512), Case::Gates(0)),
        ),
    ];
    let row = |(name, cost): (&str, Cost)| Row {
        name: format!("a page of {name}"),
        lead: name.to_string(),
        cost,
    };
    Section {
        title: "A page of 4,096 bytes",
        text: "Each is the difference of two calls that differ by whole pages. All steps of a page resolve the same two input clauses: about the least \
               a step costs; steps all over the tables are in the tables above.",
        heads: ["a page of", "---"],
        rows: rows.map(row).into(),
    }
}

/// What a step costs beside moving its records.
fn by_move(measured: &Measured, out: &mut String) {
    *out += "\n## A step beside the plain copy of its records\n\n";
    *out += "A step moves 192 bytes at the least: two records read, one written. The plain copy does that alone, over the same tables in the same runs: \
             it reads the numbers of the antecedents from the step table, their two records from A, B or the work table, and writes both joined \
             into the step's record, with no test, no mask and no gate. Nanoseconds a step: those of a page by the difference of two calls as above, the others \
             those of a whole call, its clauses read and its gates written, by its steps.\n\n";
    *out += "| steps | library ns | yardstick ns | copy ns | library / copy (least-greatest) | yardstick / copy (least-greatest) |\n";
    *out += "| --- | ---: | ---: | ---: | ---: | ---: |\n";
    let pages = [
        ("a page of 512, one gate each", false),
        ("a page of 512, three gates each", true),
    ];
    let steps_a_page = PAGE / 8;
    let pages = pages.map(|(name, common)| (name, step_page(common).part_of(steps_a_page)));
    let others = OTHERS.map(|(family, name)| {
        let steps = Shape::of(family).steps;
        (name, Cost::of(Case::Check(family)).part_of(steps))
    });
    let runs = &measured.runs.default;
    for (name, cost) in pages.into_iter().chain(others) {
        let times = Side::ALL.map(|side| format!("{:.1}", cost.time(runs, side)));
        let ratios = Side::COMPARED.map(|side| cost.ratio(runs, side, Side::Copy).to_string());
        *out += &format!(
            "| {name} | {} | {} |\n",
            times.join(" | "),
            ratios.join(" | ")
        );
    }
}

/// How deep the calls go on the stack.
fn by_stack(out: &mut String) -> Outcome<()> {
    *out += "\n## Stack\n\nMeasured on the largest tables above: the stack of a thread is filled with a pattern, the call is made, and the deepest \
             byte that has changed is looked for; the wrapper's own frame is counted in. Pages are those a stretch of so many bytes can lie on at \
             most.\n\n| call | side | bytes | pages |\n| --- | --- | ---: | ---: |\n";
    let [.., largest] = SIZES.map(Family::Sized);
    for case in [Case::Check(largest), Case::Evaluate(largest)] {
        let mut round = case.round();
        for side in Side::COMPARED {
            let bytes = stack::depth(|| round.make(side))
                .map_err(|error| format!("the stack of {case} of {side}: {error}"))?;
            let pages = (bytes - 1).div_ceil(PAGE) + 1;
            *out += &format!("| {} | {side} | {bytes} | {pages} |\n", case.function());
        }
    }
    Ok(())
}

/// The rows above the limits, found by the program so that none is missed by eye.
fn by_limits(sections: &[Section], measured: &Measured, out: &mut String) {
    *out += "\n## Above the limits\n";
    let rows = || sections.iter().flat_map(|section| &section.rows);
    let mut list = |text: String, above: fn(&Compared) -> Option<String>| {
        let named: Vec<String> = rows()
            .filter_map(|row| {
                let above = above(&row.cost.compared(measured))?;
                Some(format!("- {}: {above}\n", row.name))
            })
            .collect();
        let named = if named.is_empty() {
            "- none\n".to_string()
        } else {
            named.concat()
        };
        *out += &format!("\n{text}\n\n{named}");
    };
    list(
        format!("Of the {} rows above, those with instructions above {MOST_INSTRUCTIONS:.2} of the yardstick's, or the median of the times above {MOST_TIME:.2}:", rows().count()),
        Compared::above,
    );
    list(
        format!("Those with the median of the times above {MOST_TIME:.2} of the yardstick's that is built for this very processor:"),
        Compared::above_native,
    );
}

/// When and where, how both sides are built, and how it is measured.
pub fn preface(date: &str, processor: &Processor) -> Outcome<String> {
    let load = machine::load()?;
    let library = machine::library()?;
    let yardstick = machine::yardstick();
    let native = runs::native_build()?;
    let (samples, sample) = (timing::SAMPLES, timing::SAMPLE.as_micros());
    Ok(format!(
        "# What a call costs\n\n\
         Made on {date} (UTC) by `rt lib --cpu=x86-64` in crates/privetcomb, then `cargo run --release --manifest-path rust/Cargo.toml -p bench`, which needs valgrind \
         and objdump; with `-- --plot` it draws docs/cost.svg too.\n\n\
         - Processor: {processor}.\n\
         - Load over 1, 5 and 15 minutes at the start: {load}.\n\
         - Library: {library}\n\
         - Yardstick, the Rust version written for speed (`independent::tuned`): {yardstick}.\n\
         - Native yardstick, the same built for this very processor: {native}.\n\n\
         The instructions decide. They are those of one call, what it calls included, as callgrind counts them, the same in every run; the native yardstick's are \
         not counted. A ratio is library / yardstick.\n\n\
         Times are medians of {RUNS} runs, each in a process of its own, since where code and tables lie differs from process to process; behind a ratio stand \
         the least and the greatest of the runs. In a run both sides are called on the same tables, all calls of a section by turns; its times are medians of \
         {samples} samples a side, each the mean of calls that take about {sample} µs together, or of one round where different tables are called by turns. The native \
         yardstick has {RUNS} runs of its own, by turns with the others, and the ratio to it is that of the library in the same process. Work and gate tables are \
         filled with junk once and are not cleared before a call, so each call writes over the same bytes left by the one before; all tables are warm.\n"
    ))
}

/// The sections with what was measured, and the rows above the limits.
pub fn sections(measured: &Measured) -> Outcome<String> {
    let mut out = String::new();
    let [check, evaluate] = by_size();
    let sections = [check, evaluate, by_branches(), by_page()];
    for section in &sections {
        section.print(measured, &mut out);
    }
    by_move(measured, &mut out);
    by_stack(&mut out)?;
    by_limits(&sections, measured, &mut out);
    Ok(out)
}
