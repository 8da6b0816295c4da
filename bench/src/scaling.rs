//! Time against the number of components and against the number of events.

use oracle::sheets::Sheet;

use crate::compare::both;
use crate::plot::{Panel, Series, figure, grouped};
use crate::sides::{SIDES, Side};
use crate::time::{best, pairs};
use crate::workloads::{idle, walks};

/// The components where the events grow, and the events where the components do.
const FIXED_SIZE: usize = 64;
const FIXED_EVENTS: usize = 2_000;
const SIZES: [usize; 9] = [1, 2, 4, 8, 16, 32, 64, 128, 255];
const EVENTS: [usize; 7] = [32, 64, 128, 256, 512, 1_024, 2_048];

/// A kind of sheet by components and events.
struct Kind {
    name: &'static str,
    sheet: fn(usize, usize) -> Sheet,
}

const KINDS: [Kind; 2] = [
    Kind {
        name: "boots and recoveries",
        sheet: walks,
    },
    Kind {
        name: "events that do nothing",
        sheet: idle,
    },
];

/// Every sheet of the plot.
pub fn sheets() -> Vec<Vec<u8>> {
    let by_size = SIZES.map(|size| (size, FIXED_EVENTS));
    let by_events = EVENTS.map(|events| (FIXED_SIZE, events));
    let points = by_size.into_iter().chain(by_events);
    points
        .flat_map(|(size, events)| KINDS.iter().map(move |kind| (kind.sheet)(size, events)))
        .map(|sheet| sheet.to_string().into_bytes())
        .collect()
}

/// The plot as an SVG, with the best of so many times at each point.
pub fn plot(repetitions: usize) -> Result<String, String> {
    let by_size = Panel {
        title: format!("{} events", grouped(FIXED_EVENTS as f64)),
        axis: "components",
        series: series(&SIZES, repetitions, |kind, size| {
            (kind.sheet)(size, FIXED_EVENTS)
        })?,
    };
    let by_events = Panel {
        title: format!("{FIXED_SIZE} components"),
        axis: "events",
        series: series(&EVENTS, repetitions, |kind, events| {
            (kind.sheet)(FIXED_SIZE, events)
        })?,
    };
    Ok(figure(&[by_size, by_events]))
}

/// One curve for each kind and side.
fn series(
    places: &[usize],
    repetitions: usize,
    sheet: impl Fn(&Kind, usize) -> Sheet,
) -> Result<Vec<Series>, String> {
    let mut all = Vec::new();
    for (dashed, kind) in [false, true].into_iter().zip(&KINDS) {
        let mut points = [Vec::new(), Vec::new()];
        for place in places {
            let text = sheet(kind, *place).to_string().into_bytes();
            both(&text)?;
            let pairs = pairs(&text, repetitions);
            let x = *place as f64;
            points[0].push((x, best(pairs.iter().map(|pair| pair.port)) / 1_000.0));
            points[1].push((x, best(pairs.iter().map(|pair| pair.rust)) / 1_000.0));
        }
        for (side, points) in SIDES.into_iter().zip(points) {
            all.push(Series {
                label: format!("{}, {}", label(side), kind.name),
                first: side == Side::Port,
                dashed,
                points,
            });
        }
    }
    Ok(all)
}

fn label(side: Side) -> &'static str {
    match side {
        Side::Port => "port",
        Side::Rust => "Rust",
    }
}
