//! The timeline as a picture: heading, refused passes, a row for each task, idle time, axis and
//! legend, from top to bottom; and arrows between the rows, if there are pairs.

mod axis;
mod heading;
mod legend;
mod pairs;
mod refusals;
mod rows;
mod scale;
pub(crate) mod style;
mod view;

use crate::canonical::turns_within;
use crate::run::{Run, Span};
use crate::svg::Element;
use scale::Scale;
use style::{FONT, PAPER};
use view::View;

/// Left of the plot are the names of the rows.
const LEFT: f64 = 150.0;
const MARGIN: f64 = 20.0;

/// The window that the options ask for, or why there is none. Left open, it is from tick 0 to the
/// end of the last order's hold.
pub fn window(run: &Run, from: Option<u64>, to: Option<u64>) -> Result<Span, String> {
    let end = run.end_of_order();
    let last = end + run.judged.hyperperiod;
    let window = Span {
        from: from.unwrap_or(0),
        to: to.unwrap_or(end),
    };
    if window.to > last {
        return Err(format!(
            "the last order ends at tick {end}; the picture can go on to tick {last}, one \
             hyperperiod later, but not to {}",
            window.to
        ));
    }
    if window.from >= window.to {
        return Err(format!(
            "nothing to draw from tick {} to tick {}",
            window.from, window.to
        ));
    }
    Ok(window)
}

/// The SVG of a run. The name, if there is one, goes into the heading.
pub fn draw(run: &Run, window: Span, name: Option<&str>) -> String {
    let view = View {
        run,
        window,
        scale: Scale::new(window, LEFT),
        turns: turns_within(&run.levels, &run.tasks, run.judged, window),
    };
    let refused = refusals::Layout::new(&view);
    let width = (axis::right(&view).max(refused.right()) + MARGIN).ceil();

    let heading = heading::Heading::new(&view, name, width - 2.0 * MARGIN);
    let refusals_top = MARGIN + heading.height();
    let rows_top = refusals_top + refused.height();
    let rows_bottom = rows_top + rows::height(&view);
    let legend_top = rows_bottom + axis::HEIGHT;

    let mut body = Element::new("g").set("font-family", FONT);
    body.add(heading.draw(MARGIN, MARGIN));
    body.add(axis::after_the_run(&view, rows_top, rows_bottom));
    body.add(axis::grid(&view, rows_top, rows_bottom));
    body.add(refused.threads(&view, rows_top, rows_bottom));
    rows::draw(&view, rows_top, &mut body);
    if let Some(arrows) = pairs::draw(&view, rows_top) {
        body.add(arrows);
    }
    body.add(refused.draw(refusals_top));
    body.add(axis::draw(&view, rows_bottom));
    let (legend, legend_height) = legend::draw(run, MARGIN, legend_top, width - MARGIN);
    body.add(legend);
    page(width, (legend_top + legend_height + MARGIN).ceil(), body)
}

pub(crate) fn page(width: f64, height: f64, body: Element) -> String {
    let background = Element::new("rect")
        .px(&[("width", width), ("height", height)])
        .set("fill", PAPER);
    let svg = Element::new("svg")
        .set("xmlns", "http://www.w3.org/2000/svg")
        .set("version", "1.1")
        .px(&[("width", width), ("height", height)])
        .set("viewBox", format!("0 0 {width} {height}"))
        .with(style::patterns())
        .with(background)
        .with(body);
    format!(
        "<?xml version=\"1.0\" encoding=\"UTF-8\"?>\n{}\n",
        svg.write()
    )
}
