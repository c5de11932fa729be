//! The growth as a picture: a panel for each of entries, hops and beaters,
//! with time over size, the product's line beside the reference's.

use std::fmt::Write;
use std::time::Duration;

use crate::timing::Times;

pub struct Panel {
    pub name: &'static str,
    pub points: Vec<Point>,
}

pub struct Point {
    pub size: u16,
    pub times: Times,
}

const WIDTH: f64 = 300.0;
const HEIGHT: f64 = 220.0;
const LEFT: f64 = 50.0;
const TOP: f64 = 40.0;
const PANEL: f64 = WIDTH + LEFT + 20.0;
const PRODUCT: &str = "#1b6ca8";
const REFERENCE: &str = "#b0532a";

pub fn svg(panels: &[Panel]) -> String {
    let (width, height) = (PANEL * panels.len() as f64, TOP + HEIGHT + 60.0);
    let mut svg = format!(
        "<svg xmlns=\"http://www.w3.org/2000/svg\" width=\"{width}\" height=\"{height}\" \
         font-family=\"sans-serif\" font-size=\"12\">\n\
         <rect width=\"100%\" height=\"100%\" fill=\"white\"/>\n"
    );
    for (place, panel) in panels.iter().enumerate() {
        let left = LEFT + place as f64 * PANEL;
        let _ = writeln!(svg, "<g transform=\"translate({left},{TOP})\">");
        draw(panel, &mut svg);
        svg.push_str("</g>\n");
    }
    svg.push_str("</svg>\n");
    svg
}

fn draw(panel: &Panel, svg: &mut String) {
    let scale = Scale::of(panel);
    let _ = writeln!(
        svg,
        "<text y=\"-22\" font-weight=\"bold\">verdict, µs by {}</text>\
         <text y=\"-6\" fill=\"{PRODUCT}\">product</text>\
         <text x=\"60\" y=\"-6\" fill=\"{REFERENCE}\">reference</text>\
         <path d=\"M0 0V{HEIGHT}H{WIDTH}\" fill=\"none\" stroke=\"black\"/>",
        panel.name
    );
    for step in 0..=4 {
        let time = scale.most_micros * f64::from(step) / 4.0;
        let y = scale.y(time);
        let _ = writeln!(
            svg,
            "<text x=\"-4\" y=\"{}\" text-anchor=\"end\">{time:.0}</text>\
             <path d=\"M0 {y}H{WIDTH}\" stroke=\"#ddd\"/>",
            y + 4.0
        );
    }
    for point in &panel.points {
        let (x, y) = (scale.x(point.size), HEIGHT + 16.0);
        let size = point.size;
        let _ = writeln!(
            svg,
            "<text x=\"{x}\" y=\"{y}\" text-anchor=\"middle\">{size}</text>"
        );
    }
    line(panel, &scale, PRODUCT, |times| times.product, svg);
    line(panel, &scale, REFERENCE, |times| times.reference, svg);
}

fn line(
    panel: &Panel,
    scale: &Scale,
    colour: &str,
    time: fn(&Times) -> Duration,
    svg: &mut String,
) {
    let _ = write!(
        svg,
        "<polyline fill=\"none\" stroke=\"{colour}\" stroke-width=\"2\" points=\""
    );
    for point in &panel.points {
        let (x, y) = (scale.x(point.size), scale.y(micros(time(&point.times))));
        let _ = write!(svg, "{x:.1},{y:.1} ");
    }
    svg.push_str("\"/>\n");
}

/// From sizes and times to places in a panel.
struct Scale {
    most_size: f64,
    most_micros: f64,
}

impl Scale {
    fn of(panel: &Panel) -> Scale {
        let sizes = panel.points.iter().map(|point| f64::from(point.size));
        let times = panel.points.iter().map(|point| &point.times);
        let micros = times.map(|times| micros(times.product.max(times.reference)));
        Scale {
            most_size: sizes.fold(1.0, f64::max),
            // A multiple of the four steps on the axis.
            most_micros: (micros.fold(1.0, f64::max) / 4.0).ceil() * 4.0,
        }
    }

    fn x(&self, size: u16) -> f64 {
        WIDTH * f64::from(size) / self.most_size
    }

    fn y(&self, micros: f64) -> f64 {
        HEIGHT * (1.0 - micros / self.most_micros)
    }
}

fn micros(time: Duration) -> f64 {
    time.as_secs_f64() * 1e6
}
