//! The picture of the damping: what `curve` draws is read back, and held to the simulator.

use crate::xml::{read, Node};
use sim::knee::{damping, LARGEST_ANGLE, POINTS, SMALLEST_ANGLE};
use std::process::{Command, Output};
use tools::curve::{draw, Curve};

fn curve(arguments: &[&str]) -> Output {
    Command::new(env!("CARGO_BIN_EXE_curve"))
        .args(arguments)
        .output()
        .expect("the command runs")
}

fn drawn() -> String {
    let output = curve(&[]);
    assert!(output.status.success());
    String::from_utf8(output.stdout).expect("the picture is text")
}

/// An axis: what stands at a place, from two places of which that is known.
struct Axis {
    first: (f64, f64),
    second: (f64, f64),
}

impl Axis {
    /// Along the numbers that stand so beside the grid, by their x or their y.
    fn new(nodes: &[Node], anchor: &str, along: &str) -> Axis {
        let mut numbers = nodes
            .iter()
            .filter(|node| node.is_inside("grid") && node.get("text-anchor") == Some(anchor))
            .filter_map(|node| Some((node.number(along), node.text.parse().ok()?)));
        Axis {
            first: numbers.next().expect("the axis has a number"),
            second: numbers.next().expect("the axis has two"),
        }
    }

    /// The same, with each number so far from where it stands.
    fn moved(mut self, by: f64) -> Axis {
        self.first.0 += by;
        self.second.0 += by;
        self
    }

    /// What stands at a place, times a scale, which must be whole.
    #[track_caller]
    fn at(&self, place: &str, scale: f64) -> i32 {
        let place: f64 = place.parse().expect("the place is a number");
        let ((from, low), (to, high)) = (self.first, self.second);
        let found = scale * (low + (place - from) / (to - from) * (high - low));
        assert!((found - found.round()).abs() < 0.01, "{found} is not whole");
        found.round() as i32
    }
}

/// The steps of the line: from each of these angles on, that damping.
fn steps(svg: &str) -> Vec<(i32, u64)> {
    let nodes = read(svg).expect("the picture is well-formed");
    let angles = Axis::new(&nodes, "middle", "x");
    // The base line of a number is a little below the line of the grid that it is for.
    let dampings = Axis::new(&nodes, "end", "y").moved(-4.0);
    let path = nodes.iter().find(|node| node.is("curve")).unwrap();
    let path = path.get("d").expect("the curve is a path");
    let (start, rest) = path[1..].split_once('H').expect("the line goes on");
    let (rest, end) = rest.rsplit_once('H').expect("it ends on a level");
    assert_eq!(angles.at(end, 10.0), LARGEST_ANGLE);
    let first = start.split_once(' ').expect("it starts at a point");
    let others = rest.split('H').map(|step| step.split_once('V').unwrap());
    std::iter::once(first)
        .chain(others)
        .map(|(x, y)| (angles.at(x, 10.0), dampings.at(y, 1.0) as u64))
        .collect()
}

#[test]
fn the_line_is_the_damping_at_every_angle() {
    let steps = steps(&drawn());
    assert_eq!(steps[0].0, SMALLEST_ANGLE);
    for angle in SMALLEST_ANGLE..=LARGEST_ANGLE {
        let last = steps.iter().rev().find(|(from, _)| *from <= angle);
        assert_eq!(last.map(|step| step.1), damping(angle).ok(), "{angle}");
    }
}

/// The tool draws what it is handed, not what it should be.
#[test]
fn another_lookup_gives_another_line() {
    let mut dampings: Vec<u64> = (SMALLEST_ANGLE..=LARGEST_ANGLE)
        .map(|angle| damping(angle).unwrap())
        .collect();
    dampings[700] += 1;
    let curve = Curve {
        lowest: SMALLEST_ANGLE,
        dampings: &dampings,
    };
    let steps = steps(&draw(&curve, &POINTS));
    assert!(steps.contains(&(SMALLEST_ANGLE + 700, dampings[700])));
}

#[test]
fn each_point_is_marked() {
    let nodes = read(&drawn()).unwrap();
    let told: Vec<&str> = nodes
        .iter()
        .filter(|node| node.tag == "text" && node.is_inside("points"))
        .map(|node| node.text.as_str())
        .collect();
    let wanted = POINTS.map(|(degrees, damping)| format!("{degrees}°, {damping}"));
    assert_eq!(told, wanted);
}

#[test]
fn the_damping_in_the_docs_is_the_one_drawn_now() {
    assert_eq!(include_str!("../../../../docs/damping.svg"), drawn());
}

#[test]
fn it_takes_no_arguments() {
    let output = curve(&["out.svg"]);
    assert_eq!(output.status.code(), Some(2));
    assert!(output.stdout.is_empty());
    assert!(String::from_utf8_lossy(&output.stderr).contains("usage: curve"));
}
