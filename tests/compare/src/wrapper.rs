//! The comparison of the safe Rust crate with the reference.

use crate::entries::Comparison;
use crate::points;
use crate::stack::on_stack;
use crate::tally::{Difference, Outcome, hex};
use reference::{Answer, Arrival, Ending, Kind, Map, NO_DART, Placed, Point, Record};
use std::fmt::Debug;

/// A refusal as its number.
fn number<T>(answer: Result<T, reach::Refusal>) -> Answer<T> {
    answer.map_err(reach::Refusal::number)
}

fn point(p: reach::Point) -> Point {
    Point::new(p.x, p.y)
}

fn arrival(arrival: reach::Arrival) -> Arrival {
    match arrival {
        reach::Arrival::First => Arrival::First,
        reach::Arrival::Second => Arrival::Second,
        reach::Arrival::Inside => Arrival::Inside,
        reach::Arrival::Outside { left, right, visible } => {
            Arrival::Outside { left, right, visible }
        }
    }
}

fn placed(placed: reach::Placed) -> Placed {
    match placed {
        reach::Placed::NoOutline => Placed::NoOutline,
        reach::Placed::Corner(corner) => Placed::Corner(corner),
        reach::Placed::Edge { start, end } => Placed::Edge(start, end),
        reach::Placed::Inside => Placed::Inside,
        reach::Placed::Outside { visible } => Placed::Outside(visible),
    }
}

fn record(record: reach::Record) -> Record {
    let arrival = match record.arrival {
        reach::ArrivalKind::First => 0,
        reach::ArrivalKind::Second => 1,
        reach::ArrivalKind::Inside => 2,
        reach::ArrivalKind::Outside => 3,
    };
    let freed = [record.freed_left, record.freed_right].map(|dart| dart.unwrap_or(NO_DART));
    Record { arrival, freed }
}

fn counts(map: &reach::Map) -> [usize; 5] {
    let c = map.counts();
    [c.darts, c.vertices, c.edges, c.faces, c.parts]
}

impl Comparison {
    fn same<T: Debug + PartialEq>(
        &mut self,
        entry: &'static str,
        input: &dyn Fn() -> String,
        expected: Answer<T>,
        got: Answer<T>,
    ) -> Outcome {
        if expected != got {
            let said = format!("expected {expected:?}\n     got {got:?}");
            return Err(Difference(format!("{entry}\n{}\n{said}", input())));
        }
        self.tally.add(entry, got.err().unwrap_or(0));
        Ok(())
    }

    /// The crate's map of a file: it has the bytes of version 2.
    pub fn wrapper_load(&mut self, file: &[u8], map: &Answer<Map>) -> Outcome {
        let input = || format!("map {}", hex(file));
        let expected = map.as_ref().map(|m| m.save()).map_err(|number| *number);
        let loaded = on_stack("Map::load", reach::CALL_STACK, || reach::Map::load(file));
        self.same("Map::load", &input, expected, number(loaded).map(reach::Map::into_bytes))
    }

    /// The crate's functions on a file.
    pub fn wrapper(&mut self, file: &[u8]) -> Outcome {
        let input = || format!("map {}", hex(file));
        let expected = Map::load(file);
        self.wrapper_load(file, &expected)?;
        let (Ok(mut expected), Ok(mut map)) = (expected, reach::Map::load(file)) else {
            return Ok(());
        };
        let c = expected.counts();
        let numbers = [c.darts, c.vertices, c.edges, c.faces, c.parts];
        self.same("Map::counts", &input, Ok(numbers), Ok(counts(&map)))?;
        self.same("Map::corners", &input, Ok(expected.corners()), Ok(map.corners()))?;
        let points: Vec<_> = (0..map.len()).filter_map(|k| map.point(k)).map(point).collect();
        self.same("Map::point", &input, Ok(expected.points.clone()), Ok(points))?;
        let points = map.points().map(point).collect();
        self.same("Map::points", &input, Ok(expected.points.clone()), Ok(points))?;
        let records: Vec<_> = (0..map.len()).filter_map(|k| map.record(k)).map(record).collect();
        self.same("Map::record", &input, Ok(expected.records.clone()), Ok(records))?;
        let beyond = [map.len(), usize::MAX].map(|k| (map.point(k), map.record(k)));
        self.same("Map::record, no point", &input, Ok([(None, None); 2]), Ok(beyond))?;
        let outline = on_stack("Map::outline_text", reach::CALL_STACK, || map.outline_text());
        self.same("Map::outline_text", &input, Ok(expected.outline_text()), Ok(outline))?;
        let corners = expected.corners().len();
        for place in [0, self.draw.below(corners + 2), corners, usize::MAX] {
            let input = || format!("place {place} of map {}", hex(file));
            let area = || map.doubled_area(place);
            let got = number(on_stack("Map::doubled_area", reach::CALL_STACK, area));
            let area = expected.doubled_area(place as u64);
            self.same("Map::doubled_area", &input, area, got)?;
        }

        let dart = self.draw.below(2 * map.len() + 2);
        let input = || format!("dart {dart} of map {}", hex(file));
        let kinds = [
            (reach::Kind::Edge, Kind::Edge),
            (reach::Kind::Vertex, Kind::Vertex),
            (reach::Kind::Face, Kind::Face),
            (reach::Kind::Part, Kind::Part),
        ];
        for (kind, expected_kind) in kinds {
            let orbit = expected.orbit(expected_kind, dart as u64).map(|o| (o.words, o.size));
            let got = number(map.orbit(kind, dart));
            self.same("Map::orbit", &input, orbit, got.map(|o| (o.words, o.size)))?;
        }
        let walk = expected.walk(dart as u64);
        let walk = walk.map(|w| (w.last, w.ending == Ending::Home, w.moves));
        let got = number(map.walk(dart));
        let got = got.map(|w| (w.last, w.ending == reach::Ending::Home, w.moves));
        self.same("Map::walk", &input, walk, got)?;
        let moved = expected.walker(dart as u64).map(|d| expected.face_link(d));
        let got = number(map.walker(dart)).map(|walker| walker.by_edge().by_point().dart());
        self.same("Walker", &input, moved, got)?;

        let p = points::query(&mut self.draw, &expected);
        let input = || format!("{p:?} and map {}", hex(file));
        let point = reach::Point::from((p.x, p.y));
        let got =
            number(on_stack("Map::place", reach::CALL_STACK, || map.place(point))).map(placed);
        self.same("Map::place", &input, expected.place(p), got)?;
        let got = number(on_stack("Map::offer", reach::CALL_STACK, || map.offer(point)));
        if let Ok(arrival) = got {
            let kept = map.record(map.len() - 1).map(|record| record.arrival);
            self.same("Arrival::kind", &input, Ok(Some(arrival.kind())), Ok(kept))?;
        }
        self.same("Map::offer", &input, expected.offer(p), got.map(arrival))?;
        self.same("Map::as_bytes", &input, Ok(expected.save()), Ok(map.as_bytes().to_vec()))
    }

    /// The crate's functions on a text. The answers of a survey, displayed, are the report's lines.
    pub fn wrapper_report(&mut self, text: &[u8]) -> Outcome {
        let input = || format!("text \"{}\"", text.escape_ascii());
        let got = number(on_stack("report", reach::REPORT_STACK, || reach::report(text)));
        let report = reference::report_or_refusal(text);
        self.same("report", &input, report.clone(), got)?;

        let survey = || reach::Map::survey(text);
        let survey = number(on_stack("Map::survey", reach::REPORT_STACK, survey));
        let expected = report.clone().map(|_| reference::survey(text));
        let expected = expected.map(|(map, answers)| (map.save(), map.points, answers));
        let got = survey.clone().map(|survey| {
            let points = survey.map.points().map(point).collect();
            let answers = survey.answers.into_iter().map(|answer| number(answer).map(arrival));
            (survey.map.into_bytes(), points, answers.collect())
        });
        self.same("Map::survey", &input, expected, got)?;
        let (Ok(report), Ok(survey)) = (report, survey) else {
            return Ok(());
        };
        let report = String::from_utf8(report).expect("a text of ASCII");
        let lines: Vec<String> = report.lines().map(String::from).collect();
        let expected = lines[1..lines.len() - 2].to_vec();
        let displayed = survey.answers.iter().enumerate().map(|(line, answer)| match answer {
            Ok(arrival) => format!("{line} {arrival}"),
            Err(refusal) => format!("{line} refused {}", refusal.number()),
        });
        self.same("Arrival, displayed", &input, Ok(expected), Ok(displayed.collect()))
    }

    /// The crate's function on an outline's text.
    pub fn wrapper_outline(&mut self, text: &[u8]) -> Outcome {
        let input = || format!("text \"{}\"", text.escape_ascii());
        let got = number(on_stack("read_outline", reach::CALL_STACK, || reach::read_outline(text)));
        let got = got.map(|corners| corners.into_iter().map(point).collect());
        self.same("read_outline", &input, reference::read_outline(text), got)
    }

    /// The crate's function on a claim on points, x and y in turn.
    pub fn wrapper_mark(&mut self, coordinates: &[i64], claim: &[u64]) -> Outcome {
        let input = || format!("claim {claim:?} on points {coordinates:?}");
        let point = |pair: &[i64]| reach::Point::from((pair[0], pair[1]));
        let points: Vec<reach::Point> = coordinates.chunks_exact(2).map(point).collect();
        let numbers: Vec<usize> = claim.iter().map(|&number| number as usize).collect();
        let got = number(on_stack("mark", reach::CALL_STACK, || reach::mark(&points, &numbers)));
        self.same("mark", &input, reference::mark(coordinates, claim), got)
    }
}
