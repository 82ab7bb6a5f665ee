use crate::{MAP_BYTES, OUTLINE_BYTES, Point, Refusal, raw, read_line, report};
use std::fmt;

const HEAD: usize = 9;
const POINT_BYTES: usize = 18;

/// What stands for a dart that was not freed.
const NO_DART: usize = 1024;

/// A sound map: points in the plane, their darts, how these are linked, and what each arrival
/// freed.
///
/// A map owns its bytes in version 2 of the saved form, and is sound by the way it comes about:
/// empty, loaded from bytes that the engine accepts, or changed by an accepted offer. Maps are
/// equal where their bytes are, and so where the same points came in the same order.
///
/// Point k owns dart 2k and may have the helper dart 2k + 1. Each dart has an edge link and a point
/// link.
///
/// A method that asks the engine lends it these bytes, and the engine checks them again each time,
/// as it checks a file: it builds the map of its points and compares. [`Map::len`],
/// [`Map::is_empty`], [`Map::point`], [`Map::points`], [`Map::record`] and [`Map::as_bytes`] do not
/// ask it.
#[derive(Clone, Debug, PartialEq, Eq, Hash)]
pub struct Map {
    bytes: Vec<u8>,
}

/// What a survey text gives: see [`Map::survey`].
#[derive(Clone, Debug, PartialEq, Eq)]
pub struct Survey {
    /// The map that the text's points build.
    pub map: Map,
    /// The answer of each line, by its number: how its point arrived, or why it is refused.
    pub answers: Vec<Result<Arrival, Refusal>>,
}

/// What an accepted point does.
///
/// It is displayed as a report has it:
///
/// ```
/// use reach::Arrival;
///
/// assert_eq!(Arrival::Inside.to_string(), "inside");
/// let outside = Arrival::Outside { left: 1, right: 2, visible: 1 };
/// assert_eq!(outside.to_string(), "outside 1 2 1");
/// ```
#[derive(Clone, Copy, Debug, PartialEq, Eq, Hash)]
pub enum Arrival {
    /// It is the first point.
    First,
    /// It is the second point: there is an outline now.
    Second,
    /// It lies inside the outline or on it: left of each outline edge, or between the edge's ends.
    Inside,
    /// It lies outside and becomes a corner. An outline edge is visible from it where it lies right
    /// of the edge, or on the edge's line but not between its ends.
    Outside {
        /// The corner whose entering edge is not visible and whose leaving edge is; of an outline
        /// of two corners that the point is in line with, the one farther from it.
        left: usize,
        /// The corner whose entering edge is visible and whose leaving edge is not; of an outline
        /// of two corners that the point is in line with, the one farther from it.
        right: usize,
        /// The number of outline edges visible from the point.
        visible: usize,
    },
}

impl Arrival {
    /// Which of the four it is.
    ///
    /// ```
    /// use reach::{Arrival, ArrivalKind};
    ///
    /// let outside = Arrival::Outside { left: 1, right: 0, visible: 1 };
    /// assert_eq!(outside.kind(), ArrivalKind::Outside);
    /// ```
    pub fn kind(self) -> ArrivalKind {
        match self {
            Arrival::First => ArrivalKind::First,
            Arrival::Second => ArrivalKind::Second,
            Arrival::Inside => ArrivalKind::Inside,
            Arrival::Outside { .. } => ArrivalKind::Outside,
        }
    }
}

impl fmt::Display for Arrival {
    fn fmt(&self, f: &mut fmt::Formatter<'_>) -> fmt::Result {
        match self {
            Arrival::First => f.write_str("first"),
            Arrival::Second => f.write_str("second"),
            Arrival::Inside => f.write_str("inside"),
            Arrival::Outside { left, right, visible } => {
                write!(f, "outside {left} {right} {visible}")
            }
        }
    }
}

/// How a point arrived, as a map keeps it: an [`Arrival`] without its corners and edges.
#[derive(Clone, Copy, Debug, PartialEq, Eq, Hash)]
pub enum ArrivalKind {
    First,
    Second,
    Inside,
    Outside,
}

/// What a map keeps of a point's arrival: how it came, and the two darts that it freed.
///
/// A freed dart lost its edge link to the left or the right corner, and no later arrival links it
/// again. Of the visible edges the first and the last are lost so, and those between stay linked,
/// as a chain from one freed dart to the other. Where two edges were visible the chain has none,
/// and the freed darts are the two of one point; where one was, no dart is freed.
///
/// ```
/// use reach::{Ending, Map, Walk};
///
/// // three edges are visible from point 4, between the corners 0 and 3
/// let map = Map::survey(b"0 0\n1 1\n1 9\n0 10\n100 5\n")?.map;
/// let record = map.record(4).unwrap();
/// assert_eq!((record.freed_left, record.freed_right), (Some(3), Some(4)));
/// // the one between the points 1 and 2 stays
/// assert_eq!(map.walk(2), Ok(Walk { last: 4, ending: Ending::Loose, moves: 2 }));
/// # Ok::<(), reach::Refusal>(())
/// ```
#[derive(Clone, Copy, Debug, PartialEq, Eq, Hash)]
pub struct Record {
    /// How the point arrived.
    pub arrival: ArrivalKind,
    /// The dart that was linked with the left corner's own dart, if one was freed.
    pub freed_left: Option<usize>,
    /// The dart that was linked with the right corner's helper, if one was freed.
    pub freed_right: Option<usize>,
}

/// Which links an orbit follows.
#[derive(Clone, Copy, Debug, PartialEq, Eq, Hash)]
pub enum Kind {
    /// The edge link.
    Edge,
    /// The point link.
    Vertex,
    /// The edge link, then the point link.
    Face,
    /// Both links: a connected part.
    Part,
}

/// A set of darts.
#[derive(Clone, Copy, Debug, PartialEq, Eq, Hash)]
pub struct Orbit {
    /// Bit j of word w stands for dart 64 × w + j.
    pub words: [u64; 16],
    /// The number of darts.
    pub size: usize,
}

impl Orbit {
    /// Whether a dart belongs to the orbit.
    pub fn contains(&self, dart: usize) -> bool {
        self.words.get(dart / 64).is_some_and(|word| word >> (dart % 64) & 1 == 1)
    }

    /// The darts, in the order of their numbers.
    pub fn darts(&self) -> impl Iterator<Item = usize> + '_ {
        (0..1024).filter(|&dart| self.contains(dart))
    }
}

/// How many darts and orbits of each kind a map has.
#[derive(Clone, Copy, Debug, PartialEq, Eq, Hash)]
pub struct Counts {
    pub darts: usize,
    pub vertices: usize,
    pub edges: usize,
    pub faces: usize,
    pub parts: usize,
}

/// How a walk ends.
#[derive(Clone, Copy, Debug, PartialEq, Eq, Hash)]
pub enum Ending {
    /// A point step reaches the start.
    Home,
    /// An edge step is due at a dart whose edge link is fixed.
    Loose,
}

/// A walk along edge and point links, alternately.
#[derive(Clone, Copy, Debug, PartialEq, Eq, Hash)]
pub struct Walk {
    /// The dart where it ends.
    pub last: usize,
    /// How it ends.
    pub ending: Ending,
    /// The number of moves made.
    pub moves: usize,
}

/// Where a query point lies.
///
/// It is displayed as a word, with the numbers of the corner, of the edge's corners or of visible
/// edges after it:
///
/// ```
/// use reach::Placed;
///
/// assert_eq!(Placed::NoOutline.to_string(), "none");
/// assert_eq!(Placed::Corner(1).to_string(), "corner 1");
/// assert_eq!(Placed::Edge { start: 0, end: 1 }.to_string(), "edge 0 1");
/// assert_eq!(Placed::Inside.to_string(), "inside");
/// assert_eq!(Placed::Outside { visible: 2 }.to_string(), "outside 2");
/// ```
#[derive(Clone, Copy, Debug, PartialEq, Eq, Hash)]
pub enum Placed {
    /// The map has fewer than two points, so there is no outline.
    NoOutline,
    /// It is the corner with this point number.
    Corner(usize),
    /// It lies strictly between the ends of an outline edge.
    Edge {
        /// The point number of the corner where the edge starts.
        start: usize,
        /// The point number of the corner where it ends.
        end: usize,
    },
    /// It lies inside the outline.
    Inside,
    /// It lies outside, and so many outline edges are strictly visible from it.
    Outside {
        /// The number of outline edges that it lies right of. Those on whose lines it lies are not
        /// counted, though an arrival there counts them.
        visible: usize,
    },
}

impl fmt::Display for Placed {
    fn fmt(&self, f: &mut fmt::Formatter<'_>) -> fmt::Result {
        match self {
            Placed::NoOutline => f.write_str("none"),
            Placed::Corner(corner) => write!(f, "corner {corner}"),
            Placed::Edge { start, end } => write!(f, "edge {start} {end}"),
            Placed::Inside => f.write_str("inside"),
            Placed::Outside { visible } => write!(f, "outside {visible}"),
        }
    }
}

/// A walker that stands at a dart of a map.
///
/// Each move is a call of the engine, which checks the whole map again. [`Map::walk`] and
/// [`Map::orbit`] follow all links in one call.
#[derive(Clone, Copy, Debug, PartialEq, Eq)]
pub struct Walker<'a> {
    map: &'a Map,
    dart: usize,
}

impl Walker<'_> {
    /// The dart where it stands.
    pub fn dart(self) -> usize {
        self.dart
    }

    /// The walker moved by the edge link.
    #[must_use]
    pub fn by_edge(self) -> Self {
        Walker { dart: self.map.moved(raw::walker_edge, self.dart), ..self }
    }

    /// The walker moved by the point link.
    #[must_use]
    pub fn by_point(self) -> Self {
        Walker { dart: self.map.moved(raw::walker_point, self.dart), ..self }
    }
}

/// The engine's values are numbers of points and darts, which fit.
fn index(value: u64) -> usize {
    usize::try_from(value).expect("a number below 1,025")
}

/// The number with which a report's line refuses a line of its text, `N refused R`, or 0.
fn refused(printed: &str) -> u32 {
    let number = printed.split_once(" refused ").map_or("0", |(_, number)| number);
    number.parse().expect("the number of a refusal")
}

/// What cannot be refused, since the map is sound, the dart present and the list long enough.
fn served(number: u32) {
    Refusal::of(number).expect("a sound map is served");
}

impl Map {
    /// The map without points.
    ///
    /// ```
    /// let map = reach::Map::new();
    /// assert!(map.is_empty());
    /// assert_eq!(map.as_bytes(), [0, 0, 0, 5, 2, 0, 0, 4, 0]);
    /// ```
    pub fn new() -> Self {
        let mut bytes = vec![0; HEAD];
        served(raw::empty(&mut bytes));
        Map { bytes }
    }

    /// The map of a file, in either version of the saved form: a file of version 1 has no records,
    /// and gets those that its points have.
    ///
    /// # Errors
    ///
    /// [`Refusal::BadFile`] where the bytes are not in the saved form, else [`Refusal::NotSound`]
    /// where the map in them is not the one that its points build.
    ///
    /// ```
    /// use reach::{Map, Refusal};
    ///
    /// let map = Map::new();
    /// assert_eq!(Map::load(map.as_bytes()), Ok(map));
    /// assert_eq!(Map::load(b"reach"), Err(Refusal::BadFile));
    /// ```
    ///
    /// A map of one point in version 1 is equal to the one that is offered it:
    ///
    /// ```
    /// use reach::{Map, Point};
    ///
    /// let mut map = Map::new();
    /// map.offer(Point { x: 3, y: 4 })?;
    /// let file = b"\0\0\0\x12\x01\0\x01\x04\0\0\0\0\x03\0\0\0\x04\0\0\0\0\x01";
    /// assert_eq!(Map::load(file)?, map);
    /// assert_eq!(map.as_bytes().len(), file.len() + 5);
    /// # Ok::<(), reach::Refusal>(())
    /// ```
    pub fn load(bytes: &[u8]) -> Result<Self, Refusal> {
        let mut out = vec![0; MAP_BYTES];
        let mut length = [0];
        Refusal::of(raw::load(bytes, &mut out, &mut length))?;
        let length = usize::try_from(length[0]).expect("the length of a list");
        Ok(Map { bytes: out[..length].to_vec() })
    }

    /// The map in version 2 of the saved form.
    pub fn as_bytes(&self) -> &[u8] {
        &self.bytes
    }

    /// The map in version 2 of the saved form, without a copy.
    pub fn into_bytes(self) -> Vec<u8> {
        self.bytes
    }

    /// The number of points.
    pub fn len(&self) -> usize {
        (self.bytes.len() - HEAD) / POINT_BYTES
    }

    /// Whether there are no points.
    pub fn is_empty(&self) -> bool {
        self.len() == 0
    }

    /// The point with a number.
    ///
    /// ```
    /// use reach::{Map, Point};
    ///
    /// let mut map = Map::new();
    /// map.offer(Point { x: -3, y: 4 })?;
    /// assert_eq!(map.point(0), Some(Point { x: -3, y: 4 }));
    /// assert_eq!(map.point(1), None);
    /// # Ok::<(), reach::Refusal>(())
    /// ```
    pub fn point(&self, number: usize) -> Option<Point> {
        if self.len() <= number {
            return None;
        }
        let coordinate = |place: usize| {
            let field = self.bytes[place..].first_chunk().expect("the four bytes of a coordinate");
            i64::from(i32::from_be_bytes(*field))
        };
        let place = HEAD + 8 * number;
        Some(Point { x: coordinate(place), y: coordinate(place + 4) })
    }

    /// The points, in the order of their acceptance, which is that of their numbers.
    ///
    /// ```
    /// use reach::{Map, Point};
    ///
    /// let map = Map::survey(b"0 0\n4 0\n4 0\n1 3\n")?.map;
    /// assert!(map.points().eq([(0, 0), (4, 0), (1, 3)].map(Point::from)));
    /// # Ok::<(), reach::Refusal>(())
    /// ```
    pub fn points(&self) -> impl ExactSizeIterator<Item = Point> + '_ {
        (0..self.len()).map(|number| self.point(number).expect("a point has each of these numbers"))
    }

    /// What is kept of the arrival of the point with a number.
    ///
    /// ```
    /// use reach::{ArrivalKind, Map, Point, Record};
    ///
    /// let mut map = Map::new();
    /// for (x, y) in [(0, 0), (4, 0), (1, 3), (5, 4), (2, 1), (6, 7)] {
    ///     map.offer(Point { x, y })?;
    /// }
    /// let arrival = ArrivalKind::Outside;
    /// let freed = Record { arrival, freed_left: Some(7), freed_right: Some(6) };
    /// assert_eq!(map.record(5), Some(freed));
    /// // from here one edge was visible, and no dart came loose
    /// let none = Record { arrival, freed_left: None, freed_right: None };
    /// assert_eq!(map.record(2), Some(none));
    /// assert_eq!(map.record(4).map(|record| record.arrival), Some(ArrivalKind::Inside));
    /// assert_eq!(map.record(6), None);
    /// # Ok::<(), reach::Refusal>(())
    /// ```
    pub fn record(&self, number: usize) -> Option<Record> {
        if self.len() <= number {
            return None;
        }
        let place = HEAD + 13 * self.len() + 5 * number;
        let group: &[u8; 5] = self.bytes[place..].first_chunk().expect("the bytes of a record");
        let freed = |i: usize| {
            let dart = usize::from(u16::from_be_bytes([group[i], group[i + 1]]));
            (dart != NO_DART).then_some(dart)
        };
        let arrival = match group[0] {
            0 => ArrivalKind::First,
            1 => ArrivalKind::Second,
            2 => ArrivalKind::Inside,
            _ => ArrivalKind::Outside,
        };
        Some(Record { arrival, freed_left: freed(1), freed_right: freed(3) })
    }

    /// Offers a point. An accepted point gets the next number; a refused one changes nothing.
    ///
    /// Each call builds the map anew from its points, to check it: a long survey is better given
    /// whole, to [`report`], which builds one map, or to [`Map::survey`], which offers accepted
    /// points alone.
    ///
    /// # Errors
    ///
    /// The lowest that applies of [`Refusal::Full`], [`Refusal::OutOfRange`] and
    /// [`Refusal::Repeated`].
    ///
    /// ```
    /// use reach::{Arrival, Map, Point, Refusal};
    ///
    /// let mut map = Map::new();
    /// assert_eq!(map.offer(Point { x: 0, y: 0 }), Ok(Arrival::First));
    /// assert_eq!(map.offer(Point { x: 4, y: 0 }), Ok(Arrival::Second));
    /// assert_eq!(map.offer(Point { x: 4, y: 0 }), Err(Refusal::Repeated));
    /// let outside = Arrival::Outside { left: 1, right: 0, visible: 1 };
    /// assert_eq!(map.offer(Point { x: 1, y: 3 }), Ok(outside));
    /// ```
    ///
    /// Marks may lie along a rail: each beyond an end is a corner, each between the ends is not.
    ///
    /// ```
    /// use reach::{Arrival, Map, Point};
    ///
    /// let mut map = Map::new();
    /// map.offer(Point { x: 0, y: 0 })?;
    /// map.offer(Point { x: 2, y: 0 })?;
    /// let beyond = Arrival::Outside { left: 0, right: 0, visible: 2 };
    /// assert_eq!(map.offer(Point { x: 4, y: 0 }), Ok(beyond));
    /// assert_eq!(map.offer(Point { x: 1, y: 0 }), Ok(Arrival::Inside));
    /// assert_eq!(map.corners(), [0, 2]);
    /// # Ok::<(), reach::Refusal>(())
    /// ```
    pub fn offer(&mut self, point: Point) -> Result<Arrival, Refusal> {
        let mut bytes = vec![0; self.bytes.len() + POINT_BYTES];
        let mut arrival = [0; 4];
        Refusal::of(raw::offer(&self.bytes, point.x, point.y, &mut bytes, &mut arrival))?;
        self.bytes = bytes;
        let [kind, left, right, visible] = arrival.map(index);
        Ok(match kind {
            0 => Arrival::First,
            1 => Arrival::Second,
            2 => Arrival::Inside,
            _ => Arrival::Outside { left, right, visible },
        })
    }

    /// The map of a survey text, and the answer of each of its lines, as [`report`] has them.
    ///
    /// A line ends in a line feed, which the last may lack; a carriage return before it is a byte
    /// of the line, which is then not in form.
    ///
    /// It costs a report and an offer of each accepted point, of which there are at most 512,
    /// however many lines are refused. The thread needs [`REPORT_STACK`](crate::REPORT_STACK).
    ///
    /// # Errors
    ///
    /// [`Refusal::LongText`] where the text has more than [`TEXT_LIMIT`](crate::TEXT_LIMIT) bytes.
    /// A refused line is among the answers.
    ///
    /// ```
    /// use reach::{Arrival, Map, Refusal, TEXT_LIMIT};
    ///
    /// let survey = Map::survey(b"0 0\n4 0\n1 3\n5 4\n2 1\n6 7\n")?;
    /// let words: Vec<String> = survey.answers.iter().flatten().map(Arrival::to_string).collect();
    /// let outside = ["outside 1 0 1", "outside 1 2 1", "outside 1 2 2"];
    /// assert_eq!(words, ["first", "second", outside[0], outside[1], "inside", outside[2]]);
    /// assert_eq!(survey.map.corners(), [0, 1, 5, 2]);
    ///
    /// let survey = Map::survey(b"0 0\n0 0\n\n4 0")?;
    /// let [repeated, blank] = [Err(Refusal::Repeated), Err(Refusal::BadLine)];
    /// assert_eq!(survey.answers, [Ok(Arrival::First), repeated, blank, Ok(Arrival::Second)]);
    /// assert_eq!(survey.map.len(), 2);
    ///
    /// assert_eq!(Map::survey(&[b'\n'; TEXT_LIMIT + 1]), Err(Refusal::LongText));
    /// # Ok::<(), reach::Refusal>(())
    /// ```
    ///
    /// `str::lines` drops carriage returns, and so takes these lines for lines in form:
    ///
    /// ```
    /// use reach::{Map, Refusal, read_line};
    ///
    /// let text = "0 0\r\n4 0\r\n1 3\r\n";
    /// assert!(text.lines().all(|line| read_line(line.as_bytes()).is_ok()));
    /// let survey = Map::survey(text.as_bytes())?;
    /// assert_eq!(survey.answers, [Err(Refusal::BadLine); 3]);
    /// assert!(survey.map.is_empty());
    /// # Ok::<(), reach::Refusal>(())
    /// ```
    pub fn survey(text: &[u8]) -> Result<Survey, Refusal> {
        let printed = String::from_utf8(report(text)?).expect("a text of ASCII");
        let lines = text.split_inclusive(|&byte| byte == b'\n').zip(printed.lines().skip(1));
        let mut map = Map::new();
        let answer = |(line, printed)| {
            // an offer builds the map anew even to refuse: a text has room for 16,384 repeats
            Refusal::of(refused(printed))?;
            map.offer(read_line(line)?)
        };
        let answers = lines.map(answer).collect();
        Ok(Survey { map, answers })
    }

    /// The orbit of a dart.
    ///
    /// # Errors
    ///
    /// [`Refusal::NoDart`] where the dart is absent.
    ///
    /// ```
    /// use reach::{Kind, Map, Point};
    ///
    /// let mut map = Map::new();
    /// map.offer(Point { x: 0, y: 0 })?;
    /// map.offer(Point { x: 4, y: 0 })?;
    /// let edge = map.orbit(Kind::Edge, 0)?;
    /// assert!(edge.darts().eq([0, 3]));
    /// # Ok::<(), reach::Refusal>(())
    /// ```
    pub fn orbit(&self, kind: Kind, dart: usize) -> Result<Orbit, Refusal> {
        let orbit = match kind {
            Kind::Edge => raw::edge_orbit,
            Kind::Vertex => raw::vertex_orbit,
            Kind::Face => raw::face_orbit,
            Kind::Part => raw::part_orbit,
        };
        let mut out = [0; 17];
        Refusal::of(orbit(&self.bytes, dart as u64, &mut out))?;
        let [words @ .., size] = out;
        Ok(Orbit { words, size: index(size) })
    }

    /// How many darts, vertices, edges, faces and parts there are.
    ///
    /// ```
    /// let counts = reach::Map::new().counts();
    /// assert_eq!((counts.darts, counts.parts), (0, 0));
    /// ```
    pub fn counts(&self) -> Counts {
        let mut out = [0; 5];
        served(raw::counts(&self.bytes, &mut out));
        let [darts, vertices, edges, faces, parts] = out.map(index);
        Counts { darts, vertices, edges, faces, parts }
    }

    /// The walk from a dart: edge, point, edge, and so on.
    ///
    /// # Errors
    ///
    /// [`Refusal::NoDart`] where the dart is absent.
    ///
    /// ```
    /// use reach::{Ending, Map, Point, Walk};
    ///
    /// let mut map = Map::new();
    /// map.offer(Point { x: 0, y: 0 })?;
    /// assert_eq!(map.walk(0), Ok(Walk { last: 0, ending: Ending::Loose, moves: 0 }));
    /// map.offer(Point { x: 4, y: 0 })?;
    /// assert_eq!(map.walk(0), Ok(Walk { last: 0, ending: Ending::Home, moves: 4 }));
    /// # Ok::<(), reach::Refusal>(())
    /// ```
    pub fn walk(&self, dart: usize) -> Result<Walk, Refusal> {
        let mut out = [0; 3];
        Refusal::of(raw::walk(&self.bytes, dart as u64, &mut out))?;
        let [last, ending, moves] = out.map(index);
        let ending = if ending == 0 { Ending::Home } else { Ending::Loose };
        Ok(Walk { last, ending, moves })
    }

    /// A walker that starts at a dart.
    ///
    /// # Errors
    ///
    /// [`Refusal::NoDart`] where the dart is absent.
    ///
    /// ```
    /// use reach::{Map, Point};
    ///
    /// let mut map = Map::new();
    /// map.offer(Point { x: 0, y: 0 })?;
    /// map.offer(Point { x: 4, y: 0 })?;
    /// assert_eq!(map.walker(0)?.by_edge().dart(), 3);
    /// assert_eq!(map.walker(0)?.by_edge().by_point().dart(), 2);
    /// # Ok::<(), reach::Refusal>(())
    /// ```
    pub fn walker(&self, dart: usize) -> Result<Walker<'_>, Refusal> {
        let mut out = [0];
        Refusal::of(raw::walker(&self.bytes, dart as u64, &mut out))?;
        Ok(Walker { map: self, dart: index(out[0]) })
    }

    fn moved(&self, link: fn(&[u8], u64, &mut [u64]) -> u32, dart: usize) -> usize {
        let mut out = [0];
        served(link(&self.bytes, dart as u64, &mut out));
        index(out[0])
    }

    /// Places a query point.
    ///
    /// # Errors
    ///
    /// [`Refusal::OutOfRange`] where the point is out of range.
    ///
    /// ```
    /// use reach::{Map, Placed, Point};
    ///
    /// let mut map = Map::new();
    /// for (x, y) in [(0, 0), (4, 0), (1, 3)] {
    ///     map.offer(Point { x, y })?;
    /// }
    /// assert_eq!(map.place(Point { x: 4, y: 0 }), Ok(Placed::Corner(1)));
    /// assert_eq!(map.place(Point { x: 2, y: 0 }), Ok(Placed::Edge { start: 0, end: 1 }));
    /// assert_eq!(map.place(Point { x: 1, y: 1 }), Ok(Placed::Inside));
    /// assert_eq!(map.place(Point { x: 9, y: 9 }), Ok(Placed::Outside { visible: 1 }));
    /// # Ok::<(), reach::Refusal>(())
    /// ```
    pub fn place(&self, point: Point) -> Result<Placed, Refusal> {
        let mut out = [0; 3];
        Refusal::of(raw::place(&self.bytes, point.x, point.y, &mut out))?;
        let [kind, first, second] = out.map(index);
        Ok(match kind {
            0 => Placed::NoOutline,
            1 => Placed::Corner(first),
            2 => Placed::Edge { start: first, end: second },
            3 => Placed::Inside,
            _ => Placed::Outside { visible: first },
        })
    }

    /// The point numbers of the corners, anticlockwise from the smallest y, then the smallest x.
    ///
    /// ```
    /// use reach::{Map, Point};
    ///
    /// let mut map = Map::new();
    /// for (x, y) in [(4, 0), (1, 3), (0, 0), (2, 1)] {
    ///     map.offer(Point { x, y })?;
    /// }
    /// assert_eq!(map.corners(), [2, 0, 1]);
    /// # Ok::<(), reach::Refusal>(())
    /// ```
    pub fn corners(&self) -> Vec<usize> {
        let mut corners = vec![0; self.len()];
        let mut length = [0];
        served(raw::corners(&self.bytes, &mut corners, &mut length));
        corners.truncate(index(length[0]));
        corners.into_iter().map(index).collect()
    }

    /// The outline as OGC Simple Features text (WKT), which [`read_outline`](crate::read_outline)
    /// reads: the corners in the order of [`Map::corners`], and of three or more the first again at
    /// the end.
    ///
    /// ```
    /// use reach::{Map, Point};
    ///
    /// let mut map = Map::new();
    /// assert_eq!(map.outline_text(), "POLYGON EMPTY");
    /// map.offer(Point { x: 0, y: 0 })?;
    /// assert_eq!(map.outline_text(), "POINT (0 0)");
    /// map.offer(Point { x: 4, y: 0 })?;
    /// assert_eq!(map.outline_text(), "LINESTRING (0 0, 4 0)");
    /// for (x, y) in [(1, 3), (5, 4), (2, 1), (6, 7)] {
    ///     map.offer(Point { x, y })?;
    /// }
    /// assert_eq!(map.outline_text(), "POLYGON ((0 0, 4 0, 6 7, 1 3, 0 0))");
    /// # Ok::<(), reach::Refusal>(())
    /// ```
    pub fn outline_text(&self) -> String {
        let mut text = vec![0; OUTLINE_BYTES];
        let mut length = [0];
        served(raw::write_outline(&self.bytes, &mut text, &mut length));
        text.truncate(usize::try_from(length[0]).expect("the length of a list"));
        String::from_utf8(text).expect("a text of ASCII")
    }

    /// Twice the area of the outline: the sum of orientations over a fan of triangles from the
    /// corner at a place of [`Map::corners`]. It is the same from each corner, and from 0 to
    /// 8 × 10^18. Fewer than three points give 0 for any place.
    ///
    /// # Errors
    ///
    /// [`Refusal::NoDart`] where there are three points or more, and the place is not below the
    /// number of corners.
    ///
    /// ```
    /// use reach::{Map, Point, Refusal};
    ///
    /// let mut map = Map::new();
    /// assert_eq!(map.doubled_area(4), Ok(0));
    /// for (x, y) in [(0, 0), (4, 0), (1, 3), (5, 4), (2, 1), (6, 7)] {
    ///     map.offer(Point { x, y })?;
    /// }
    /// assert_eq!(map.corners().len(), 4);
    /// assert_eq!([0, 1, 2, 3].map(|place| map.doubled_area(place)), [Ok(39); 4]);
    /// assert_eq!(map.doubled_area(4), Err(Refusal::NoDart));
    /// # Ok::<(), reach::Refusal>(())
    /// ```
    pub fn doubled_area(&self, place: usize) -> Result<i64, Refusal> {
        let mut out = [0];
        Refusal::of(raw::area(&self.bytes, place as u64, &mut out))?;
        Ok(out[0])
    }
}

impl Default for Map {
    fn default() -> Self {
        Map::new()
    }
}
