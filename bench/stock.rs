//! What by_hand.rs and by_sqlite.rs share. It reads the lines that bench/ sends about tables of albums and tracks and a view
//! over them, tells what an edit changes in the tables, and writes the replies of Cigrelk, byte for byte.
//!
//! It serves no other lines, and checks nothing: it reads texts without escapes, commas or braces, takes each row for one that
//! fits the view, its dependencies and the others of its line, and a table only takes rows that it lacks. It keeps nothing
//! of the version but its number, and nothing to undo. No proof says that it is right.
use std::fmt::{self, Display, Write};
use std::io::{self, BufRead, Write as _};

#[derive(PartialEq, Eq, PartialOrd, Ord)]
pub struct Album<'a> {
    pub album: &'a str,
    pub quantity: i64,
}

#[derive(Clone, PartialEq, Eq, PartialOrd, Ord)]
pub struct Track {
    pub album: String,
    pub date: i64,
    pub rating: i64,
    pub track: String,
}

/// A row of the view: the tracks of albums of which there are more than two, without dates.
#[derive(PartialEq, Eq, PartialOrd, Ord)]
pub struct Stock<'a> {
    pub album: &'a str,
    pub quantity: i64,
    pub rating: i64,
    pub track: &'a str,
}

/// What changes in a table. The two rows of a pair, the old and the new one, have the same key.
pub struct Change<R> {
    pub added: Vec<R>,
    pub removed: Vec<R>,
    pub changed: Vec<(R, R)>,
}

/// The tables. The key of an album is its name, and that of a row of tracks the track with the album.
pub trait Tables {
    fn quantity(&self, album: &str) -> Option<i64>;
    fn rows_of(&self, track: &str) -> Vec<Track>;
    /// Shows the rows of the view, rising.
    fn show(&self, see: &mut dyn FnMut(Stock));
    /// Makes both changes as one.
    fn make(&mut self, albums: &Change<Album>, tracks: &Change<Track>);
}

impl Display for Album<'_> {
    fn fmt(&self, f: &mut fmt::Formatter) -> fmt::Result {
        write!(f, r#"{{"album":"{}","quantity":{}}}"#, self.album, self.quantity)
    }
}

impl Display for Track {
    fn fmt(&self, f: &mut fmt::Formatter) -> fmt::Result {
        write!(f, r#"{{"album":"{}","date":{},"rating":{},"track":"{}"}}"#, self.album, self.date, self.rating, self.track)
    }
}

impl Display for Stock<'_> {
    fn fmt(&self, f: &mut fmt::Formatter) -> fmt::Result {
        write!(f, r#"{{"album":"{}","quantity":{},"rating":{},"track":"{}"}}"#, self.album, self.quantity, self.rating, self.track)
    }
}

/// The text under this name, the first in a request.
fn word<'a>(line: &'a str, name: &str) -> &'a str {
    let start = line.find(&format!("\"{name}\":\"")).expect("the member") + name.len() + 4;
    line[start..].split('"').next().expect("a text")
}

/// What is inside the objects of the list under this name.
fn objects<'a>(line: &'a str, list: &str) -> impl Iterator<Item = &'a str> {
    let start = line.find(&format!("\"{list}\":[")).expect("the list") + list.len() + 4;
    let mut rest = &line[start..];
    std::iter::from_fn(move || {
        let (inside, behind) = rest.strip_prefix('{')?.split_once('}').expect("the end of an object");
        rest = behind.strip_prefix(',').unwrap_or(behind);
        Some(inside)
    })
}

fn text<'a>(object: &'a str, name: &str) -> &'a str {
    let mut members = object.split(',').map(|it| it.split_once(':').expect("a member"));
    members.find(|it| it.0.trim_matches('"') == name).expect("the member").1.trim_matches('"')
}

fn number(object: &str, name: &str) -> i64 {
    text(object, name).parse().expect("a number")
}

fn album(object: &str) -> Album<'_> {
    Album { album: text(object, "album"), quantity: number(object, "quantity") }
}

fn track(object: &str) -> Track {
    let text = |name| text(object, name).to_owned();
    Track { album: text("album"), date: number(object, "date"), rating: number(object, "rating"), track: text("track") }
}

fn stock(object: &str) -> Stock<'_> {
    let (album, track) = (text(object, "album"), text(object, "track"));
    Stock { album, quantity: number(object, "quantity"), rating: number(object, "rating"), track }
}

fn adding<R>(added: Vec<R>) -> Change<R> {
    Change { added, removed: Vec::new(), changed: Vec::new() }
}

/// What changes in the tables where the view loses rows, which are told by album and track, and gains rows.
fn planned<'a>(tables: &impl Tables, lost: &[(String, String)], gained: &[Stock<'a>]) -> (Change<Album<'a>>, Change<Track>) {
    let (mut albums, mut tracks) = (adding(Vec::new()), adding(Vec::new()));
    for &Stock { album, quantity, rating, track } in gained {
        let new = Album { album, quantity };
        match tables.quantity(album) {
            None => albums.added.push(new),
            Some(old) if old != quantity => albums.changed.push((Album { album, quantity: old }, new)),
            _ => {}
        }
        let known = tables.rows_of(track);
        if !known.iter().any(|it| it.album == album) {
            let date = known.first().map_or(2018, |it| it.date);
            tracks.added.push(Track { album: album.to_owned(), date, rating, track: track.to_owned() });
        }
        tracks.changed.extend(known.into_iter().filter(|it| it.rating != rating).map(|old| {
            let new = Track { rating, ..old.clone() };
            (old, new)
        }));
    }
    for (album, track) in lost {
        if !gained.iter().any(|it| it.album == album && it.track == track) {
            tracks.removed.extend(tables.rows_of(track).into_iter().filter(|it| it.album == *album));
        }
    }
    (albums, tracks)
}

/// The rows that the view loses and gains where it is to show these.
fn difference<'a>(tables: &impl Tables, mut rows: Vec<Stock<'a>>) -> (Vec<(String, String)>, Vec<Stock<'a>>) {
    rows.sort();
    rows.dedup();
    let (mut lost, mut gained) = (Vec::new(), Vec::new());
    let mut rows = rows.into_iter().peekable();
    tables.show(&mut |shown| {
        while let Some(row) = rows.next_if(|it| *it < shown) {
            gained.push(row);
        }
        if rows.next_if(|it| *it == shown).is_none() {
            lost.push((shown.album.to_owned(), shown.track.to_owned()));
        }
    });
    gained.extend(rows);
    (lost, gained)
}

/// What a change of rows, or its preview, asks of the tables.
fn asked<'a>(tables: &impl Tables, what: &str, line: &'a str) -> (Change<Album<'a>>, Change<Track>) {
    match word(line, "view") {
        "albums" => (adding(objects(line, "add").map(album).collect()), adding(Vec::new())),
        "tracks" => (adding(Vec::new()), adding(objects(line, "add").map(track).collect())),
        _ if what == "put" => {
            let (lost, gained) = difference(tables, objects(line, "rows").map(stock).collect());
            planned(tables, &lost, &gained)
        }
        _ => {
            let key = |it| (text(it, "album").to_owned(), text(it, "track").to_owned());
            let lost: Vec<_> = objects(line, "remove").map(key).collect();
            planned(tables, &lost, &objects(line, "add").map(stock).collect::<Vec<_>>())
        }
    }
}

fn push_rows<'a, R: Display + Ord + 'a>(out: &mut String, rows: impl Iterator<Item = &'a R>) -> fmt::Result {
    let mut rows: Vec<&R> = rows.collect();
    rows.sort();
    for (place, row) in rows.iter().enumerate() {
        write!(out, "{}{row}", if place == 0 { "" } else { "," })?;
    }
    Ok(())
}

/// Appends what changes in a table, and returns whether anything does.
fn push_change<R: Display + Ord>(out: &mut String, comma: &str, table: &str, change: &Change<R>) -> Result<bool, fmt::Error> {
    let Change { added, removed, changed } = change;
    if added.is_empty() && removed.is_empty() && changed.is_empty() {
        return Ok(false);
    }
    write!(out, "{comma}{{\"add\":[")?;
    push_rows(out, added.iter().chain(changed.iter().map(|it| &it.1)))?;
    out.push_str("],\"remove\":[");
    push_rows(out, removed.iter().chain(changed.iter().map(|it| &it.0)))?;
    write!(out, "],\"table\":\"{table}\"}}")?;
    Ok(true)
}

/// Appends the reply to a line.
fn answer(tables: &mut impl Tables, version: &mut u64, line: &str, out: &mut String) -> fmt::Result {
    match word(line, "do") {
        "define" => {
            *version += 1;
            out.push_str("{\"ok\":true");
        }
        "read" => {
            out.push_str("{\"ok\":true,\"rows\":[");
            let (mut comma, mut written) = ("", Ok(()));
            tables.show(&mut |row| {
                written = written.and(write!(out, "{comma}{row}"));
                comma = ",";
            });
            written?;
            out.push(']');
        }
        what => {
            let (albums, tracks) = asked(tables, what, line);
            out.push_str("{\"changed\":[");
            let first = push_change(out, "", "albums", &albums)?;
            let second = push_change(out, if first { "," } else { "" }, "tracks", &tracks)?;
            if what != "preview" && (first || second) {
                tables.make(&albums, &tracks);
                *version += 1;
            }
            out.push_str("],\"ok\":true");
        }
    }
    writeln!(out, ",\"version\":{version}}}")
}

/// Answers the lines of standard input.
pub fn serve(mut tables: impl Tables) -> io::Result<()> {
    let (mut version, mut out) = (0, String::new());
    for line in io::stdin().lock().lines() {
        answer(&mut tables, &mut version, &line?, &mut out).expect("room for the reply");
        io::stdout().write_all(out.as_bytes())?;
        out.clear();
    }
    Ok(())
}
