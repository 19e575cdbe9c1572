//! The tables of stock.rs in SQLite, in memory, as a mark to compare with. What it does not check stands there; SQLite itself
//! checks the keys. They are the only indexes: one by album would make reads cheaper, and loads and edits dearer. Build it by `rustc --edition 2021 -O` with the system's libsqlite3 (Debian: libsqlite3-dev).
mod stock;

use std::ffi::{c_char, c_int, c_void, CString};
use std::{io, ptr, slice, str};
use stock::{Album, Change, Stock, Tables, Track};

#[link(name = "sqlite3")]
unsafe extern "C" {
    fn sqlite3_open_v2(path: *const c_char, database: *mut *mut c_void, flags: c_int, system: *const c_char) -> c_int;
    fn sqlite3_prepare_v2(database: *mut c_void, text: *const c_char, size: c_int, made: *mut *mut c_void, rest: *mut *const c_char) -> c_int;
    fn sqlite3_bind_int64(statement: *mut c_void, place: c_int, value: i64) -> c_int;
    fn sqlite3_bind_text(statement: *mut c_void, place: c_int, text: *const u8, size: c_int, free: *const c_void) -> c_int;
    fn sqlite3_step(statement: *mut c_void) -> c_int;
    fn sqlite3_reset(statement: *mut c_void) -> c_int;
    fn sqlite3_column_int64(statement: *mut c_void, place: c_int) -> i64;
    fn sqlite3_column_text(statement: *mut c_void, place: c_int) -> *const u8;
    fn sqlite3_column_bytes(statement: *mut c_void, place: c_int) -> c_int;
}

const ROW: c_int = 100;
const DONE: c_int = 101;
/// To be read, written and made, for one thread alone.
const FLAGS: c_int = 2 | 4 | 0x8000;

enum Value<'a> {
    Number(i64),
    Text(&'a str),
}
use Value::{Number, Text};

struct Statement(*mut c_void);

impl Statement {
    fn new(database: *mut c_void, text: &str) -> Self {
        let (text, mut made) = (CString::new(text).expect("a text"), ptr::null_mut());
        // SAFETY: the text ends with a zero, and lives until this returns.
        let status = unsafe { sqlite3_prepare_v2(database, text.as_ptr(), -1, &mut made, ptr::null_mut()) };
        assert_eq!(status, 0, "{text:?}");
        Statement(made)
    }

    /// Runs it with these values, and shows each of its rows.
    fn each(&self, values: &[Value], mut see: impl FnMut(&Self)) {
        // SAFETY: the values outlive the steps, and nothing is read of them after the reset.
        unsafe {
            for (place, value) in (1..).zip(values) {
                match value {
                    Number(it) => sqlite3_bind_int64(self.0, place, *it),
                    Text(it) => sqlite3_bind_text(self.0, place, it.as_ptr(), it.len() as c_int, ptr::null()),
                };
            }
            let mut status = sqlite3_step(self.0);
            while status == ROW {
                see(self);
                status = sqlite3_step(self.0);
            }
            assert_eq!(status, DONE, "SQLite failed");
            sqlite3_reset(self.0);
        }
    }

    fn run(&self, values: &[Value]) {
        self.each(values, |_| ());
    }

    fn number(&self, column: c_int) -> i64 {
        // SAFETY: only called while a row is shown, with a column that it has.
        unsafe { sqlite3_column_int64(self.0, column) }
    }

    fn text(&self, column: c_int) -> &str {
        // SAFETY: the same; the text lasts until the next step, and is UTF-8 since it came as such.
        unsafe {
            let bytes = sqlite3_column_text(self.0, column);
            str::from_utf8_unchecked(slice::from_raw_parts(bytes, sqlite3_column_bytes(self.0, column) as usize))
        }
    }
}

struct Database {
    begin: Statement,
    commit: Statement,
    quantity: Statement,
    rows_of: Statement,
    show: Statement,
    add_album: Statement,
    update_album: Statement,
    add: Statement,
    remove: Statement,
    update: Statement,
}

impl Database {
    fn in_memory() -> Self {
        let mut database = ptr::null_mut();
        // SAFETY: the path ends with a zero.
        let status = unsafe { sqlite3_open_v2(c":memory:".as_ptr(), &mut database, FLAGS, ptr::null()) };
        assert_eq!(status, 0, "SQLite does not open");
        let made = |text| Statement::new(database, text);
        made("CREATE TABLE albums (album TEXT PRIMARY KEY, quantity INTEGER NOT NULL) STRICT, WITHOUT ROWID").run(&[]);
        made("CREATE TABLE tracks (album TEXT, date INTEGER NOT NULL, rating INTEGER NOT NULL, track TEXT, PRIMARY KEY (track, album)) STRICT, WITHOUT ROWID").run(&[]);
        Database {
            begin: made("BEGIN"),
            commit: made("COMMIT"),
            quantity: made("SELECT quantity FROM albums WHERE album = ?"),
            rows_of: made("SELECT album, date, rating FROM tracks WHERE track = ? ORDER BY album"),
            show: made("SELECT album, quantity, rating, track FROM tracks JOIN albums USING (album) WHERE quantity > 2 ORDER BY 1, 2, 3, 4"),
            add_album: made("INSERT INTO albums (album, quantity) VALUES (?, ?)"),
            update_album: made("UPDATE albums SET quantity = ?2 WHERE album = ?1"),
            add: made("INSERT INTO tracks (track, album, date, rating) VALUES (?, ?, ?, ?)"),
            remove: made("DELETE FROM tracks WHERE track = ? AND album = ?"),
            update: made("UPDATE tracks SET date = ?3, rating = ?4 WHERE track = ?1 AND album = ?2"),
        }
    }
}

impl Tables for Database {
    fn quantity(&self, album: &str) -> Option<i64> {
        let mut found = None;
        self.quantity.each(&[Text(album)], |row| found = Some(row.number(0)));
        found
    }

    fn rows_of(&self, track: &str) -> Vec<Track> {
        let mut found = Vec::new();
        self.rows_of.each(&[Text(track)], |row| {
            found.push(Track { album: row.text(0).to_owned(), date: row.number(1), rating: row.number(2), track: track.to_owned() });
        });
        found
    }

    fn show(&self, see: &mut dyn FnMut(Stock)) {
        self.show.each(&[], |row| see(Stock { album: row.text(0), quantity: row.number(1), rating: row.number(2), track: row.text(3) }));
    }

    fn make(&mut self, albums: &Change<Album>, tracks: &Change<Track>) {
        let of_album = |statement: &Statement, row: &Album| statement.run(&[Text(row.album), Number(row.quantity)]);
        let of_track = |statement: &Statement, row: &Track| statement.run(&[Text(&row.track), Text(&row.album), Number(row.date), Number(row.rating)]);
        self.begin.run(&[]);
        albums.added.iter().for_each(|it| of_album(&self.add_album, it));
        albums.changed.iter().for_each(|it| of_album(&self.update_album, &it.1));
        tracks.removed.iter().for_each(|it| self.remove.run(&[Text(&it.track), Text(&it.album)]));
        tracks.added.iter().for_each(|it| of_track(&self.add, it));
        tracks.changed.iter().for_each(|it| of_track(&self.update, &it.1));
        self.commit.run(&[]);
    }
}

fn main() -> io::Result<()> {
    stock::serve(Database::in_memory())
}
