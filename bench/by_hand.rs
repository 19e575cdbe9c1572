//! The tables of stock.rs in maps, written by hand in Rust as a mark to compare with. What it does not check stands there. Build
//! it by `rustc --edition 2021 -O`.
mod stock;

use std::collections::{BTreeMap, HashMap};
use std::io;
use stock::{Album, Change, Stock, Tables, Track};

/// An album, if the table of albums has it, and its rows of tracks: date and rating by track.
#[derive(Default)]
struct Shelf {
    quantity: Option<i64>,
    tracks: BTreeMap<String, (i64, i64)>,
}

#[derive(Default)]
struct Shelves {
    shelves: BTreeMap<String, Shelf>,
    albums_of: HashMap<String, Vec<String>>,
}

impl Shelves {
    fn shelf(&mut self, album: &str) -> &mut Shelf {
        if !self.shelves.contains_key(album) {
            self.shelves.insert(album.to_owned(), Shelf::default());
        }
        self.shelves.get_mut(album).expect("the shelf")
    }

    fn set(&mut self, row: &Track) {
        self.shelf(&row.album).tracks.insert(row.track.clone(), (row.date, row.rating));
    }
}

impl Tables for Shelves {
    fn quantity(&self, album: &str) -> Option<i64> {
        self.shelves.get(album)?.quantity
    }

    fn rows_of(&self, track: &str) -> Vec<Track> {
        let row = |album: &String| {
            let (date, rating) = self.shelves[album].tracks[track];
            Track { album: album.clone(), date, rating, track: track.to_owned() }
        };
        self.albums_of.get(track).map_or(Vec::new(), |albums| albums.iter().map(row).collect())
    }

    fn show(&self, see: &mut dyn FnMut(Stock)) {
        for (album, shelf) in &self.shelves {
            let Some(quantity) = shelf.quantity.filter(|it| *it > 2) else { continue };
            let mut rows: Vec<_> = shelf.tracks.iter().map(|(track, &(_, rating))| Stock { album, quantity, rating, track }).collect();
            rows.sort();
            rows.into_iter().for_each(&mut *see);
        }
    }

    fn make(&mut self, albums: &Change<Album>, tracks: &Change<Track>) {
        for row in albums.added.iter().chain(albums.changed.iter().map(|it| &it.1)) {
            self.shelf(row.album).quantity = Some(row.quantity);
        }
        for row in &tracks.removed {
            self.shelf(&row.album).tracks.remove(&row.track);
            self.albums_of.get_mut(&row.track).expect("its albums").retain(|it| *it != row.album);
        }
        for row in &tracks.added {
            self.set(row);
            self.albums_of.entry(row.track.clone()).or_default().push(row.album.clone());
        }
        tracks.changed.iter().for_each(|it| self.set(&it.1));
    }
}

fn main() -> io::Result<()> {
    stock::serve(Shelves::default())
}
