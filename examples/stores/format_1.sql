-- A store of format 1, as another program made it.
CREATE TABLE lens_format (number INTEGER NOT NULL) STRICT;
CREATE TABLE lens_defs (place INTEGER PRIMARY KEY, text TEXT NOT NULL) STRICT;
INSERT INTO lens_format VALUES (1);
INSERT INTO lens_defs VALUES (0, 'table tracks (track text, date int, rating int, album text) with track -> date rating'), (1, 'table albums (album text, quantity int) with album -> quantity'), (2, 'view stock = select from (drop date determined by (track, 2018) from (join_dl tracks with albums)) where quantity > 2');
CREATE TABLE t_tracks (c_album TEXT NOT NULL, c_date INTEGER NOT NULL, c_rating INTEGER NOT NULL, c_track TEXT NOT NULL, UNIQUE (c_album, c_date, c_rating, c_track)) STRICT;
INSERT INTO t_tracks VALUES ('Galore', 1989, 3, 'Lullaby'), ('Galore', 1989, 5, 'Lovesong'), ('Paris', 1989, 5, 'Lovesong'), ('Show', 1989, 3, 'Lullaby'), ('Wish', 1992, 4, 'Trust');
CREATE TABLE t_albums (c_album TEXT NOT NULL, c_quantity INTEGER NOT NULL, UNIQUE (c_album, c_quantity)) STRICT;
INSERT INTO t_albums VALUES ('Disintegration', 6), ('Galore', 1), ('Paris', 4), ('Show', 3), ('Wish', 5);
