"""The way into Cigrelk and out of it: tables of PostgreSQL and SQLite, and files of CSV."""
