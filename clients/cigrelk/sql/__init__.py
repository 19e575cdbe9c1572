"""The compiler of definitions to SQL: tables, views, and the functions and triggers by which the views are edited in PostgreSQL."""
