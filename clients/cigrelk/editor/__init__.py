"""The editor: tables and views in the browser."""
