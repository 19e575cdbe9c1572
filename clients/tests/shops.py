"""A shop of four tables, with views over chains of joins, for tests."""

DEFINITIONS = [
    "table customers (customer_id int, name text, zip text, city text) with customer_id -> name zip, zip -> city",
    "table products (id int, name text, price int, stock int) with id -> name price stock where price >= 0",
    "table orders (order_id int, customer_id int, placed text, status text) with order_id -> customer_id placed status",
    "table lines (line_id int, order_id int, product_id int, note text null) with line_id -> order_id product_id note",
    "view goods = drop stock determined by (product_id, 0) from (rename id to product_id from (rename name to product from products))",
    "view sales = join_dl (join_dl (join_dl lines with orders) with customers) with goods",
    "view open_sales = select from sales where status = 'open'",
]
ROWS = {
    "customers": [[1, "Ada Vogel", "10115", "Berlin"], [2, "Ben Ortiz", "10115", "Berlin"], [3, "Cem Aydin", "20095", "Hamburg"]],
    "products": [[1, "kettle", 3490, 12], [2, "teapot", 2750, 7], [3, "oak tray", 4200, 2], [4, "cup", 650, 90]],
    "orders": [[100, 1, "2026-11-02", "open"], [101, 3, "2026-11-05", "open"], [102, 2, "2026-10-20", "shipped"]],
    "lines": [[1, 100, 1, None], [2, 100, 2, "as a gift"], [3, 101, 2, None], [4, 101, 4, None], [5, 102, 1, None], [6, 102, 3, None]],
}
COLUMNS = {
    "customers": ["customer_id", "name", "zip", "city"], "products": ["id", "name", "price", "stock"],
    "orders": ["order_id", "customer_id", "placed", "status"], "lines": ["line_id", "order_id", "product_id", "note"],
}
# What `open_sales` shows of them.
OPEN = [
    [1, 100, 1, None, 1, "2026-11-02", "open", "Ada Vogel", "10115", "Berlin", "kettle", 3490],
    [2, 100, 2, "as a gift", 1, "2026-11-02", "open", "Ada Vogel", "10115", "Berlin", "teapot", 2750],
    [3, 101, 2, None, 3, "2026-11-05", "open", "Cem Aydin", "20095", "Hamburg", "teapot", 2750],
    [4, 101, 4, None, 3, "2026-11-05", "open", "Cem Aydin", "20095", "Hamburg", "cup", 650],
]
OPEN_COLUMNS = ["line_id", "order_id", "product_id", "note", "customer_id", "placed", "status", "name", "zip", "city", "product", "price"]


def fill(server):
    """Defines the shop in a server that has nothing yet, and adds its rows."""
    for text in DEFINITIONS:
        server.define(text)
    for table, rows in ROWS.items():
        server[table].edit(add=[dict(zip(COLUMNS[table], row)) for row in rows])
