-- Tables for the page docs/SQL.md: five tables of a shop, as psql makes them.
CREATE TABLE customers (id bigint PRIMARY KEY, name text NOT NULL, email text);
CREATE TABLE orders (id bigint PRIMARY KEY, customer_id bigint NOT NULL REFERENCES customers, status text NOT NULL);
CREATE TABLE products (code uuid PRIMARY KEY, product text NOT NULL, price numeric(8,2) NOT NULL);
CREATE TABLE lines (order_id bigint REFERENCES orders, line bigint, code uuid NOT NULL REFERENCES products, PRIMARY KEY (order_id, line));
CREATE TABLE visits (day date, visitors bigint NOT NULL);
INSERT INTO customers VALUES (3, 'Bob', 'bob@example'), (4, 'Ann', NULL);
INSERT INTO orders VALUES (1, 3, 'paid'), (2, 3, 'paid'), (3, 4, 'new'), (4, 4, 'paid');
INSERT INTO products VALUES ('6ba7b810-9dad-11d1-80b4-00c04fd430c8', 'axe', 9.50);
INSERT INTO lines VALUES (1, 1, '6ba7b810-9dad-11d1-80b4-00c04fd430c8');
INSERT INTO visits VALUES ('2026-03-01', 17);
