"""The examples on the pages of the clients do what stands there."""
import os
import re
import subprocess
import sys
import tempfile
import unittest

HERE = os.path.dirname(os.path.abspath(__file__))
CLIENTS = os.path.dirname(HERE)
sys.path[:0] = [CLIENTS, HERE]
from cigrelk import TOP
from run import said

try:
    import pandas
except ImportError:
    pandas = None


def blocks(page, beginning):
    """The blocks of a page that begin so."""
    with open(f"{TOP}/docs/{page}.md", encoding="utf-8") as file:
        return [text for text in re.findall(r"```[a-z]*\n(.*?)```", file.read(), re.S) if text.startswith(beginning)]


class Pages(unittest.TestCase):
    def setUp(self):
        room = tempfile.TemporaryDirectory()
        self.addCleanup(room.cleanup)
        self.room = room.name

    def run_it(self, words, text=""):
        return subprocess.run(words, input=text, capture_output=True, text=True, cwd=self.room, env={**os.environ, "PYTHONPATH": CLIENTS})

    def test_python(self):
        first, second = blocks("PYTHON", "from cigrelk")
        told = re.search(r"print\(refusal\) +# (.*)", first)[1]
        if not pandas:
            # The lines that want it are the last ones.
            first = first[: first.index("    frame =")]
        done = self.run_it([sys.executable, "-c", first])
        self.assertEqual((done.stdout, said(done.stderr)), (f"{told}\n", ""))
        told = re.search(r"print\(server.names\(\)\) +# (.*)", second)[1]
        done = self.run_it([sys.executable, "-c", second])
        self.assertEqual((done.stdout.splitlines()[0], said(done.stderr)), (told, ""))

    def test_shell(self):
        (session,) = blocks("SHELL", "$ ./cigrelk shell")
        _, *lines = session.splitlines()
        commands = [line[2:] for line in lines if line.startswith("> ")]
        done = self.run_it([f"{TOP}/cigrelk", "shell", "shop.db"], "".join(f"{line}\n" for line in commands))
        self.assertEqual(done.stdout.splitlines(), [line for line in lines if not line.startswith("> ")])

    def test_what_the_page_of_the_shell_lists(self):
        rows = [("table goods (name text, quantity int) with name -> quantity", ""), ("add goods name=axe quantity=7", "+ goods"), ("table products (product_id int, product text) with product_id -> product", ""),
                ("table lines_of (line_id int, product_id int) with line_id -> product_id", ""), ("view lines = join_dl lines_of with products", ""), ("add products product_id=3 product=nail", "+ products"),
                ("add products product_id=4 product=saw", "+ products")]
        told = {"read goods where quantity>5 name!=axe": "(0 rows, version 7)", "read goods where quantity > 5 or name = 'axe'": "axe          7", "add lines line_id=7 product_id=3": "+ lines_of: line_id 7, product_id 3",
                "change lines line_id=7 set product_id=4": "+ lines_of: line_id 7, product_id 4", "delete lines line_id=7": "- lines_of: line_id 7, product_id 4", "shows goods name=axe": 'name "axe", quantity 7'}
        with open(f"{TOP}/docs/SHELL.md", encoding="utf-8") as file:
            page = file.read()
        for line in told:
            self.assertIn(f"`{line}`", page)
        done = self.run_it([f"{TOP}/cigrelk", "shell"], "".join(f"{line}\n" for line in [*(line for line, _ in rows), *told]))
        self.assertEqual(done.returncode, 0, done.stdout)
        at = 0
        for line, text in [*rows, *told.items()]:
            at = done.stdout.index(text, at) + len(text)

    def test_rebuild(self):
        self.run_it([f"{TOP}/cigrelk", "shell", "old.db"], 'table albums (album text, quantity int)\nadd albums album=Show quantity=3\n')
        with open(f"{self.room}/definitions.txt", "w") as file:
            file.write("table stock (title text, quantity int, price int)\n")
        printing, making = (text.split() for text in blocks("REBUILD", "./cigrelk rebuild"))
        self.assertEqual(printing[-2:], [">", "definitions.txt"])
        self.assertEqual(self.run_it([f"{TOP}/cigrelk", *printing[1:-2]]).stdout, "table albums (album text, quantity int)\n")
        done = self.run_it([f"{TOP}/cigrelk", *making[1:]])
        self.assertEqual((done.stdout, said(done.stderr)), ("stock: 1 rows of 1\n", ""))


if __name__ == "__main__":
    unittest.main()
