"""The editor's page at the hub, in a Chromium: signing in, each person with his views and buttons, and what another changes shown at
once."""
import os
import unittest

import browser
from hubs import HubAt
from packages import wants

# Where pictures are put, if anywhere.
PICTURES = os.environ.get("CIGRELK_PICTURES")
NEW = {"track": "New", "rating": 2, "album": "Wish", "quantity": 5}


@wants("chromium", "python3-aiohttp")
class Page(unittest.TestCase):
    """Two browsers serve all tests, since their starts take longer than the tests."""

    @classmethod
    def setUpClass(cls):
        cls.pages = browser.Browser(), browser.Browser()
        for page in cls.pages:
            cls.addClassCleanup(page.close)

    def setUp(self):
        for page in self.pages:
            page.faults.clear()
            page.call("Page.navigate", url="about:blank")
            page.wait("location.protocol === 'about:'")

    def picture(self, page, name):
        if PICTURES:
            page.picture(f"{PICTURES}/{name}.png")

    def sign_in(self, page, hub, who):
        page.call("Page.navigate", url=f"http://127.0.0.1:{hub.port}/#token={hub.tokens[who]}")
        page.wait("state.view && !busy")
        self.assertFalse(page.run("location.href.includes('token')"))
        self.assertEqual(page.run("document.getElementById('person')?.textContent"), f"Signed in as {who} Sign out")
        # (what shows comes by the stream of events, and not by looking now and then)
        page.run("window.setInterval = () => 0; for (let it = 0; it < 1000; it++) clearInterval(it); 1")

    def test_two_people_see_each_others_edits(self):
        """Ann has a window alone, and Bob all tables."""
        with HubAt({"ann": ["stock=read,preview,edit", "undo"], "bob": ["*=read,preview,edit", "define", "undo"]}) as hub:
            ann, bob = self.pages
            self.sign_in(ann, hub, "ann"), self.sign_in(bob, hub, "bob")
            self.assertEqual(ann.run("definitions.map((it) => it.name).join()"), "stock")
            self.assertEqual(bob.run("definitions.map((it) => it.name).join()"), "tracks,albums,stock")
            self.assertEqual([page.run("document.getElementById('defining').hidden") for page in (ann, bob)], [True, False])
            # Bob's edit shows with Ann.
            bob.run("open('stock')")
            bob.wait("state.view === 'stock'")
            bob.run("""step(({ put }) => { const row = state.rows.find((row) => row.old.includes('Trust')); put(row, row.old.map((cell) => cell === '4' ? '1' : cell)); })""")
            bob.wait("state.preview && state.preview.some(({ table }) => table === 'tracks')")
            bob.run("save()")
            ann.wait("state.rows.some((row) => row.old.includes('Trust') && row.old.includes('1'))")
            # Ann's edit tells of the window alone, and shows with Bob.
            ann.run("""step(({ put }) => { const row = state.rows.find((row) => row.old.includes('Trust')); put(row, row.old.map((cell) => cell === '1' ? '2' : cell)); })""")
            ann.wait("state.preview && state.preview.length === 1 && state.preview[0].table === 'stock'")
            self.picture(ann, "ann_before_save"), self.picture(bob, "bob_before_save")
            ann.run("save()")
            ann.wait("state.said.startsWith('Saved')")
            bob.wait("state.rows.some((row) => row.old.includes('Trust') && row.old.includes('2'))")
            self.picture(ann, "ann"), self.picture(bob, "bob")
            ann.run("undo()")
            bob.wait("state.rows.some((row) => row.old.includes('Trust') && row.old.includes('1'))")
            self.assertNotIn("Galore", ann.run("document.body.textContent"))
            self.assertEqual([page.faults for page in (ann, bob)], [[], []])

    def test_buttons_are_those_of_the_rights(self):
        """Dan may read, and no more, until he gets other rights while he looks."""
        page, _ = self.pages
        with HubAt({"dan": ["stock=read"]}) as hub:
            self.sign_in(page, hub, "dan")
            hidden = lambda: [page.run(f"document.getElementById('{name}').hidden") for name in ("add", "save", "undo", "defining")]
            self.assertEqual(hidden(), [True, True, True, True])
            self.assertEqual(hub.ask("root", "POST", "/views/stock/edit", {"add": [NEW]})[0], 200)
            page.wait("state.rows.some((row) => row.old.includes('New'))")
            self.picture(page, "dan_reads")
            hub.grant("dan", "stock=read,preview,edit", "undo")
            hub.reload()
            page.wait("!document.getElementById('save').hidden")
            self.assertEqual(hidden(), [False, False, False, True])

    def test_signing_in(self):
        page, _ = self.pages
        with HubAt({"ann": ["stock=read,preview,edit", "undo"]}) as hub:
            page.call("Page.navigate", url=f"http://127.0.0.1:{hub.port}/")
            page.wait("document.querySelector('#sign-in[open]')")
            page.run("document.getElementById('token').value = 'no such token'")
            page.click("#sign-in button")
            page.wait("document.getElementById('token-fault').textContent === 'The hub does not know this token.'")
            self.picture(page, "sign_in")
            page.run("document.getElementById('token').value = ''; document.getElementById('token').focus()")
            page.type(hub.tokens["ann"])
            page.key("Enter")
            page.wait("state.view === 'stock' && state.rows.length === 3")
            # A token that is taken away is asked for again, and the page goes on with another.
            hub.tokens["ann"] = hub.users.new_token("ann")
            hub.reload()
            page.run("look(); 1")
            page.wait("document.querySelector('#sign-in[open]')")
            page.run("document.getElementById('token').focus()")
            page.type(hub.tokens["ann"])
            page.key("Enter")
            page.wait("!document.querySelector('#sign-in')")
            self.assertEqual(hub.ask("root", "POST", "/views/stock/edit", {"add": [NEW]})[0], 200)
            page.wait("state.rows.some((row) => row.old.includes('New'))")
            self.assertEqual(page.faults, [])


if __name__ == "__main__":
    unittest.main()
