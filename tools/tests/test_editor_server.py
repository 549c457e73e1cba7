"""The editor in a page: what its server answers, and to whom; and the command that starts it."""

import json
import signal
import subprocess
import sys
import threading
import unittest
from http.client import HTTPConnection

import editor
from companion.drawing import usual_fonts
from editing.pages import Pages
from editing.server import MOST_BYTES, Server
from tests.common import TOP, InFolder, needs_font_tools, run
from tests.editing import EMPTY, PROGRAM, NoStudio, SecondEngine, lacks

LACK = lacks("history", "paint")


class Serving(unittest.TestCase):
    """What the server answers, and to whom."""

    def setUp(self):
        self.pages = Pages(NoStudio(), EMPTY, SecondEngine, lambda: None)
        self.server = Server(self.pages)
        thread = threading.Thread(target=self.server.serve_forever, args=(0.05,), daemon=True)
        thread.start()
        self.addCleanup(thread.join)
        self.addCleanup(self.server.server_close)
        self.addCleanup(self.server.shutdown)

    def ask(self, method, path, body=None, **headers):
        """The status and what is answered; a path begins behind the token."""
        connection = HTTPConnection("127.0.0.1", self.server.server_address[1], timeout=60)
        self.addCleanup(connection.close)
        own = {"Origin": self.server.origin} if method == "POST" else {}
        data = json.dumps(body).encode() if isinstance(body, dict) else body
        named = {name.replace("_", "-"): value for name, value in headers.items()}
        path = path if path.startswith("/") else f"/{self.server.token}/{path}"
        connection.request(method, path, data, {name: value for name, value in {**own, **named}.items() if value is not None})
        answer = connection.getresponse()
        return answer.status, answer.read(), answer

    def test_the_page_and_its_parts(self):
        for path, kind in (("", "text/html"), ("editor.css", "text/css"), ("editor.js", "text/javascript")):
            status, data, answer = self.ask("GET", path)
            self.assertEqual((status, answer.headers["Content-Type"]), (200, f"{kind}; charset=utf-8"))
            self.assertIn("default-src 'none'", answer.headers["Content-Security-Policy"])
            self.assertNotIn(b"http", data.replace(b"http://www.w3.org/2000/svg", b""))

    def test_others_are_refused(self):
        body = {"page": "a"}
        foreign = "http://example.org"
        for what, path, headers, wanted in (
                ("another origin", "open", {"Origin": foreign}, 403), ("no origin", "open", {"Origin": None}, 403),
                ("a null origin", "open", {"Origin": "null"}, 403), ("another port", "open", {"Origin": "http://127.0.0.1:1"}, 403),
                ("another site", "open", {"Sec_Fetch_Site": "cross-site"}, 403), ("another name", "open", {"Host": "localhost:80"}, 403),
                ("no token", "/open", {}, 404), ("a wrong token", "/x/open", {}, 404),
                ("half a token", f"/{self.server.token[:9]}/open", {}, 404)):
            with self.subTest(what):
                status, data, answer = self.ask("POST", path, body, **headers)
                self.assertEqual(status, wanted, data)
                self.assertIn("error", json.loads(data))
                self.assertNotIn("Access-Control-Allow-Origin", answer.headers)
        for headers in ({"Origin": foreign}, {"Sec_Fetch_Site": "cross-site"}, {"Host": "evil.example"}):
            self.assertEqual(self.ask("GET", "", **headers)[0], 403)
        self.assertEqual(self.pages.pages, {})

    def test_no_path_is_taken_from_a_request(self):
        for path in ("../editor.py", "editor.html", "%2e%2e/editor.py", "./editor.js", "editor.js?x", "/etc/passwd", "//etc/passwd",
                     "editor.js/..", "editor.js%00"):
            with self.subTest(path):
                self.assertEqual(self.ask("GET", path)[0], 404)

    def test_what_is_no_call(self):
        events = [[{"key": ""}], [{"point": [1, 1e99]}], [{}], [{"key": "a", "paste": "b"}], [{"key": "\ud800"}], [5], {}, [{"key": "a"}] * 1001,
                  [{"choose": "1"}], [{"key": "a", "extend": 1}]]
        for name, body, wanted in (
                ("open", b"", 400), ("open", b"[]", 400), ("open", b"[" * 100_000, 400), ("open", {"page": ""}, 400),
                ("open", {"page": "x" * 65}, 400), ("open", {"page": "\ud800"}, 400), ("do", {"page": "a"}, 400), ("none", {"page": "a"}, 404),
                ("copy", {"page": "a", "what": "/etc/passwd"}, 400), ("do", {"page": "a", "number": "1", "events": []}, 400),
                *(("do", {"page": "a", "number": 1, "events": each}, 400) for each in events)):
            with self.subTest(body):
                self.assertEqual(self.ask("POST", name, body)[0], wanted)
        self.assertEqual(self.ask("POST", "open", b"x" * (MOST_BYTES + 1))[0], 413)
        self.assertEqual(self.ask("PUT", "open", b"x")[0], 501)

    def call(self, name, body):
        status, data, _ = self.ask("POST", name, body)
        self.assertEqual(status, 200, data)
        return json.loads(data)

    def keys(self, page, number, *keys):
        return self.call("do", {"page": page, "number": number, "events": [{"key": key} for key in keys]})

    def test_events_are_done_once_and_in_their_order(self):
        self.call("open", {"page": "a"})
        self.assertEqual(self.keys("a", 1, "x", "y")["formula"], "x y")
        self.assertEqual(self.keys("a", 1, "x", "y")["formula"], "x y")
        self.assertEqual(self.keys("a", 2, "y", "z")["formula"], "x y z")
        self.assertEqual(self.keys("a", 9, "q")["number"], 3)

    def test_two_pages_have_two_formulas_and_a_reloaded_one_has_its_own(self):
        self.keys("a", 1, "x")
        self.keys("b", 1, "y")
        self.assertEqual([self.call("open", {"page": page})["formula"] for page in "ab"], ["x", "y"])
        self.assertEqual(self.call("open", {"page": "c", "like": "b"})["formula"], "y")
        self.keys("c", 1, "z")
        self.assertEqual(self.call("open", {"page": "b"})["formula"], "y")
        state = self.call("open", {"page": "a"})
        self.assertEqual((state["number"], state["undo"]), (1, 1))

    def test_a_text_of_2_mb(self):
        self.keys("a", 1, "x")
        text = "<math>" + "<mtext>" + "y" * 60_000 + "</mtext>"
        state = self.call("do", {"page": "a", "number": 2, "events": [{"paste": text * 34 + "</math>" * 34}]})
        self.assertIn("as it was", state["told"])
        state = self.call("do", {"page": "a", "number": 3, "events": [{"paste": "z" * 2_000_000}]})
        self.assertIn("2,000 characters", state["told"])
        self.assertEqual(state["formula"], "x")

    def test_pages_past_the_limit_lose_their_engine_and_not_their_formula(self):
        for number in range(12):
            self.keys(str(number), 1, "x")
        asleep = [page for page in self.pages.pages.values() if page.document.engine is None]
        self.assertEqual(len(asleep), 4)
        self.assertEqual(self.keys("0", 2, "y")["formula"], "x y")
        self.assertEqual(self.keys("0", 3, "Undo", "Undo")["formula"], "gap")


class Starting(InFolder):
    """The command that starts the editor."""

    @needs_font_tools
    @unittest.skipUnless(usual_fonts(), "no Latin Modern Math: Debian's fonts-lmodern has it")
    def test_what_does_not_start(self):
        old = self.file("old", "#!/bin/sh\necho 'usage: mathlay layout METRICS TREE'\nexit 2\n")
        self.assert_refused(run(editor, "--program", f"sh {old}"), "has no command `history`, which the editor needs")
        self.assert_refused(run(editor, "--program", "/none"), "No such file")
        if not LACK:
            self.assert_refused(run(editor, self.file("t", '{"name":"mi"}'), "--program", PROGRAM), "tree 1 3")
            self.assert_refused(run(editor, self.file("f", "<math><mi>x</math>"), "--program", PROGRAM), "f:1:14")
            wide = '{"name":"math","attributes":{"mathsize":"2000000px"}}'
            self.assert_refused(run(editor, self.file("w", wide), "--program", PROGRAM), "below 1,048,576 px")

    @unittest.skipIf(LACK, LACK)
    def test_it_prints_its_address_and_ends_with_ctrl_c(self):
        words = [sys.executable, "-B", str(TOP / "tools" / "editor.py"), str(TOP / "samples" / "quadratic.mml"), "--program", PROGRAM]
        child = subprocess.Popen(words, stdout=subprocess.PIPE, stderr=subprocess.PIPE, text=True)
        try:
            address = child.stdout.readline().split()[1]
            host, token = address.removeprefix("http://").rstrip("/").split("/")
            self.assertRegex(address, r"\Ahttp://127\.0\.0\.1:[0-9]+/[A-Za-z0-9_-]{32}/\Z")
            connection = HTTPConnection(host, timeout=60)
            connection.request("POST", f"/{token}/open", '{"page":"a"}', {"Origin": f"http://{host}"})
            self.assertIn("b to the 2 minus 4", json.loads(connection.getresponse().read())["formula"])
            connection.close()
        finally:
            child.send_signal(signal.SIGINT)
            written, errors = child.communicate(timeout=60)
        self.assertEqual((child.returncode, written, errors), (0, "", ""))
