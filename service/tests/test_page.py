"""The page of `--status`: who connects there and says nothing, or not all, delays no other scrape and no stop."""
import http.client
import socket
import time

from nodes import HERE, STOP, Case, channels, free_port

SILENT = 6
BEGINS = {
    "nothing": b"",
    "a part of a request": b"GET /metrics HTTP/1.1\r\nHost: a",
    "a request without its body": b"POST / HTTP/1.1\r\nHost: a\r\nContent-Length: 99\r\n\r\n",
}
# What a scrape may take.
SOON = 1.0


class Page(Case):
    def counting(self, *options):
        self.page = free_port()
        return self.serving(options=["--status", str(self.page), *options])

    def silent(self, sent):
        for _ in range(SILENT):
            stream = socket.create_connection((HERE, self.page))
            self.addCleanup(stream.close)
            stream.sendall(sent)
        time.sleep(0.1)

    def scrape(self):
        """How long an answer takes."""
        began = time.monotonic()
        connection = http.client.HTTPConnection(HERE, self.page, timeout=60)
        connection.request("GET", "/metrics")
        answer = connection.getresponse()
        self.assertEqual((answer.status, b"taosd_uptime_seconds" in answer.read()), (200, True))
        connection.close()
        return time.monotonic() - began

    def test_a_scrape_does_not_wait_for_who_is_silent(self):
        for name, sent in BEGINS.items():
            with self.subTest(name):
                node = self.counting()
                self.assertLess(self.scrape(), SOON)
                self.silent(sent)
                for _ in range(3):
                    self.assertLess(self.scrape(), SOON)

    def test_a_stop_does_not_wait_for_who_is_silent(self):
        for name, sent in BEGINS.items():
            for options in [], ["--clients", "20"]:
                with self.subTest(name, options=options):
                    node = self.counting(*options)
                    self.assert_is_ready(node, channels()[0])
                    self.silent(sent)
                    node.asked_to_stop()
                    self.assertLess(node.seconds_to_end(90), STOP)
                    self.assertEqual(node.process.returncode, 0)
