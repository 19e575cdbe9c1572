"""HTTPS by the hub itself, and what it refuses to do without."""
import http.client
import os
import ssl
import subprocess
import unittest

from hubs import HUB, HubAt
from packages import wants


@wants("python3-aiohttp")
class Tls(unittest.TestCase):
    def test_https(self):
        with HubAt() as hub:
            hub.stop()
            cert, key = f"{hub.folder}/cert.pem", f"{hub.folder}/key.pem"
            subprocess.run(["openssl", "req", "-x509", "-newkey", "ec", "-pkeyopt", "ec_paramgen_curve:prime256v1", "-nodes", "-days", "2", "-subj", "/CN=localhost",
                            "-addext", "subjectAltName=DNS:localhost", "-keyout", key, "-out", cert], check=True, capture_output=True)
            process = subprocess.Popen([*HUB, hub.store, "--port", str(hub.port), "--cert", cert, "--key", key], stdout=subprocess.PIPE, text=True, env=hub.environment)
            self.assertTrue(process.stdout.readline().startswith("https://"))
            connection = http.client.HTTPSConnection("localhost", hub.port, context=ssl.create_default_context(cafile=cert), timeout=10)
            connection.request("GET", "/views", headers={"Authorization": f"Bearer {hub.tokens['root']}"})
            self.assertEqual(connection.getresponse().status, 200)
            connection.close()
            process.terminate()
            process.wait(20)
            process.stdout.close()
            hub.start()

    def test_no_listening_beyond_this_machine_in_the_clear(self):
        for words, status in ((["s.db", "--listen", "0.0.0.0"], 1), (["s.db", "--port"], 2), (["--port", "1"], 2), (["s.db", "--odd"], 2), (["s.db", "--grant", "ann", "fly"], 1), (["s.db", "--cert", "x"], 1)):
            told = subprocess.run([*HUB, *words], capture_output=True, text=True, cwd="/", env={**os.environ, "PYTHONDONTWRITEBYTECODE": "1"})
            self.assertEqual((told.returncode, told.stdout), (status, ""), told.stderr)


if __name__ == "__main__":
    unittest.main()
