"""What the tests at programs share."""
import contextlib
import unittest

import places
from strict import Client, Refused


class Case(unittest.TestCase):
    def client(self):
        client = Client()
        self.addCleanup(self.ends_well, client)
        return client

    def ends_well(self, client):
        if not client.process.stdin.closed:
            self.assertEqual(client.end(), 0)

    @contextlib.contextmanager
    def attached(self, *paths, suspended=True, breakpoints=(), functions=(), folder=places.SCRIPTS, **more):
        """A client that is attached to a host with these scripts, in this folder. `found` is what it was told of its breakpoints."""
        with places.running(*paths, suspended=suspended, folder=folder) as self.host:
            client = self.client()
            self.found = client.begin("attach", breakpoints, functions, port=self.host.port, **more)
            yield client
            client.ask("disconnect")
            client.wait("terminated")
            self.assertTrue(self.host.runs())

    def refuses(self, text, act, *args, **more):
        """The request is refused, and the reason has this text."""
        with self.assertRaises(Refused) as refused:
            act(*args, **more)
        self.assertIn(text, str(refused.exception))
