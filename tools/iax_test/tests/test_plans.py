"""Tests of plans.py."""
import tomllib
import unittest

import support  # noqa: F401
from iax_test.plans import peer_text, plan_text

WEST = {"name": "west", "port": 5001, "worker": 1, "secret": 'a "secret"', "trunk": True}


class Plans(unittest.TestCase):
    """The text of a plan, as TOML reads it."""

    def test_whole(self):
        text = plan_text(
            {"format": 1, "passes": 9, "ping_ms": None}, [("127.0.0.1", 4569)], [WEST, {"name": "east"}],
            [("3", "east"), ("", "west", "east")],
        )
        usual = {"address": "127.0.0.1", "formats": ["ulaw"]}
        wanted = {
            "format": 1,
            "passes": 9,
            "worker": [{"address": "127.0.0.1", "port": 4569}],
            "peer": [usual | WEST, usual | {"name": "east", "worker": 0}],
            "route": [{"prefix": "3", "peer": "east"}, {"prefix": "", "peer": "west", "source": "east"}],
        }
        self.assertEqual(tomllib.loads(text), wanted)

    def test_peers_of_format_4_expect_no_poke(self):
        for keys, wanted in (({}, 0), ({"qualify_ms": 500}, 500)):
            text = plan_text({"format": 4}, [("127.0.0.1", 4569)], [{"name": "west"} | keys])
            self.assertEqual(tomllib.loads(text)["peer"][0]["qualify_ms"], wanted)
        self.assertNotIn("qualify_ms", peer_text({"name": "west"}))


if __name__ == "__main__":
    unittest.main()
