"""Tests of the comparisons without the program: names, limits, modes, metrics, codes, the log, rules of form."""
import shutil
import sys
import tempfile
import unittest
from pathlib import Path

sys.path.insert(0, str(Path(__file__).resolve().parents[2]))

from documents import codes, command_line, http, iax_conf, limits, links, log, metrics, modes, names, rules, sources  # noqa: E402
from documents.checks import CHECKS, RULES, by_page  # noqa: E402
from documents.pages import MANUALS, Documents  # noqa: E402
from documents.report import Report, differences  # noqa: E402


class Copy(unittest.TestCase):
    """A test with a page in a new folder."""

    def documents(self, page, text):
        """Returns documents whose page has this text."""
        folder = tempfile.mkdtemp()
        self.addCleanup(shutil.rmtree, folder)
        path = Path(folder, page)
        path.parent.mkdir(parents=True, exist_ok=True)
        path.write_text(text, encoding="utf-8")
        return Documents(folder)

    def faults(self, check, text, page="docs/PAGE.md"):
        """Returns the faults that a check finds in a page."""
        return check(self.documents(page, text), page)


class Pages(Copy):
    def test_names(self):
        self.assertEqual(self.faults(names.check, "`record_limit` and `Window::free_entries`\n"), [])
        self.assertEqual(self.faults(names.check, "`recorb_limit`\n"), ["nothing has the name recorb_limit"])

    def test_limits(self):
        self.assertEqual(self.faults(limits.check, "A request has more than 4,096 octets of body.\n"), [])
        self.assertEqual(len(self.faults(limits.check, "A request has more than 4,097 octets of body.\n")), 1)
        self.assertEqual(len(self.faults(limits.check, "`retry_ms` is 1 to 50,000.\n")), 1)
        self.assertEqual(len(self.faults(limits.check, "A wall has 17 octets.\n")), 1)
        measured = "<!-- made by pages: walls -->\n| A wall | 17 octets |\n<!-- end -->\n"
        self.assertEqual(self.faults(limits.check, measured), [])
        self.assertEqual(len(self.faults(limits.check, measured + "A wall has 17 octets.\n" + measured)), 1)

    def test_numbers_without_a_unit(self):
        self.assertEqual(self.faults(limits.check_numbers, "It comes from the number 32,767.\n"), [])
        self.assertEqual(
            self.faults(limits.check_numbers, "It comes from the number 32.\n"), ["32, but the sources have [32767]"]
        )

    def test_modes(self):
        self.assertEqual(self.faults(modes.check, "The folder is made with mode 0700, its files with 0600.\n"), [])
        self.assertEqual(len(self.faults(modes.check, "The folder is made with mode 0600, its files with 0600.\n")), 1)

    def test_metrics(self):
        self.assertEqual(self.faults(metrics.check_mentions, "`iax_legs{peer}`\n"), [])
        self.assertEqual(self.faults(metrics.check_mentions, "`iax_legs{worker}`\n"), ["iax_legs has no label worker"])
        self.assertEqual(self.faults(metrics.check_mentions, "`iax_lags`\n"), ["no metric iax_lags"])

    def test_codes(self):
        self.assertEqual(self.faults(codes.check_mentions, "0x0f CHALLENGE\n"), [])
        self.assertEqual(self.faults(codes.check_mentions, "0x0e CHALLENGE\n"), ["the code of CHALLENGE isn't 0x0e"])

    def test_lines_of_a_log(self):
        line = "    2026-11-24T21:32:49.205Z {} west is heard for the first time\n"
        self.assertEqual(self.faults(log.check_samples, line.format("INFO")), [])
        self.assertEqual(len(self.faults(log.check_samples, line.format("WARN"))), 1)

    def test_options(self):
        self.assertEqual(self.faults(command_line.check_mentions, "`--drain`\n", "docs/CLI.md"), [])
        self.assertEqual(self.faults(command_line.check_mentions, "`--drein`\n", "docs/CLI.md"), ["no option --drein"])

    def test_heads_of_tables(self):
        self.assertEqual(self.faults(command_line.check_heads, "    accepted  packed  queued  dropped  quelched\n"), [])
        self.assertEqual(len(self.faults(command_line.check_heads, "    accepted  packed  queued  quelched\n")), 1)

    def test_links(self):
        self.assertEqual(self.faults(links.check, "# One\n\n[here](#one) and [crates](../crates.txt)\n"), [])
        self.assertEqual(self.faults(links.check, "[here](#two), [there](NONE.md)\n"), ["no heading #two", "no file NONE.md"])


class Logs(unittest.TestCase):
    def test_levels(self):
        for line, levels in (
            ("refused NoNumber from west: 37 in 10 s", {"warn"}),
            ("refused NoCall from west", {"debug"}),
            ("worker 0 at 192.0.2.1:4569", {"info"}),
            ("worker 0 at 192.0.2.1:4569: in use", {"error"}),
            ("west is silent for 61 s, and has 3 legs", {"warn"}),
            ("west is deaf", set()),
        ):
            self.assertEqual(log.levels_of(line), levels, line)


class Sources(unittest.TestCase):
    def test_numbers(self):
        self.assertEqual(
            [sources.number_in(it) for it in ("65_536", "0x400_0000", "32 * 512", "1 << 40", "0o640")],
            [65536, 0x4000000, 16384, 1 << 40, 0o640],
        )

    def test_options_and_keys(self):
        self.assertEqual(sources.options()["drain"], sources.Option("drain", "SECONDS", "10", (), 0, 3600))
        self.assertEqual(sources.options()["log"].choices, ("off", "error", "warn", "info", "debug"))
        self.assertEqual(sources.plan_keys()["window"], sources.Key("window", "64", 1, 127))

    def test_refusals_have_their_statuses(self):
        self.assertIn((413, "BodyTooLarge"), sources.http_refusals())
        self.assertNotIn((404, "BodyTooLarge"), sources.http_refusals())
        self.assertEqual(http.statuses_of.__name__, "statuses_of")

    def test_differences(self):
        self.assertEqual(differences(["a", "b"], ["b", "c"]), ["the reference lacks c", "no source has a"])
        self.assertEqual(differences([], []), ["no name was found in the sources"])


class Tutorial(Copy):
    PLAN = (
        '    format = 4\n\n    [[worker]]\n    address = "192.0.2.1"\n    port = 4569\n\n'
        '    [[peer]]\n    name = "a"\n    address = "192.0.2.2"\n'
        '    port = 4569\n    user = "exchange"\n    secret = "s"\n    formats = ["alaw"]\n'
    )
    SITE = "    [exchange]\n    type=friend\n    host={}\n    secret=s\n    auth=md5\n    context=from\n\n`x`:\n\n    [from]\n"
    REASONS = "| Line | Why |\n|---|---|\n| `[exchange]`, `type`, `host`, `auth=md5`, `secret`, `context` | why |\n"

    def check(self, host, reasons):
        """Returns the faults of a site's file."""
        documents = self.documents("docs/TWO_SITES.md", f"{self.PLAN}\n`iax.conf`:\n\n{self.SITE.format(host)}")
        (documents.root / "docs/ASTERISK.md").write_text(reasons, encoding="utf-8")
        return iax_conf.check(documents)

    def test_values_are_those_of_the_plan(self):
        self.assertEqual(self.check("192.0.2.1", self.REASONS), [])
        self.assertEqual(self.check("192.0.2.9", self.REASONS), ["host=192.0.2.9, but it is 192.0.2.1"])

    def test_each_key_has_a_reason(self):
        self.assertEqual(
            self.check("192.0.2.1", self.REASONS.replace(", `type`", "")), ["the key type has no reason in docs/ASTERISK.md"]
        )


class Rules(Copy):
    def test_first_mention_in_each_section_is_a_link(self):
        documents = self.documents("docs/PAGE.md", "[CLI](CLI.md), then `docs/CLI.md`.\n\n## Next\n\n`docs/CLI.md`\n")
        (documents.root / "docs/CLI.md").write_text("", encoding="ascii")
        self.assertEqual(len(rules.check_mentions(documents, "docs/PAGE.md")), 1)

    def test_commits(self):
        self.assertEqual(
            self.faults(rules.check_commits, "At a145963 it was 1048576, `logic dac8208d650f15bf`.\n"),
            ["it cites the commit a145963"],
        )

    def test_bounds(self):
        documents = self.documents("docs/CHECKS.md", f"{'x' * 401}\n" + "y\n" * 5000)
        (documents.root / "bench").mkdir()
        faults = rules.check_bounds(documents)
        self.assertEqual(len(faults), 2)
        self.assertIn("docs/CHECKS.md has 10,402 octets, more than 9,000", faults)


class Lists(unittest.TestCase):
    def test_each_page_is_seen(self):
        documents = Documents()
        for page in (*documents.pages, *MANUALS):
            self.assertTrue(any(it.sees(page) for it in CHECKS), page)

    def test_rules_that_are_on_are_checks(self):
        for check, is_on in RULES:
            self.assertEqual(check in CHECKS, is_on)

    def test_a_page_that_cannot_be_read_is_a_fault(self):
        def check(documents, page):
            raise KeyError(page)

        report = Report(prints=False)
        by_page("reading", check, lambda page: True).run(Documents(), "docs/CLI.md", report)
        self.assertEqual((report.passed, report.failed), (0, 1))


if __name__ == "__main__":
    unittest.main()
