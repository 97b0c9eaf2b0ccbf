"""Tests of tools/chart: arrows, times, and answers to wrong input. No browser is needed; where one is, it is asked too."""
import glob
import json
import os
import random
import re
import shutil
import subprocess
import sys
import unittest

import trying
from trying import ROOT, Folder

EXAMPLES = sorted(path[:-len(".schedule")] for path in glob.glob(os.path.join(ROOT, "examples", "*.schedule")))
LEASES = os.path.join(ROOT, "examples", "leases")
BROWSER = next(filter(None, map(shutil.which, ("chromium", "chromium-browser", "google-chrome"))), None)
DATA = re.compile(r'<script type="application/json" id="data">(.*?)</script>', re.DOTALL)


def chart(*words):
    """What the tool prints, its words on standard error, its status."""
    status, output, errors = trying.tool("chart", *words)
    return output, errors, status


def data_in(page):
    """The run that stands in a page."""
    return json.loads(DATA.search(page).group(1))


def told_packets(schedule):
    """How many events of the lines tell a packet. All those of the examples find one."""
    return sum(line.split(" ")[1] == "tell" for line in schedule.splitlines()[1:])


def read(path):
    """The text of a file."""
    with open(path, encoding="ascii") as file:
        return file.read()


def long_run(events, sessions):
    """A schedule and a report of so many events, with losses, repeats and overtakings."""
    dice, lines, outcomes, ways, under_way = random.Random(1), [], [], [], []

    def sent(sender, addressee):
        ways.append((sender, addressee))
        under_way.append(len(ways) - 1)
        return len(ways) - 1

    for session in range(1, sessions + 1):
        lines.append(f"join c{session}")
        outcomes.append(f"c{session} joined")
    while len(lines) < events:
        if under_way and dice.random() < 0.6:
            at = dice.randrange(min(6, len(under_way)))
            packet = under_way[at] if dice.random() < 0.1 else under_way.pop(at)
            sender, addressee = ways[packet]
            lines.append(f"tell {packet}")
            outcomes.append(f"s0 grants 2 all sends {sent('s0', sender)}" if addressee == "s0" else f"{addressee} granted 2 all")
        else:
            actor = f"c{dice.randrange(1, sessions + 1)}"
            lines.append(f'do {actor} lookup / "a{len(lines)}"')
            outcomes.append(f'{actor} asked s0 life / shared, child / "a{len(lines)}" shared sends {sent(actor, "s0")}')
    schedule = "farsite 1 servers 1 skew 10 term 100\n" + "".join(f"{k} {line}\n" for k, line in enumerate(lines))
    report = "".join(f"e{k} {line}\n" for k, line in enumerate(outcomes, 1))
    return schedule, report + f"n / dir 0 0\ndone events {len(lines)} journal 0 nodes 1\n"


class Pages(Folder):
    """What stands in a page."""

    def test_each_example_has_an_arrow_for_each_told_packet(self):
        self.assertTrue(EXAMPLES)
        for example in EXAMPLES:
            with self.subTest(example=os.path.basename(example)):
                page, said, status = chart(example + ".schedule", example + ".report")
                self.assertEqual((said, status), ("", 0))
                arrows = sum(len(packet[3]) for packet in data_in(page)["packets"])
                self.assertEqual(arrows, told_packets(read(example + ".schedule")))

    def test_a_page_loads_nothing(self):
        page, _, _ = chart(LEASES + ".schedule", LEASES + ".report")
        self.assertIn("default-src 'none'", page)
        self.assertIsNone(re.search(r"(src|href)=|@import|url\(", page))

    def test_a_page_shows_what_the_outcomes_tell(self):
        page, _, _ = chart(LEASES + ".schedule", LEASES + ".report")
        changes = [event[4] for event in data_in(page)["events"]]
        self.assertIn(["lease", "s0.2", 'child / "a"', "exclusive", 102, ""], changes[3])
        self.assertEqual(changes[4], [["log", "1", 'create / "a" dir'], ["answer", "1", 'create / "a" dir', "made"]])
        self.assertEqual(changes[7], [["admitted", 1], ["question", ""]])

    def test_a_page_shows_what_a_server_leads(self):
        lines = ["join c1", 'do c1 delete / "a"', "tell 0", "tell 1", 'do c1 delete / "b"', "tell 3", "tell 4"]
        schedule = self.file("a.schedule", "farsite 1 servers 1 skew 0 term 9\n" + "".join(f"0 {line}\n" for line in lines))
        outcomes = ["c1 joined", "c1 leading 1 s0 sends 0", "s0 commits s0#1 deleted sends 1", "c1 led 1 deleted sends 2",
                    "c1 leading 2 s0 sends 3", "s0 refuses wanted / sends 4", "c1 led again wanted / sends 5"]
        report = "".join(f"e{k} {line}\n" for k, line in enumerate(outcomes, 1)) + "n / dir 0 0\ndone events 7 journal 0 nodes 1\n"
        page, said, _ = chart(schedule, self.file("a.report", report))
        self.assertEqual(said, "")
        self.assertEqual([event[4] for event in data_in(page)["events"]], [
            [], [["question", 'asks s0 to lead operation 1: delete / "a"']], [["note", "Admits what it led for c1 as s0#1: deleted."]],
            [["answer", "1", 'delete / "a"', "deleted"], ["question", ""]], [["question", 'asks s0 to lead operation 2: delete / "b"']],
            [["note", "Does not lead what it was asked to: wanted /."]],
            [["note", 'It may ask again, since the server did not carry it out: delete / "b" (wanted /).'], ["question", ""]]])

    def test_a_page_shows_what_several_servers_do(self):
        says = [
            ("prepares s0#1", "Leads s0#1 for c1, and asks other servers for their parts."),
            ("votes s0#1 ended s1.4 9 12", "Votes on a part of s0#1: ended s1.4 9 12."), ("waits s0#1", "Waits for more of s0#1."),
            ("seeks s0#1 s2", "Asks s2 for a part of s0#1."), ("applies s0#1", "Does what is decided of its part of s0#1."),
            ("ends s0#1", "Has all of s0#1 done."), ("aborts s0#1 ended s1.4 9 12", "Gives up s0#1: ended s1.4 9 12."),
            ("pathgrants s0@1", "Gives the path s0@1."), ("pathdenies frozen /1 s0#1", "Gives no path: frozen /1 s0#1."),
            ("pathdenies nochild", "Gives no path: nochild."), ("pathholds s0@1", "Holds the path s0@1 from now on."),
            ("pathdrops s0@1", "Gives the path s0@1 back at once: the file is no longer there."),
            ("pathseeks /1 s2", "Sends on to s2 what is asked for the path of /1."), ("pathfails moved /1 s2", "Gets no path: moved /1 s2."),
            ("pathfrees s0@1", "Gives the path s0@1 back."), ("pathdown s0@1 2", "Asks back 2 that rest on the path s0@1."),
            ("pathback s0@1", "Has the path s0@1 back.")]
        lines = ["join c1"] + ['do c1 delete / "a"', "tell next"] * len(says)
        schedule = self.file("a.schedule", "farsite 1 servers 3 skew 0 term 9\n" + "".join(f"0 {line}\n" for line in lines))
        outcomes = ["c1 joined"]
        for k, (note, _) in enumerate(says):
            outcomes += [f"c1 leading {k + 1} s0 sends {k}", f"s0 {note}"]
        report = "".join(f"e{k} {line}\n" for k, line in enumerate(outcomes, 1))
        report += f"n / dir 0 0\ndone events {len(lines)} journal 0 nodes 1\n"
        page, told, _ = chart(schedule, self.file("a.report", report))
        self.assertEqual(told, "")
        self.assertEqual([event[4] for event in data_in(page)["events"]][2::2], [[["note", text]] for _, text in says])

    def test_repeats_and_overtakings_are_told_apart(self):
        lines = ["join c1", "do c1 kind /", "turn c1", "tell 1", "tell 0", "tell 0"]
        schedule = self.file("a.schedule", "farsite 1 servers 1 skew 0 term 9\n" + "".join(f"0 {line}\n" for line in lines))
        outcomes = ["c1 joined", "c1 asked s0 life / shared sends 0", "c1 idle sends 1", "s0 none", "s0 none", "s0 none"]
        report = "".join(f"e{k} {line}\n" for k, line in enumerate(outcomes, 1)) + "n / dir 0 0\ndone events 6 journal 0 nodes 1\n"
        page, said, _ = chart(schedule, self.file("a.report", report))
        self.assertEqual(said, "")
        self.assertEqual(data_in(page)["packets"], [[0, 1, 2, [5, 6], 1], [0, 1, 3, [4], 0]])

    def test_ten_thousand_events_are_drawn_soon(self):
        schedule, report = (self.file(f"a{k}", text) for k, text in enumerate(long_run(10_000, 6)))
        began = os.times().children_user
        page, said, status = chart(schedule, report)
        self.assertEqual((said, status), ("", 0))
        self.assertEqual(len(data_in(page)["events"]), 10_000)
        self.assertLess(os.times().children_user - began, 2)

    @unittest.skipUnless(BROWSER, "no Chromium here")
    def test_a_browser_draws_each_arrow(self):
        for example in EXAMPLES:
            with self.subTest(example=os.path.basename(example)):
                page, _, _ = chart(example + ".schedule", example + ".report")
                drawn = self.drawn(self.file("a.html", page))
                self.assertEqual(drawn.count('class="arrow told '), told_packets(read(example + ".schedule")))

    @unittest.skipUnless(BROWSER, "no Chromium here")
    def test_a_browser_opens_ten_thousand_events_within_two_seconds(self):
        page, _, _ = chart(*(self.file(f"a{k}", text) for k, text in enumerate(long_run(10_000, 6))))
        path, times = self.file("a.html", page), []
        # A busy machine may keep the browser waiting: the best of three.
        while len(times) < 3 and min(times, default=2000) >= 2000:
            drawn = self.drawn(path)
            times.append(int(re.search(r'data-drawn="([0-9]+)"', drawn).group(1)))
        self.assertLess(min(times), 2000)
        self.assertLess(drawn.count('class="row'), 400)

    def drawn(self, path):
        """What a browser makes of the page, in a window as high as each example."""
        ended = subprocess.run(
            [BROWSER, "--headless", "--no-sandbox", "--disable-gpu", f"--user-data-dir={self.folder}/profile",
             "--window-size=1200,2400", "--dump-dom", "file://" + path],
            stdout=subprocess.PIPE, stderr=subprocess.DEVNULL, check=False, timeout=120)
        return ended.stdout.decode("utf-8")


class Launched(Folder):
    """Without a report the launcher beside the tools is run."""

    def launched(self, script):
        """What the tool says with that launcher."""
        shutil.copytree(os.path.join(ROOT, "tools"), os.path.join(self.folder, "tools"))
        os.chmod(self.file("farsite", "#!/bin/sh\n" + script), 0o755)
        tool = os.path.join(self.folder, "tools", "chart")
        return subprocess.run([sys.executable, tool, LEASES + ".schedule"], stdout=subprocess.PIPE, stderr=subprocess.PIPE, check=False)

    def test_its_report_is_drawn(self):
        ended = self.launched(f'test "$*" = replay && cmp -s - "{LEASES}.schedule" && cat "{LEASES}.report"\n')
        self.assertEqual((ended.stderr, ended.returncode), (b"", 0))
        self.assertEqual(ended.stdout.decode("utf-8"), chart(LEASES + ".schedule", LEASES + ".report")[0])

    def test_its_refusal_is_passed_on(self):
        ended = self.launched("echo 'farsite: line 3 is not in the grammar' >&2; exit 3\n")
        self.assertEqual((ended.stdout, ended.returncode), (b"", 2))
        self.assertEqual(ended.stderr.decode("utf-8"), "farsite: line 3 is not in the grammar\n"
                         f"tools/chart: {self.folder}/farsite replay ended with 3, without a report\n")


class Diagrams(Folder):
    """Diagrams for documents."""

    def test_mermaid_has_an_arrow_for_each_told_packet(self):
        for example in EXAMPLES:
            with self.subTest(example=os.path.basename(example)):
                text, said, status = chart("--mermaid", example + ".schedule", example + ".report")
                self.assertEqual((said, status), ("", 0))
                self.assertTrue(text.startswith("sequenceDiagram\n"))
                self.assertEqual(text.count("->>"), told_packets(read(example + ".schedule")))

    def test_mermaid_takes_signs_of_its_own(self):
        schedule = self.file("a.schedule", 'farsite 1 direct\n0 join c1\n0 do c1 lookup / "a; #b"\n')
        report = self.file("a.report", 'e1 c1 joined\ne2 c1 answered 1 noname\nj1 c1 1 lookup / "a; #b" noname\nn / dir 0 0\n'
                           "done events 2 journal 1 nodes 1\n")
        text, _, _ = chart("--mermaid", schedule, report)
        self.assertIn('lookup / "a#59; #35;b"<br/>answered 1 noname', text)

    def test_the_tour_and_the_picture_are_what_the_tool_draws(self):
        tour = text_of("TOUR.md")
        for name in ("first", "leases", "sharing", "delegation"):
            path = os.path.join(ROOT, "examples", name)
            with self.subTest(example=name):
                drawn = chart("--mermaid", path + ".schedule", path + ".report")[0]
                self.assertTrue("```mermaid\n" + drawn + "```" in tour, "the diagram in docs/TOUR.md is another")
        drawn = chart("--svg", LEASES + ".schedule", LEASES + ".report")[0]
        self.assertTrue(text_of("leases.svg") == drawn, "docs/leases.svg is another")


class WrongInput(Folder):
    """A sentence on standard error, and status 2."""

    def refused(self, *words, says):
        """The tool refuses the words with one line that says so."""
        out, said, status = chart(*words)
        self.assertEqual((out, status), ("", 2))
        self.assertRegex(said, r"\Atools/chart: [^\n]*\n\Z")
        self.assertIn(says, said)

    def test_files_that_are_none(self):
        self.refused(os.path.join(self.folder, "none"), says="could not be read")
        self.refused(self.folder, says="could not be read")
        self.refused(LEASES + ".schedule", os.path.join(self.folder, "none"), says="could not be read")

    def test_bytes_that_are_no_text(self):
        wrong = self.file("wrong", b"farsite 1 direct\n0 join \xff\n")
        self.refused(wrong, LEASES + ".report",
                     says="line 2 is not in the grammar: a session is `c` and its number; its byte 0xff")
        self.refused(LEASES + ".schedule", self.file("wrong2", b"e1 c1 joined\ne2 c1 \xff\n"), says="line 2: byte 0xff")
        self.refused(self.file("crlf", b"farsite 1 direct\r\n"), LEASES + ".report",
                     says="line 1 is not in the grammar: the line ends in a carriage return")
        self.refused(self.file("mark", b"\xef\xbb\xbffarsite 1 direct\n"), LEASES + ".report", says="byte order mark")

    def test_a_gigabyte(self):
        path = self.file("big", b"")
        os.truncate(path, 1 << 30)
        self.refused(path, LEASES + ".report", says="more than 16777216 bytes")
        self.refused(LEASES + ".schedule", path, says="more than 268435456 bytes")

    def test_other_texts(self):
        self.refused(self.file("empty", b""), LEASES + ".report", says="line 1")
        self.refused(LEASES + ".schedule", self.file("empty", b""), says="empty")
        self.refused(LEASES + ".report", LEASES + ".schedule", says="line 1")
        self.refused(LEASES + ".schedule", LEASES + ".schedule", says="line 1: no line of a report")
        cut = read(LEASES + ".report").rpartition("done")[0]
        self.refused(LEASES + ".schedule", self.file("cut", cut), says="a report ends with")
        self.refused(self.file("kind", "farsite 1 direct\n0 jump c1\n"), LEASES + ".report",
                     says="line 2 is not in the grammar: this is no event")

    def test_a_report_of_another_schedule(self):
        self.refused(LEASES + ".schedule", LEASES.replace("leases", "first") + ".report", says="no report of this schedule")
        swapped = read(LEASES + ".schedule").replace("3 tell 1", "3 turn s0")
        self.refused(self.file("a.schedule", swapped), LEASES + ".report", says="event 4 is `turn s0`")
        numbered = read(LEASES + ".report").replace("sends 3", "sends 7")
        self.refused(LEASES + ".schedule", self.file("a.report", numbered), says="sends packet 7")

    def test_an_output_that_cannot_be_written(self):
        self.refused(LEASES + ".schedule", LEASES + ".report", "--output", self.folder, says="could not be written")


def text_of(name):
    """The text of a document."""
    with open(os.path.join(ROOT, "docs", name), encoding="utf-8") as file:
        return file.read()


if __name__ == "__main__":
    unittest.main()
