"""Tests of the figures of an archive: those that `GET /metrics` answers, in Prometheus' text format, and the lines of `archive status`. Expected
numbers are counted by hand from what is delivered. Prometheus' own checker, promtool, takes the texts; if it is not there that test says that
it was skipped."""
import pathlib
import subprocess
import tempfile
import unittest

from tests.program import DATA, LONG, MOMENT, NAMES, Lines, Serving, get, put_of, replied
from tests.snippets import snippet
from tests.wants import main, needs

CHANGES, DEB, CONTROL = NAMES
TYPE = "text/plain; version=0.0.4; charset=utf-8"

# The figures in their order: name, label, word of a line, type, and what it says.
FIGURES = [
    ("boqitsel_moment_timestamp_seconds", None, "moment", "gauge", "Moment of this answer."),
    ("boqitsel_uploads_waiting", "state", "waiting", "gauge", "Uploads without a verdict."),
    ("boqitsel_uploads_waiting_oldest_timestamp_seconds", "state", "oldest", "gauge", "Moment of the .changes that has waited longest."),
    ("boqitsel_verdicts_total", "verdict", "verdict", "counter", "Verdicts given, by number; 0 is accepted."),
    ("boqitsel_suite_items", "suite", "items", "gauge", "Items that the suite shows."),
    ("boqitsel_suite_changed_timestamp_seconds", "suite", "changed", "gauge", "Date of the suite's Release."),
    ("boqitsel_suite_valid_until_timestamp_seconds", "suite", "until", "gauge", "Valid-Until of the suite's Release."),
    ("boqitsel_arrivals", None, "arrivals", "gauge", "Files that arrived and were not cleaned."),
    ("boqitsel_bodies", None, "bodies", "gauge", "Contents of arrivals and of the pool, each once."),
    ("boqitsel_bodies_bytes", None, "bytes", "gauge", "Bytes of these contents."),
]


def lines_of(numbers):
    """The lines of `archive status`, from the numbers by their words: a number, or a table by the value of the label."""
    said = ""
    for _, label, word, _, _ in FIGURES:
        for value, number in numbers[word].items() if label else [(None, numbers[word])]:
            said += f"{word} {value} {number}\n" if label else f"{word} {number}\n"
    return said


def metrics_of(numbers):
    """The same numbers in Prometheus' text format."""
    said = ""
    for name, label, word, kind, help_text in FIGURES:
        said += f"# HELP {name} {help_text}\n# TYPE {name} {kind}\n"
        for value, number in numbers[word].items() if label else [(None, numbers[word])]:
            said += f'{name}{{{label}="{value}"}} {number}\n' if label else f"{name} {number}\n"
    return said


def verdicts(**given):
    """How many verdicts were given of each number: of `v3=2` two of number 3, and of those that are not named none."""
    return {number: given.get(f"v{number}", 0) for number in range(10)}


EMPTY = {
    "moment": 0,
    "waiting": {"whole": 0, "lacking": 0},
    "oldest": {},
    "verdict": verdicts(),
    "items": {"box": 0},
    "changed": {"box": 0},
    "until": {},
    "arrivals": 0,
    "bodies": 0,
    "bytes": 0,
}


class Figures(Lines):
    def put(self, db, name, body, at=MOMENT):
        """Delivers a body under a name."""
        folder = db.rsplit("/", 1)[0]
        with open(f"{folder}/{name}", "wb") as it:
            it.write(body)
        self.line(0, "put", db, "--at", at, f"{folder}/{name}")

    def hello(self, name):
        with open(f"{DATA}/{name}", "rb") as it:
            return it.read()

    def check(self, db, at, numbers):
        """The command and the server say these numbers at a moment."""
        self.assertEqual(self.line(0, "status", db, "--at", at), lines_of(numbers))
        with Serving(db, 1, at=at) as serving:
            self.assertEqual(serving.answer(get("metrics")), replied("200 OK", metrics_of(numbers).encode(), TYPE))
            self.assertEqual(serving.ended(), (0, "", ""))

    def test_an_archive_in_which_nothing_came(self):
        self.check(self.made(), "0", EMPTY)

    def test_one_upload_is_accepted_and_one_waits_whole(self):
        """The .deb came first with other contents. The .changes came again under another name, so its contents count once."""
        db = self.made()
        self.put(db, CHANGES, self.hello(CHANGES))
        self.put(db, DEB, b"abd")
        self.put(db, DEB, self.hello(DEB))
        self.put(db, CONTROL, self.hello(CONTROL))
        self.line(0, "run", db, "--at", MOMENT)
        self.put(db, "again.changes", self.hello(CHANGES))
        # The .changes has 724 bytes, the .control 104, and each .deb 3.
        numbers = {
            **EMPTY,
            "moment": int(MOMENT),
            "waiting": {"whole": 1, "lacking": 0},
            "oldest": {"whole": int(MOMENT)},
            "verdict": verdicts(v0=1),
            "items": {"box": 1},
            "changed": {"box": int(MOMENT)},
            "arrivals": 5,
            "bodies": 4,
            "bytes": 724 + 104 + 3 + 3,
        }
        self.assertEqual(len(metrics_of(numbers)), 1904)
        self.check(db, MOMENT, numbers)

    def test_the_oldest_of_several(self):
        """Two uploads lack a file. The first came a second before the second, and was delivered once more two seconds later."""
        db, first = self.made(), int(MOMENT)
        self.put(db, "a.changes", self.hello(CHANGES), str(first))
        self.put(db, "b.changes", self.hello(CHANGES), str(first + 1))
        numbers = {**EMPTY, "moment": first + 1, "waiting": {"whole": 0, "lacking": 2}, "oldest": {"lacking": first}, "arrivals": 2, "bodies": 1, "bytes": 724}
        self.check(db, str(first + 1), numbers)
        self.put(db, "a.changes", self.hello(CHANGES), str(first + 2))
        self.check(db, str(first + 2), {**numbers, "moment": first + 2, "oldest": {"lacking": first + 1}})

    def test_a_release_that_ends(self):
        db = self.made()
        folder = db.rsplit("/", 1)[0]
        with open(f"{folder}/days.conf", "w", encoding="ascii") as it:
            it.write("Codename: box\nArchitectures: amd64 source\nComponents: main\nValidDays: 7\n\n")
            it.write("Codename: attic\nArchitectures: amd64\nComponents: main\n")
        self.line(0, "configure", db, "--at", "1000", f"{folder}/days.conf")
        numbers = {**EMPTY, "moment": 1000, "items": {"box": 0, "attic": 0}, "changed": {"box": 1000, "attic": 1000}, "until": {"box": 1000 + 7 * 86400}}
        self.check(db, "1000", numbers)

    def test_what_is_cleaned_counts_no_more_and_the_pool_stays(self):
        db = self.made()
        folder = db.rsplit("/", 1)[0]
        with open(f"{folder}/days.conf", "w", encoding="ascii") as it:
            it.write("Codename: box\nArchitectures: amd64 source\nComponents: main\nKeepDays: 1\n")
        self.line(0, "configure", db, "--at", "0", f"{folder}/days.conf")
        self.line(0, "put", db, "--at", "0", *(f"{DATA}/{name}" for name in NAMES))
        self.line(0, "run", db, "--at", "0")
        numbers = {**EMPTY, "verdict": verdicts(v0=1), "items": {"box": 1}}
        self.check(db, "0", {**numbers, "arrivals": 3, "bodies": 3, "bytes": 724 + 104 + 3})
        self.line(0, "clean", db, "--at", "86400")
        self.check(db, "86400", {**numbers, "moment": 86400, "bodies": 1, "bytes": 3})

    def test_a_moment_after_the_last(self):
        db = self.made()
        self.line(2, "status", db, "--at", "4102444800")

    def test_the_server_goes_on(self):
        """After the figures were asked an upload is taken and judged as before, and then they say so."""
        with Serving(self.made(), 6, at=MOMENT) as serving:
            serving.answer(get("metrics"))
            for name in NAMES:
                serving.answer(put_of(name, self.hello(name)))
            serving.answer(b"POST /queue/run HTTP/1.1\r\n\r\n")
            said = serving.answer(get("metrics")).decode()
            self.assertEqual(serving.ended(), (0, "", ""))
        self.assertIn('\nboqitsel_verdicts_total{verdict="0"} 1\n', said)
        self.assertIn('\nboqitsel_suite_items{suite="box"} 1\n', said)

    @needs("promtool")
    def test_prometheus_takes_the_text(self):
        with Serving(self.accepted(), 1) as serving:
            text = serving.answer(get("metrics")).split(b"\r\n\r\n", 1)[1]
            self.assertEqual(serving.ended(), (0, "", ""))
        ran = subprocess.run(["promtool", "check", "metrics"], input=text, capture_output=True, check=False, timeout=LONG)
        self.assertEqual((ran.returncode, ran.stdout, ran.stderr), (0, b"", b""))


# A minute of figures each: of one server uploads wait whole, and one verdict was given before; a Release ends a day after the beginning; a MB
# comes each minute; its moment stands still. Another was asked in vain, and of a third an upload has lacked a file for 100,000 seconds.
ALERTS = """rule_files: [alerts.yml]
evaluation_interval: 1m
tests:
- interval: 1m
  input_series:
  - {series: 'boqitsel_uploads_waiting{job="boqitsel",instance="a",state="whole"}', values: '1x100'}
  - {series: 'boqitsel_verdicts_total{job="boqitsel",instance="a",verdict="0"}', values: '3x100'}
  - {series: 'boqitsel_suite_valid_until_timestamp_seconds{job="boqitsel",instance="a",suite="box"}', values: '86400x100'}
  - {series: 'boqitsel_bodies_bytes{job="boqitsel",instance="a"}', values: '15e9+1000000x100'}
  - {series: 'boqitsel_moment_timestamp_seconds{job="boqitsel",instance="a"}', values: '0x100'}
  - {series: 'up{job="boqitsel",instance="b"}', values: '0x100'}
  - {series: 'boqitsel_moment_timestamp_seconds{job="boqitsel",instance="c"}', values: '100000+60x100'}
  - {series: 'boqitsel_uploads_waiting_oldest_timestamp_seconds{job="boqitsel",instance="c",state="lacking"}', values: '0x100'}
  - {series: 'boqitsel_uploads_waiting_oldest_timestamp_seconds{job="boqitsel",instance="c",state="whole"}', values: '90000x100'}
  alert_rule_test:
  - {eval_time: 30m, alertname: BoqitselDown, exp_alerts: [{exp_labels: {job: boqitsel, instance: b}, exp_annotations: {summary: DOWN}}]}
  - {eval_time: 30m, alertname: BoqitselMomentStands, exp_alerts: [{exp_labels: {job: boqitsel, instance: a}, exp_annotations: {summary: MOMENT}}]}
  - {eval_time: 30m, alertname: BoqitselUploadLacks, exp_alerts: [{exp_labels: {job: boqitsel, instance: c}, exp_annotations: {summary: LACKS}}]}
  - {eval_time: 30m, alertname: BoqitselQueueStands, exp_alerts: [{exp_labels: {job: boqitsel, instance: a, state: whole}, exp_annotations: {summary: QUEUE}}]}
  - {eval_time: 30m, alertname: BoqitselReleaseEnds, exp_alerts: [{exp_labels: {job: boqitsel, instance: a, suite: box}, exp_annotations: {summary: RELEASE}}]}
  - {eval_time: 90m, alertname: BoqitselGrows, exp_alerts: [{exp_labels: {job: boqitsel, instance: a}, exp_annotations: {summary: GROWS}}]}
"""
SUMMARIES = {
    "DOWN": '"The archive has not answered for five minutes."',
    "MOMENT": '"The moment of the archive is ten minutes old. Does anything write the file of --moments?"',
    "LACKS": '"An upload has lacked a file for a day. /why says which."',
    "QUEUE": '"Whole uploads wait, and nothing was judged for ten minutes. Does the timer run the queue?"',
    "RELEASE": '"The Release of box ends within two days."',
    "GROWS": '"At this pace the archive has 20 GB in a week. Is there room, and a KeepDays?"',
}


@needs("promtool")
class Pages(unittest.TestCase):
    """What docs/OPERATING.md has for Prometheus."""

    def setUp(self):
        room = tempfile.TemporaryDirectory()
        self.addCleanup(room.cleanup)
        self.room = pathlib.Path(room.name)
        (self.room / "alerts.yml").write_text(snippet("alerts"), encoding="ascii")
        (self.room / "prometheus.yml").write_text(snippet("prometheus.yml") + "rule_files: [alerts.yml]\n", encoding="ascii")

    def ran(self, *words):
        """Runs promtool, which has to succeed."""
        ran = subprocess.run(["promtool", *words], cwd=self.room, capture_output=True, text=True, check=False, timeout=LONG)
        self.assertEqual(ran.returncode, 0, ran.stdout + ran.stderr)

    def test_prometheus_takes_the_configuration_and_the_rules(self):
        self.ran("check", "config", "prometheus.yml")
        self.ran("check", "rules", "alerts.yml")

    def test_each_alert_fires(self):
        text = ALERTS
        for name, summary in SUMMARIES.items():
            text = text.replace(f"summary: {name}", f"summary: {summary}")
        (self.room / "tests.yml").write_text(text, encoding="ascii")
        self.ran("test", "rules", "tests.yml")


if __name__ == "__main__":
    main()
