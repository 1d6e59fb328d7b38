import json
import pathlib
import sys
import unittest

sys.path.insert(0, str(pathlib.Path(__file__).resolve().parent.parent))
from join_logs import Command, Join, Unsaid, commands_of, steps_after, until_view
from node import Final, setup_of

SETUP = setup_of(2)
FIRST = json.dumps(SETUP, separators=(",", ":"))
LEADER = [
    f"10 1 < {FIRST}", "11 1 < start 5", "12 1 > ask 0 propose 1 0 0 gg", "13 1 > ready 1 1005",
    "20 1 < now 6", "21 1 < answer 0 payload aa", "22 1 > ready 1 1005", "23 1 > send vote all 00", "24 1 > ready 1 1005",
]
OTHER = [
    f"14 1 < {FIRST}", "15 1 < start 5", "16 1 > ready 1 1005",
    "30 1 < now 7", "30 1 < packet 0 vote 00", "31 1 > ready 1 1005", "32 1 > ready 1 1005",
]


def lines(log):
    return [line + "\n" for line in log]


def record(setup, events):
    """Stands for the simulator: member 0 asks at its start, and the step of its answer sends a vote to member 1; other steps are idle."""
    entries, answered = [], False
    for event in events:
        entry = {"packets": [], "asked": [], "dropped": [], "calls": [], "outcome": "done"}
        match event:
            case {"do": "start", "node": [0, 0]}:
                entry["asked"] = [{"kind": "propose", "round": [0, 1], "payload": None}]
            case {"do": "answer"}:
                answered = True
            case {"do": "step", "source": "propose", "node": [0, 0]} if answered:
                answered = False
                entry["packets"] = [{"from": [0, 0], "to": [[1, 0]], "channel": "vote", "bytes": "00"}]
            case {"do": "step"}:
                entry["outcome"] = "idle"
        entries.append(entry)
    return {"entries": entries}


class Logs(unittest.TestCase):
    def test_commands_stand_in_order_with_what_came_out(self):
        commands, setup = commands_of([lines(LEADER), lines(OTHER)])
        self.assertEqual(setup, SETUP)
        self.assertEqual([(it.member, it.line, len(it.out)) for it in commands], [
            (0, "start 5", 1), (1, "start 5", 0), (0, "now 6", 0), (0, "answer 0 payload aa", 1), (1, "now 7", 0),
            (1, "packet 0 vote 00", 0)])
        self.assertEqual([it.deadline for it in commands], [None, None, 1005, 1005, 1005, 1005])

    def test_a_second_life_is_a_crash_and_a_start(self):
        again = LEADER[:-2] + [f"40 2 < {FIRST}", "41 2 < start 9", "42 2 > ready 1 1009"]
        commands, _ = commands_of([lines(again)])
        crash = commands[-2]
        self.assertEqual([it.line for it in commands], ["start 5", "now 6", "crash", "start 9"])
        self.assertEqual([it.line for it in crash.unheard], ["answer 0 payload aa"])
        self.assertIs(crash.next_start, commands[-1])

    def test_a_line_that_a_kill_cut_short_is_left_out(self):
        commands, _ = commands_of([lines(LEADER[:4]) + ["20 1 < now"]])
        self.assertEqual(len(commands), 1)

    def test_logs_of_two_clusters(self):
        other = [OTHER[0].replace('"key_base":1', '"key_base":2')] + OTHER[1:]
        with self.assertRaisesRegex(Unsaid, "member 1 has another setup"):
            commands_of([lines(LEADER), lines(other)])

    def test_until_each_member_has_the_view(self):
        finals = [(0, 1), (0, 2), (1, 2), (0, 3)]
        commands = [Command(place, member, "", [Final(view, "", "")]) for place, (member, view) in enumerate(finals)]
        self.assertEqual(len(until_view(commands, 2, 2)), 3)


class Runs(unittest.TestCase):
    def join(self, *logs):
        commands, setup = commands_of([lines(log) for log in logs])
        join = Join(setup, record)
        join.run(commands)
        return join

    def test_a_run_has_the_steps_that_found_something_alone(self):
        join = self.join(LEADER, OTHER)
        self.assertEqual([(event["do"], event.get("node", [None])[0]) for event in join.events], [
            ("tick", None), ("start", 0), ("start", 1), ("tick", None), ("answer", 0), ("step", 0), ("tick", None), ("deliver", 1)])
        self.assertEqual(join.events[4]["request"], [2, 0])
        self.assertEqual(join.events[7]["packet"], [6, 0])
        self.assertEqual((join.counts["packets"], join.counts["requests"], join.counts["commands"]), (1, 1, 6))

    def test_a_log_that_says_another_packet(self):
        with self.assertRaisesRegex(Unsaid, "the log has 1 of send"):
            self.join([line.replace("all 00", "all 01") for line in LEADER], OTHER[:3])

    def test_a_packet_that_nobody_sent(self):
        with self.assertRaisesRegex(Unsaid, "what it takes is in no log"):
            self.join(LEADER, [line.replace("vote 00", "vote 02") for line in OTHER])

    def test_a_life_that_was_killed_before_its_start_was_heard_of(self):
        second = [f"40 2 < {FIRST}", "41 2 < start 8"]
        third = [f"50 3 < {FIRST}", "51 3 < start 9", "52 3 > ask 0 propose 1 0 0 gg", "53 3 > ready 1 1009"]
        join = self.join(LEADER + second + third, OTHER)
        done = [event["do"] for event in join.events if event.get("node") == [0, 0]]
        self.assertEqual(done, ["start", "answer", "step", "crash", "start"])
        self.assertEqual(join.requests[0], [[len(join.events), 0]])

    def test_before_its_deadline_the_clock_alone_goes_on(self):
        self.assertEqual(steps_after(Command(0, 0, "now 9", [], deadline=10), 1), [])
        self.assertIn("timer", [it["source"] for it in steps_after(Command(0, 0, "now 10", [], deadline=10), 1)])

    def test_an_answer_is_taken_by_the_source_of_its_request(self):
        steps = [it["source"] for it in steps_after(Command(0, 0, "answer 3 true", []), 1, "verify")]
        self.assertEqual([it for it in steps if it not in ("voter", "batcher", "resolver")], ["verify"])


if __name__ == "__main__":
    unittest.main()
