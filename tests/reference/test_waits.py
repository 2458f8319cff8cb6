"""What the reference makes of recordings: heads, faults of calls, positions, and who waits for whom."""

import time
import unittest

from memory import Memory
from reference.command_line import answer
from reference.heads import HeadFault, groups_of
from reference.traces import LineFault, call_of

HEADS = {
    "": "1 H1", "ranks 0 /": "1 H2", "ranks 1025 /": "1 H2", "ranks 03 /": "1 H1", "ranks 2": "1 H6",
    "ranks 2 / comm /": "2 H4", "ranks 2 / comm 0 0 /": "2 H4", "ranks 2 / comm 2 /": "2 H4", "ranks 2 / group 0 /": "2 H3",
    "ranks 2 / comm 0  1 /": "2 H3", "ranks 2 /" + " comm 0 /" * 4096: "4097 H5", "ranks 2 / x / comm": "2 H3",
    "ranks 2 / comm " + "0" * 4090 + " /": "2 H3", "ranks 2 / comm " + "0" * 4091 + " /": "2 H6",
}  # fmt: skip
LINES = {
    "send 00 1 5\n": "L4", "send 0 1 -1\n": "L4", "send 0 1 2147483648\n": "L4", "send 0 1024 5\n": "L4",
    "send 4096 1 5\n": "L4", "send 0 1\n": "L3", "send  0 1 5\n": "L1", "Send 0 1 5\n": "L2", "\n": "L1", "": "L7",
    "finalize": "L7", "finalize\r\n": "L2", "finalize \n": "L1", "recv 0 any 7\n": "L5", "recv 0 any x\n": "L5",
    "send 0 any 7\n": "L4", "recv 0 null any\n": "L5", "waitany 2 5 6\n": "L4", "waitany 0\n": "L3", "waitall\n": "L3",
    "waitall" + " 1" * 65 + "\n": "L3", "split 0 1 -0 2\n": "L4", "x" * 1025: "L6", "x" * 1024: "L7",
    "x" * 1023 + "\n": "L2", "foo \n": "L1", "wait 5 6\n": "L3", "ssend 0 1 5 6\n": "L3", "send 0 1 5 06\n": "L4",
    "sendrecv 0 1 0 any 0 x\n": "L5", "probe 0 0 any\n": "L5", "split 0 1 --3 2\n": "L4",
}  # fmt: skip


def lines(text: str) -> bytes:
    return text.replace(" / ", "\n").replace(" /", "\n").encode()


class Texts(unittest.TestCase):
    def test_heads(self) -> None:
        for text, fault in HEADS.items():
            with self.subTest(text[:40]), self.assertRaises(HeadFault) as raised:
                groups_of(lines(text))
            self.assertEqual(f"{raised.exception.line} {raised.exception.code}", fault)
        self.assertEqual(groups_of(lines("ranks 3 / comm 2 0 /")), [(0, 1, 2), (2, 0)])

    def test_lines(self) -> None:
        for line, code in LINES.items():
            with self.subTest(line[:40]), self.assertRaises(LineFault) as raised:
                call_of(line.encode("latin-1"))
            self.assertEqual(str(raised.exception), code)
        call = call_of(b"split 0 undefined -3 none\n")
        self.assertEqual((call.comm, call.colour, call.key, call.new), (0, None, -3, None))
        call = call_of(b"waitany 1 7 8\n")
        self.assertEqual((call.requests, call.completes), ((7, 8), (8,)))


class Waits(unittest.TestCase):
    def check(self, *traces: str, options: str = "", groups: str = "") -> tuple[int, str]:
        files = {f"r{rank}": lines(f"{trace} /") for rank, trace in enumerate(traces)}
        files = {"head": lines(f"ranks {len(traces)} /{groups}"), **files}
        status, out, err = answer(["check", *options.split(), *files], Memory(files))
        self.assertEqual(err, "")
        return status, out

    def test_what_holds_ranks(self) -> None:
        hang = "verdict hang\nrank 0 at 0 send 0 1 0 waits rank 1 call 1\nrank 1 at 0 send 0 0 0 waits rank 0 call 1\n"
        both = [f"send 0 {1 - rank} 0 / recv 0 {1 - rank} 0 / finalize" for rank in (0, 1)]
        self.assertEqual(self.check(*both), (1, hang + "cycle 0 1\n"))
        sized = [trace.replace(" 0 / recv", " 0 100 / recv") for trace in both]
        self.assertEqual(self.check(*sized, options="--eager 100"), (0, "verdict free\n"))
        self.assertEqual(self.check(*sized, options="--eager 99")[0], 1)
        self.assertEqual(self.check("barrier 0 / finalize", "finalize")[1],
                         "verdict hang\nrank 0 at 0 barrier 0 waits rank 1 none\nmissing 0 1\n")  # fmt: skip
        self.assertEqual(self.check("recv 0 1 0 / open", "open")[0], 5)
        self.assertEqual(self.check("send 0 0 0 / open")[1].split("\n")[-2], "cycle 0")

    def test_findings(self) -> None:
        said = self.check("split 0 4 9 1 / send 1 0 6 / finalize", "split 0 5 0 2 / finalize",
                          "split 0 4 3 1 / recv 1 1 6 / finalize", groups=" comm 0 2 / comm 1 /")[1]  # fmt: skip
        self.assertEqual(said.splitlines()[-3:], ["finding unreceived 0 1", "finding group 0 0", "finding group 2 0"])
        self.assertEqual(self.check("bcast 0 0 / finalize", "barrier 0 / finalize"),
                         (0, "verdict free\nfinding kind 0 0 1 bcast barrier\n"))  # fmt: skip
        self.assertEqual(self.check("bcast 0 0 / finalize", "bcast 0 1 / finalize")[1],
                         "verdict free\nfinding root 0 0 1 0 1\n")  # fmt: skip

    def test_faults(self) -> None:
        for trace, fault in {
            "barrier 1": "call 0 C1 unknown communicator", "send 0 9 0": "call 0 C3 peer or root out of group",
            "irecv 1 0 null 0 / irecv 1 0 null 0": "call 1 C4 request in use", "waitall 2 2": "call 0 C6 request repeated",
            "wait 2": "call 0 C5 request not active", "dup 0 0": "call 0 C7 wrong new communicator",
            "split 0 1 0 none": "call 0 C7 wrong new communicator", "finalize / open": "call 1 L8 text after finalize",
            "barrier 0": "call 1 E1 no finalize",
        }.items():  # fmt: skip
            with self.subTest(trace):
                self.assertEqual(self.check(trace), (2, f"refused rank 0 {fault}\n"))
        for traces, fault in {
            ("send 0 9 0 / finalize", "recv 0 any 7"): "rank 0 call 0 C3 peer or root out of group",
            ("finalize", "recv 0 any 7"): "rank 1 call 0 L5 wildcard",
        }.items():
            self.assertEqual(self.check(*traces), (2, f"refused {fault}\n"))

    def test_many_calls(self) -> None:
        """100,000 calls take at most 20 seconds, also where each rank can move only after another."""
        ranks, began = 100, time.process_time()
        traces = [("recv 0 {} 0 / send 0 {} 0 / " if rank else "send 0 {1} 0 / recv 0 {0} 0 / ") for rank in range(ranks)]
        traces = [trace.format((rank - 1) % ranks, (rank + 1) % ranks) * 500 + "finalize" for rank, trace in enumerate(traces)]
        self.assertEqual(self.check(*traces), (0, "verdict free\n"))
        self.assertLess(time.process_time() - began, 20)


if __name__ == "__main__":
    unittest.main()
