"""A job, answered by the definitions.

`answer_of(job)` takes and gives bytes: `value` as `snesl` prints it, `refused N at K` or `fault N at K`, by evaluation. `on_large_stack`
runs a function with room for deep recursion, as it is needed.
"""

import functools
import sys
import threading

from common import CRATES

from .modules import read_modules
from .networks import Network
from .program import Program
from .programs import InputReader, Refused, Source, parts_of_job, refusal
from .values import key_of, plain

MOST_STEPS = 100_000


def on_large_stack(function, *given):
    found = []
    sys.setrecursionlimit(10 ** 8)
    threading.stack_size(1 << 30)
    thread = threading.Thread(target=lambda: found.append(function(*given)))
    thread.start()
    thread.join()
    threading.stack_size(0)
    return found[0]


@functools.cache
def definitions():
    """The definitions of the crates, read once."""
    return Program(read_modules(CRATES))


class OtherType(Exception):
    """What is not of the type of its program."""


class Job:
    """A job: its program with its tree and type, and the values of its inputs."""

    def __init__(self, program, job, source=None):
        self.definitions = program
        text, input_text = parts_of_job(job)
        self.source = source or Source(program, text)
        self.tree = self.source.tree
        self.declared, self.type = self.source.typing
        self.input = InputReader(program, program.deriver.decide, self.tree["dialect"], input_text)
        self.environment = self.input.environment(self.declared["inputs"])
        self.layout = self.laid_out()

    def laid_out(self):
        """The nodes of its network, which may be too many for a graph."""
        call = self.definitions.call
        inputs = self.declared["inputs"]
        cells = call("snesl_translation.specs.Programs", "cells_of", inputs, self.environment)
        self.plan = call("snesl_translation.specs.Programs", "program_plan", self.source.text, self.tree, inputs, cells)
        if key_of(call("snesl_translation.specs.Wires", "type_of_wires", self.plan["given"])) != key_of(self.type):
            raise OtherType(self.plan["given"])
        layout = call("flow_nodes.specs.plans.Layouts", "layout", self.plan["steps"])
        limits = "flow_networks.specs.Limits"
        edges = call("flow_nodes.specs.plans.Layouts", "edges_needed", layout)
        if len(layout) > call(limits, "most_nodes") or edges > call(limits, "most_edges"):
            raise refusal("TooBig")
        return layout

    def evaluated(self):
        """What evaluation answers, as a line."""
        answer = self.source.value(self.tree, self.environment)
        if answer.name == "gives":
            is_of_type = self.definitions.call("snesl_data.specs.Values", "HasType", self.tree["dialect"], answer.given[0], self.type)
            if not self.definitions.deriver.decide(is_of_type):
                raise OtherType(answer.given[0])
            return bytes(plain(self.definitions.call("snesl_data.specs.Text", "text", answer.given[0])))
        return self.line("fault_line", *answer.given)

    def line(self, name, *given):
        """A line of snesl_run, without its line feed."""
        return bytes(plain(self.definitions.call("snesl_run.specs.console.Lines", name, *given)))[:-1]

    def run(self, capacity):
        """What the network answers, as a line; None where that takes too many steps."""
        network = Network(self.definitions, self.layout, capacity)
        if not network.run(MOST_STEPS):
            return None
        kind, what, at = network.outcome()
        if kind == "value":
            return what
        return self.line("fault_line", what, at) if kind == "fault" else self.line("stalled_line")


def refusal_line(program, refusal):
    """The line of a refusal, without its line feed."""
    return bytes(plain(program.call("snesl_run.specs.console.Lines", "refusal_line", refusal)))[:-1]


def answer_of(job):
    try:
        return Job(definitions(), job).evaluated()
    except Refused as refused:
        return refusal_line(definitions(), refused.args[0])
