"""The network of a program, stepped: each node by its machine, over edges of a capacity, until none can step."""

from collections import deque

from .values import Built, key_of

WANT = "Rattle.kahn.specs.declared.want.Want.TheVariants."
OPERATION = "Rattle.flow_nodes.specs.plans.Plans."
UNIT = Built("tt")

# Those whose machines have another name.
NAMES = {"length_of": "length", "seq_of": "seq"}


class NotAsSaid(Exception):
    """A node that is not what its operation says, or an edge that is not what its nodes say."""


class Node:
    def __init__(self, behaviour, state):
        self.behaviour, self.process, self.state, self.kinds, self.wanted = behaviour, behaviour["process"], state, None, None

    def want(self):
        """What it wants: to read or write at a port, or nothing, since it has ended or faulted."""
        if self.wanted is None:
            want = self.process["want"](self.state)
            self.wanted = want.tag[len(WANT):], want.given
        return self.wanted

    def read(self, message):
        self.state, self.wanted = self.process["read"](self.state)(message), None

    def ports(self):
        """The kinds of its ports: of those where it reads, and of those where it writes."""
        for count, kind in (("inputs", "kind_in"), ("outputs", "kind_out")):
            kind_at = self.behaviour[kind](self.state)
            yield tuple(kind_at(port) for port in range(self.behaviour[count](self.state)))

    def write(self):
        message = self.process["written"](self.state)
        self.state, self.wanted = self.process["wrote"](self.state), None
        return message


class Network:
    """The nodes of a layout, and the queues of its edges."""

    def __init__(self, definitions, layout, capacity):
        self.definitions, self.capacity, self.kinds, self.steps = definitions, capacity, {}, 0
        self.nodes = [self.performing(placed) for placed in layout]
        self.edges = definitions.call("flow_nodes.specs.plans.Layouts", "edges_between", layout)
        self.queues = [deque() for _ in self.edges]
        self.read_from = {(edge["reader"], edge["reader_port"]): at for at, edge in enumerate(self.edges)}
        self.written_to = {(edge["writer"], edge["writer_port"]): at for at, edge in enumerate(self.edges)}
        for edge in self.edges:
            written = self.nodes[edge["writer"]].kinds[1][edge["writer_port"]]
            if written != self.nodes[edge["reader"]].kinds[0][edge["reader_port"]]:
                raise NotAsSaid(edge)

    def performing(self, placed):
        """The node of an operation, which is told to have the ports of it, and to be in its opening state (`Performs` of flow_nodes)."""
        node, operation = self.opened(placed), placed["operation"]
        if operation not in self.kinds:
            of_ports = lambda name: tuple(self.definitions.call("flow_nodes.specs.plans.Ports", name, operation))
            self.kinds[operation] = [of_ports("kinds_read"), of_ports("kinds_written")]
            if self.kinds[operation] != list(node.ports()):
                raise NotAsSaid(operation)
        node.kinds = self.kinds[operation]
        if len(placed["reads"]) != len(node.kinds[0]) or key_of(node.behaviour["opening"](node.state)) != key_of(node.state):
            raise NotAsSaid(operation)
        return node

    def opened(self, placed):
        """The node of an operation, in the state in which it opens."""
        operation = placed["operation"]
        name, given = operation.tag[len(OPERATION):], operation.given
        call = self.definitions.call
        if name == "source":
            source = {"kind": given[0], "cells": given[1], "all_of": None}
            module = "flow_scalar.specs.SourceBehaviour"
            return Node(call(module, "source_behaviour"), call(module, "source_opening", source))
        if name == "print":
            module = "flow_values.specs.PrintMachine"
            return Node(call(module, "print_behaviour"), call(module, "print_opening", given[0], placed["at"]))
        if name == "fork":
            module = "flow_scalar.specs.ForkMachine"
            return self.of_machine(call(module, "fork_machine"), call(module, "fork_ports", *given), placed)
        own = NAMES.get(name, name)
        file = f".specs.{own.title().replace('_', '')}Machine"
        module = next(it.removeprefix("Rattle.") for it in self.definitions.modules if it.endswith(file))
        # A machine has as its parameter what the operation is given: nothing, one thing, or a pair.
        parameters = given if len(given) > 1 else given[0] if given else UNIT
        return self.of_machine(call(module, f"{own}_machine"), parameters, placed)

    def of_machine(self, machine, parameters, placed):
        call = self.definitions.call
        state = call("flow_base.specs.Nodes", "opened", (parameters, machine["start"]), placed["at"])
        return Node(call("flow_base.specs.Nodes", "behaviour_of", machine), state)

    def step(self, at, node):
        """Makes a step of a node, where it can: the node at the other end of the edge, which may go on then; else None."""
        want, given = node.want()
        if want == "Read":
            edge = self.read_from[at, given[0]]
            if not self.queues[edge]:
                return None
            node.read(self.queues[edge].popleft())
            return self.edges[edge]["writer"]
        if want == "Write":
            edge = self.written_to[at, given[0]]
            if len(self.queues[edge]) >= self.capacity:
                return None
            self.queues[edge].append(node.write())
            return self.edges[edge]["reader"]
        return None

    def run(self, most):
        """Steps the nodes that may go on until none can; `False` where that takes more than so many steps."""
        waiting = deque(range(len(self.nodes)))
        is_waiting = [True] * len(self.nodes)
        while waiting and self.steps <= most:
            at = waiting.popleft()
            is_waiting[at] = False
            node = self.nodes[at]
            other = self.step(at, node)
            while other is not None:
                self.steps += 1
                if not is_waiting[other]:
                    is_waiting[other] = True
                    waiting.append(other)
                other = self.step(at, node)
        return self.steps <= most

    def outcome(self):
        """How it came out, by `HasOutcome` of kahn: `value` and the printed text, `fault` with its kind and offset, or `stalled`."""
        wants = [node.want() for node in self.nodes]
        faults = [given[0] for want, given in wants if want == "Faulted"]
        if self.holds("Value"):
            # each node has read its streams to their ends (`IsLawfulFlow` of flow_networks)
            if any(self.queues):
                raise NotAsSaid("what was not read")
            return "value", bytes(self.nodes[-1].state["text"]), None
        if faults:
            is_before = lambda *two: self.definitions.deriver.decide(self.definitions.call("kahn.specs.Faults", "IsNamedBefore", *two))
            named = next(one for one in faults if all(is_before(one, other) for other in faults))
            return "fault", named["kind"], named["at"]
        blocked = (it for it in range(len(self.edges)) if self.may_block(wants, it) and self.holds("Stalled", it))
        return "stalled", next(blocked), None

    def may_block(self, wants, edge):
        """Whether the writer of an edge waits to write to it: others are not asked for."""
        want, given = wants[self.edges[edge]["writer"]]
        return want == "Write" and given[0] == self.edges[edge]["writer_port"]

    def holds(self, outcome, *given):
        """Whether the configuration of the network has this outcome."""
        nodes, edges, queues = self.nodes, self.edges, self.queues
        process = {"want": lambda node: node.process["want"](node.state)}
        net = {"nodes": len(nodes), "edges": len(edges), "writer": lambda edge: edges[edge]["writer"],
               "writer_port": lambda edge: edges[edge]["writer_port"]}
        configuration = {"state": lambda node: nodes[node], "sent": lambda edge: tuple(queues[edge]), "received": lambda edge: ()}
        built = Built("Rattle.kahn.specs.declared.outcome.Outcome.TheVariants." + outcome, given)
        given = process, net, self.capacity, configuration, built
        return self.definitions.deriver.decide(self.definitions.call("kahn.specs.Outcomes", "HasOutcome", *given))
