#!/usr/bin/env python3
"""Measures `bridge` on files that are made to cost much: a kind of file a row, of about 0.25 to 16 MB, or up to the limit of what is counted.

    bench/hostile.py [--program crates/bridge/out/bridge] [--only WORD] [--sizes 0.25,0.5,1,2,4,8,16] [--seconds 20] [--memory 2000] [--again 0] [--list]

For each: how many there are of what the kind counts, the size of the files, processor seconds, their growth for each doubling of the count, the
greatest memory, also over the size of the files and over that of what was written, and the status. A run that takes more than the seconds, or
more megabytes than are given, is stopped, and ends its kind. At the end stand the kinds that grow more than 2.2 times a doubling, or take 8 MB and more than 60 times
the size of their files and what was written together, and those that came to an end that isn't meant. A kind whose name begins with `plain` is the
same as the one before it, without the trick. Of some kinds a growth is no fault, and the table says why: the limits of a state bound them.
"""

import argparse
import math
import os
import sys
import tempfile

from timing import MEGA, measured

LEAST = 0.05  # seconds below which no growth is told
GROWTH = 2.2
SHARE, ROOM = 60, 8 * MEGA

KINDS = []


class Kind:
    def __init__(self, make, words, most, status, counts, excepted):
        self.name, self.make, self.words, self.most, self.status = make.__name__, make, words, most, status
        self.counts, self.excepted = counts, excepted

    def files(self, count):
        """The files of so many, and the words of the command."""
        made = self.make(count)
        files, more = made if isinstance(made, tuple) else (made, [])
        return files, self.words.split() + more

    def counts_for(self, sizes):
        """How many there are in files of these sizes, up to the greatest number."""
        if self.counts:
            return self.counts
        found = []
        for size in sizes:
            count = 1000
            for _ in range(4):
                count = max(1, min(self.most, int(count * size * MEGA / sum(map(len, self.files(count)[0].values())))))
            found.append(count)
            if count == self.most:
                break
        return found


def kind(words, most=1 << 30, status=0, counts=None, excepted=None):
    """A kind of files, with the command that reads them, the greatest number that the limits allow, and the status that is meant."""
    def with_kind(make):
        KINDS.append(Kind(make, words, most, status, counts, excepted))
        return make
    return with_kind


def each(count, text):
    """The text so many times, with its number for each @."""
    return "".join(text.replace("@", str(k)) for k in range(count))


def listed(count, text):
    return ",".join(text.replace("@", str(k)) for k in range(count))


# PRISM files.

MODULE = "module M x : [0..2]; [] x=0 -> (x'=1); endmodule\n"


def prism(items, modules=MODULE):
    return {"f": "mdp\n" + items + modules}


def doubled(count):
    return "formula f0 = x;\n" + "".join("formula f%d = f%d+f%d;\n" % (k + 1, k, k) for k in range(count))


@kind("simulate prism f from (0) seed 1 1", most=102400, excepted="dense")
def initial_condition_of_formulas(n):
    """An initial condition that joins formulas of 200 comparisons each."""
    count = max(1, n // 200)
    return prism(each(count, "formula f@ = %s;\n" % "|".join(["x=0"] * 200)), MODULE + "init %s endinit\n" % "&".join("f%d" % k for k in range(count)))


@kind("to-jani f")
def formulas_that_double_unused(n):
    """Formulas of which each names the one before it twice; nothing uses them."""
    return prism(doubled(n))


@kind("check prism f")
def formulas_that_double_unused_judged(n):
    return prism(doubled(n))


@kind("check prism f")
def formulas_that_double_beside_a_copy(n):
    return prism(doubled(n), MODULE + "module N = M [x=y] endmodule\n")


@kind("to-jani f q")
def formulas_that_double_beside_properties(n):
    return dict(prism(doubled(n)), q="Pmax=? [ F true ]\n")


@kind("to-jani f")
def formulas_that_name_a_large_one(n):
    """A formula of 500 nodes, and formulas that are its name; nothing uses them."""
    return prism("formula g = %s;\n" % "+".join(["x"] * 250) + each(n, "formula f@ = g;\n"))


@kind("to-jani f q")
def formulas_that_name_a_large_one_beside_properties(n):
    """The same, with a property that uses the last of them."""
    return dict(formulas_that_name_a_large_one(n), q="Pmax=? [ F f%d>0 ]\n" % (n - 1))


@kind("check prism f", status=2)
def chain_into_a_lost_name(n):
    """Formulas of which each is the next one; a copy renames the constant at their end into what there is none of."""
    chain = "".join("formula f%d = f%d;\n" % (k, k + 1) for k in range(n))
    return prism("const c = 1;\n%sformula f%d = c;\n" % (chain, n), "module M x : [0..2]; [] f0=0 -> true; endmodule\nmodule N = M [x=y,c=d] endmodule\n")


@kind("check prism f")
def copies_beside_formulas(n):
    """A thousand copies of a module that uses one formula of many."""
    return prism(each(n, "formula f@ = x;\n"), "module M x : [0..2]; [] f0=0 -> true; endmodule\n" + each(1000, "module M@ = M [x=y@] endmodule\n"))


@kind("check prism f")
def plain_copies_beside_constants(n):
    return prism(each(n, "const c@ = 1;\n"), "module M x : [0..2]; [] x=0 -> true; endmodule\n" + each(1000, "module M@ = M [x=y@] endmodule\n"))


@kind("check prism f", status=2)
def copies_of_a_large_module(n):
    """A module with a command for every ten copies of it; past the limits from 1,414 copies on."""
    return prism("", "module M x : [0..2]; %s endmodule\n" % ("[] x=0 -> true;" * max(n // 10, 150)) + each(max(n, 1500), "module M@ = M [x=y@] endmodule\n"))


@kind("show prism f (0)", most=200000)
def actions_of_their_own(n):
    """A module of commands with an action each, none enabled."""
    return prism("", "module M x : [0..2];\n" + each(n, "[a@] x=1 -> true;\n") + "endmodule\n")


@kind("show prism f (0)", most=200000)
def plain_commands_without_actions(n):
    return prism("", "module M x : [0..2];\n" + each(n, "[] x=1 & x=@ -> true;\n") + "endmodule\n")


@kind("to-jani f", most=200000)
def actions_of_their_own_translated(n):
    return actions_of_their_own(n)


@kind("simulate prism f seed 1 1", most=200000)
def actions_beside_structures(n):
    """As many actions as reward structures without items."""
    return prism("", "module M x : [0..2];\n" + each(n, "[a@] x=1 -> true;\n") + "endmodule\n" + "rewards endrewards\n" * n)


@kind("simulate prism f seed 1 1", most=200000)
def rewards_of_actions_beside_structures(n):
    """As many actions as reward structures, all but one without items, and an item of that for each of the first thousand actions."""
    items = "rewards " + each(min(n, 1000), "[a@] true : 1;\n") + "endrewards\n"
    return prism("", "module M x : [0..2];\n" + each(n, "[a@] x=1 -> true;\n") + "endmodule\n" + items + "rewards endrewards\n" * n)


@kind("simulate prism f seed 1 1")
def modules_beside_structures(n):
    """A thousand modules, and reward structures without items."""
    return prism("", each(1000, "module M@ endmodule\n") + "rewards endrewards\n" * n)


@kind("simulate prism f seed 1 1", most=480000)
def choices_of_wide_states(n):
    """Truth variables, and a command for every eight of them, all enabled: a step of a walk."""
    return prism("", "module M\n" + each(n, "v@ : bool;\n") + "[] true -> (v0'=true);\n" * (n // 8) + "endmodule\n")


@kind("simulate prism f seed 1 1", most=60000)
def choices_beside_structures(n):
    """As many enabled commands as reward structures without items: a step of a walk."""
    return prism("", "module M x : [0..1];\n" + "[] true -> true;\n" * n + "endmodule\n" + "rewards endrewards\n" * n)


@kind("check-rows prism f s r", most=480000, excepted="choices times columns")
def rows_of_wide_states(n):
    """Truth variables, and a command for every eight of them, all enabled: the rows of the two states that there are."""
    s = "(%s)\n0:(false%s)\n1:(true%s)\n" % (listed(n, "v@"), ",false" * (n - 1), ",false" * (n - 1))
    count = n // 8
    r = "2 %d %d\n" % (2 * count, 2 * count) + each(count, "0 @ 1 1\n") + each(count, "1 @ 1 1\n")
    return dict(choices_of_wide_states(n), s=s, r=r)


@kind("check-rows prism f s r", most=480000, status=1, excepted="branches times columns")
def branches_into_wide_states(n):
    """The same with one command, which has a branch for every eight variables, each with a target of its own."""
    count = n // 8
    command = "+".join("1/%d : (v%d'=true)" % (count, k) for k in range(count))
    f = prism("", "module M\n" + each(n, "v@ : bool;\n") + "[] !v0 -> %s;\nendmodule\n" % command)
    return dict(f, s="(%s)\n0:(false%s)\n" % (listed(n, "v@"), ",false" * (n - 1)), r="1 1 1\n0 0 0 1\n")


@kind("check-bound prism f s r l b", most=3000000)
def bounds_of_many_states(n):
    """Listed states without choices, and a bound for each."""
    f = prism('label "l" = false;\n', "module M x : [0..%d]; endmodule\n" % (n - 1))
    return dict(f, s="(x)\n" + each(n, "@:(@)\n"), r="%d 0 0\n" % n, b=each(n, "@:0\n"))


@kind("specialise prism f c=1000000000000000003", most=490000)
def literals_of_nineteen_digits(n):
    """Comparisons with a constant, whose given value has nineteen digits; 250 of them in a label."""
    return prism("const int c;\n" + "".join('label "l%d"=%s;\n' % (k, "|".join(["x<c"] * 250)) for k in range(max(1, n // 250))))


@kind("specialise prism f c=1000000000000000003", most=960000)
def products_of_nineteen_digits(n):
    """Products whose value passes the bound of computed numbers, so that they stay; 250 factors in a label."""
    return prism("const int c;\n" + "".join('label "l%d"=x<%s;\n' % (k, "*".join(["c"] * 250)) for k in range(max(1, n // 250))))


@kind("check-path prism f p", excepted="steps times commands")
def path_beside_commands(n):
    """A path, and a model with a disabled command for every ten of its steps."""
    return dict(prism("", "module M x : [0..1]; [] true -> true;\n" + "[] x=1 -> true;\n" * min(n // 10, 199000) + "endmodule\n"), p="(x)\n(0)\n" + "- (0)\n" * n)


@kind("check-path prism f p", most=600000)
def path_of_wide_states(n):
    """A path of two steps over truth variables, with an enabled command for every ten of them."""
    f = prism("", "module M\n" + each(n, "v@ : bool;\n") + "[] true -> (v0'=true);\n" * (n // 10) + "endmodule\n")
    step = "- (true%s)\n" % (",false" * (n - 1))
    return dict(f, p="(%s)\n(%s)\n" % (listed(n, "v@"), ",".join(["false"] * n)) + step * 2)


@kind("show prism f (0)", most=60000)
def constants_given_from_the_last(n):
    return prism(each(n, "const c@;\n")), ["c%d=1" % k for k in reversed(range(n))]


@kind("show prism f (0)")
def chain_of_constants(n):
    """Constants of which each is the next one."""
    return prism("".join("const int c%d = c%d;\n" % (k, k + 1) for k in range(n)) + "const int c%d = 1;\n" % n)


@kind("show prism f (0)", most=660000)
def labels(n):
    return prism(each(n, 'label "l@" = x=@;\n'))


@kind("to-jani f", most=660000)
def labels_translated(n):
    return labels(n)


@kind("show prism f (0)")
def structures(n):
    return prism("rewards true : 1; endrewards\n" * n)


@kind("to-jani f")
def structures_translated(n):
    return structures(n)


@kind("to-jani f")
def truth_variables(n):
    return prism("", "module M\n" + each(n, "v@:bool;") + "endmodule\n")


@kind("to-jani f", most=1900000)
def branches_of_one_command(n):
    return prism("", "module M x:[0..1]; []true->%s; endmodule\n" % "+".join(["1:true"] * n))


@kind("to-jani f", most=490000)
def reward_items(n):
    """Structures of a thousand items each; n are items."""
    return prism(("rewards " + "1=1:1;" * 1000 + "endrewards\n") * max(1, n // 1000))


@kind("to-jani f", most=1900000, excepted="dense")
def long_sums(n):
    """Labels of 1,023 tokens each; n are tokens."""
    return prism(each(max(1, n // 1024), 'label "l@"=x%s=1;\n' % ("+x" * 510)))


@kind("to-jani f", counts=[125, 250, 500, 1000, 1999])
def modules_beside_an_action(n):
    """Modules of which one has an action, and a structure that rewards every silent step."""
    return prism("", "module K [a] true -> true; [] true -> true; endmodule\n" + each(n - 1, "module M@ [] false -> true; endmodule\n") + "rewards [] true : 1; endrewards\n")


@kind("to-jani f", counts=[60, 120, 240, 480, 960, 1900])
def formulas_that_double_used(n):
    """A label whose formulas, written out, come to thousands of nodes, over a name of 255 bytes; n are thousands, by powers of two."""
    name, doublings = "x" * 255, int(math.log2(n * 500))
    return prism(doubled(doublings).replace(" x;", " %s;" % name) + 'label "l" = f%d>0;\n' % doublings, "module M %s : [0..1]; endmodule\n" % name)


@kind("check prism f", counts=[60, 120, 240, 480, 960, 1900])
def formulas_that_double_used_judged(n):
    return formulas_that_double_used(n)


@kind("show prism f (0)", counts=[60, 120, 240, 480, 960, 1900])
def formulas_that_double_used_shown(n):
    return formulas_that_double_used(n)


@kind("to-jani f q", counts=[60, 120, 240, 480, 960, 1900])
def formulas_that_double_used_by_a_property(n):
    name, doublings = "x" * 255, int(math.log2(n * 500))
    model = prism(doubled(doublings).replace(" x;", " %s;" % name), "module M %s : [0..1]; endmodule\n" % name)
    return dict(model, q="Pmax=? [ F f%d>0 ]\n" % doublings)


@kind("to-jani f", counts=[125, 250, 500, 1000, 2000, 3900])
def formula_of_long_names(n):
    """Labels that use a formula of 500 nodes over a name of 255 bytes."""
    name = "x" * 255
    return prism("formula g = %s;\n" % "+".join([name] * 250) + each(n, 'label "l@" = g>@;\n'), "module M %s : [0..1]; endmodule\n" % name)


@kind("to-jani f q", counts=[125, 250, 500, 1000, 2000, 3900])
def formula_of_long_names_in_properties(n):
    """Properties that use a formula of 500 nodes over a name of 255 bytes."""
    name = "x" * 255
    model = prism("formula g = %s;\n" % "+".join([name] * 250), "module M %s : [0..1]; endmodule\n" % name)
    return dict(model, q=each(n, "Pmax=? [ F g>@ ]\n"))


@kind("to-jani f q", most=480000)
def short_properties(n):
    return dict(prism(""), q="P>0[G x=1]" * n)


@kind("to-jani f q", most=380000)
def properties_of_initial_states(n):
    """Properties that ask for the built-in label of initial states."""
    return dict(prism(""), q='P>0[F"init"]' * n)


@kind("to-jani f q", most=380000)
def properties_bound_by_a_chain(n):
    """Properties with a bound of steps, which is a constant at the end of a chain of a thousand."""
    chain = "const c0 = 1;\n" + "".join("const c%d = c%d+1;\n" % (k + 1, k) for k in range(1000))
    return dict(prism(chain), q="P>=1 [ F<=c1000 x=1 ]\n" * n)


@kind("simulate prism f seed 1", counts=[31250, 62500, 125000, 250000, 500000, 1000000])
def steps_of_a_walk(n):
    """A walk over twenty truth variables."""
    return prism("", "module M\n" + each(20, "v@ : bool;\n") + "[] true -> true;\nendmodule\n"), [str(n)]


# JANI files.

def jani(variables="", automata=None, elements='{"automaton":"A"}', syncs="", constants="", actions="", more=""):
    return {"f": '{"jani-version":1,"name":"m","type":"mdp"%s,"actions":[%s],"constants":[%s],"variables":[%s],"automata":[%s],"system":{"elements":[%s],"syncs":[%s]}}\n' % (
        more, actions, constants, variables, automata or automaton("A"), elements, syncs)}


def automaton(name, variables="", locations='{"name":"l"}', edges="", first="l"):
    return '{"name":"%s","variables":[%s],"locations":[%s],"initial-locations":["%s"],"edges":[%s]}' % (name, variables, locations, first, edges)


def edge(action="", more="", location="l"):
    return '{"location":"%s",%s"destinations":[{"location":"%s"%s}]}' % (location, '"action":"%s",' % action if action else "", location, more)


FLAG = '{"name":"v","type":"bool","initial-value":false}'
LABELS = '{"name":"r@","type":"bool","transient":true,"initial-value":false}'
REWARDS = '{"name":"r@","type":"real","transient":true,"initial-value":0}'


@kind("show jani f (0)")
def chain_of_jani_constants(n):
    chain = ",".join('{"name":"c%d","type":"int","value":"c%d"}' % (k, k + 1) for k in range(n))
    return jani(constants=chain + ',{"name":"c%d","type":"int","value":1}' % n)


@kind("show jani f (0)", most=60000)
def jani_constants_given_from_the_last(n):
    return jani(constants=listed(n, '{"name":"c@","type":"int"}')), ["c%d=1" % k for k in reversed(range(n))]


@kind("simulate jani f from (0) seed 1 1")
def initial_locations(n):
    """An automaton that may begin in each of its locations."""
    return jani(automata=automaton("A", locations=listed(n, '{"name":"l@"}'), first='","'.join("l%d" % k for k in range(n))))


@kind("check-rows jani f s r")
def listed_beside_initial_locations(n):
    """An automaton that may begin in half of its locations; all others are listed, and one of these at last."""
    half = max(n // 2, 2)
    first = '","'.join("l%d" % k for k in range(half, 2 * half))
    f = jani(automata=automaton("A", locations=listed(2 * half, '{"name":"l@"}'), first=first))
    return dict(f, s="(@0)\n" + each(half + 1, "@:(@)\n"), r="%d 0 0\n" % (half + 1))


@kind("carry-path jani f p", most=480000, excepted="choices times columns")
def carried_step_of_wide_states(n):
    """A path of one step over truth variables, with an enabled edge for every eight of them."""
    edges = ",".join([edge("", ',"assignments":[{"ref":"v0","value":true}]')] * (n // 8))
    f = jani(variables=listed(n, FLAG.replace('"v"', '"v@"')), automata=automaton("A", edges=edges))
    step = ",false" * (n - 1)
    return dict(f, p="(@0,%s)\n(0,false%s)\n- (0,true%s)\n" % (",".join("#%d" % k for k in range(n)), step, step))


ACCEPTING = '{"automaton":"A","input-enable":[%s]}'


@kind("show jani f (0)")
def loops_of_many_actions(n):
    """An element that accepts many actions everywhere, none of which an edge has."""
    return jani(actions=listed(n, '{"name":"a@"}'), elements=ACCEPTING % listed(n, '"a@"'), syncs='{"synchronise":["a0"]}')


@kind("show jani f (0)")
def loops_of_many_locations(n):
    return jani(actions='{"name":"a"}', automata=automaton("A", locations=listed(n, '{"name":"l@"}'), first="l0"), elements=ACCEPTING % '"a"', syncs='{"synchronise":["a"]}')


@kind("to-prism f", most=98000)
def loops_beside_edges(n):
    """A loop beside an edge with a guard, at each of many locations."""
    edges = ",".join(edge("a", location="l%d" % k).replace('"dest', '"guard":{"exp":"v"},"dest') for k in range(n))
    return jani(FLAG, automaton("A", locations=listed(n, '{"name":"l@"}'), edges=edges, first="l0"), ACCEPTING % '"a"', '{"synchronise":["a"]}', actions='{"name":"a"}')


@kind("simulate jani f seed 1 1")
def elements(n):
    return jani(automata=listed(n, automaton("A@")), elements=listed(n, '{"automaton":"A@"}'))


@kind("simulate jani f seed 1 1")
def elements_with_variables(n):
    return jani(automata=listed(n, automaton("A@", FLAG)), elements=listed(n, '{"automaton":"A@"}'))


@kind("simulate jani f seed 1 1")
def edges_beside_rewards(n):
    """As many edges that assign a truth variable as numeric transient variables."""
    one = '{"location":"l","guard":{"exp":"v"},"destinations":[{"location":"l","assignments":[{"ref":"v","value":true}]}]}'
    return jani(FLAG + "," + listed(n, REWARDS), automaton("A", edges=",".join([one] * n)))


@kind("simulate jani f seed 1 1")
def locations_beside_rewards(n):
    return jani(listed(n, REWARDS), automaton("A", locations=listed(n, '{"name":"l@"}'), first="l0"))


@kind("simulate jani f seed 1 1")
def elements_beside_labels(n):
    return jani(listed(n, LABELS), listed(n, automaton("A@")), listed(n, '{"automaton":"A@"}'))


@kind("simulate jani f seed 1 1")
def labels_of_many_locations(n):
    """As many labels as locations, each of which gives a value to one."""
    return jani(listed(n, LABELS), automaton("A", locations=listed(n, '{"name":"l@","transient-values":[{"ref":"r@","value":true}]}'), first="l0"))


@kind("simulate jani f seed 1 1")
def locations_beside_actions(n):
    """As many locations as actions, and an edge for each action at the first location."""
    edges = listed(n, edge("a@", location="l0"))
    return jani(actions=listed(n, '{"name":"a@"}'), automata=automaton("A", locations=listed(n, '{"name":"l@"}'), edges=edges, first="l0"))


@kind("check jani f")
def vectors_beside_writes(n):
    """An edge that assigns many variables, and as many vectors that name its action."""
    writes = listed(n, '{"ref":"v@","value":true}')
    automata = automaton("A", edges=edge("a", ',"assignments":[%s]' % writes)) + "," + automaton("B", edges=edge("a"))
    return jani(listed(n, '{"name":"v@","type":"bool","initial-value":false}'), automata, '{"automaton":"A"},{"automaton":"B"}',
                ",".join(['{"synchronise":["a","a"]}'] * n), actions='{"name":"a"}')


@kind("simulate jani f seed 1 1")
def labels_of_one_location(n):
    """A location that gives a value to each of many labels, the last one first."""
    values = ",".join('{"ref":"r%d","value":true}' % k for k in reversed(range(n)))
    return jani(listed(n, LABELS), automaton("A", locations='{"name":"l","transient-values":[%s]}' % values))


@kind("simulate jani f seed 1 1", excepted="combinations")
def combinations_of_many_elements(n):
    """A vector of many elements, sixteen of which have two edges each: 65,536 combinations."""
    n = max(n, 16)
    automata = ",".join(automaton("A%d" % k, edges=",".join([edge("a")] * (2 if k < 16 else 1))) for k in range(n))
    return jani(automata=automata, elements=listed(n, '{"automaton":"A@"}'), syncs='{"synchronise":[%s]}' % ",".join(['"a"'] * n), actions='{"name":"a"}')


@kind("check jani f", excepted="dense")
def digits_in_a_list(n):
    return jani(more=',"metadata":{"a":[%s]}' % ",".join(["0"] * n))


# Names and numbers that the tables of a program may take for one another. The hasher of the kit's maps takes 16 bytes at a time: it multiplies
# the first eight, joined with its state, by the last eight, joined with a constant. Where the first eight are the state, the product is 0.

FOLD, SEED, WORD = 0x9E3779B97F4A7C15, 0x243F6A8885A308D3, (1 << 64) - 1
LETTERS = b"ABCDEFGHIJKLMNOPQRSTUVWXYZabcdefghijklmnopqrstuvwxyz0123456789_"


def folded(a, b):
    return (a * b & WORD) ^ (a * b >> 64)


def front_that_collides():
    """24 letters and digits, the last eight of which are the state of the hasher after the first sixteen of 32."""
    number = 0
    while True:
        block = b"N%015d" % number
        state = folded(int.from_bytes(block[:8], "little") ^ (SEED + 32), int.from_bytes(block[8:], "little") ^ FOLD).to_bytes(8, "little")
        if all(it in LETTERS for it in state):
            return (block + state).decode()
        number += 1


def colliding_names(n):
    front = front_that_collides()
    return [front + "%08d" % k for k in range(n)]


def plain_names(n):
    return ["N%031d" % k for k in range(n)]


def collides(words, form, files):
    """Two kinds: with names that collide, and with plain ones."""
    def colliding(n):
        return files([form % it for it in colliding_names(n)])

    def plain(n):
        return files([form % it for it in plain_names(n)])
    return colliding, plain


def named(function, name):
    function.__name__ = name
    return function


for thing, words, form, files in (
        ("constants", "check prism f", "const %s;\n", lambda texts: prism("".join(texts))),
        ("keys", "check jani f", '"%s":0', lambda texts: jani(more=',"metadata":{%s}' % ",".join(texts))),
        ("jani_actions", "check jani f", '{"name":"%s"}', lambda texts: jani(actions=",".join(texts))),
        ("properties", "to-jani f q", '"%s": Pmax=? [ F true ]\n', lambda texts: dict(prism(""), q="".join(texts))),
        ("given_constants", "show prism f (0)", "%s=1", lambda texts: (prism("".join("const %s;\n" % it[:-2] for it in texts)), texts))):
    most = 40000 if thing == "given_constants" else 1 << 30
    for prefix, make in zip(("colliding_", "plain_"), collides(words, form, files)):
        kind(words, most)(named(make, prefix + thing))


def in_labels(parts, per):
    """Labels of so many comparisons each."""
    return prism("".join('label "l%d" = x=1 & (%s);\n' % (k, "|".join(parts[k:k + per])) for k in range(0, len(parts), per)))


@kind("show prism f (0)", most=280000)
def colliding_quotients(n):
    """Quotients whose divisor is the state of the hasher after their dividend."""
    parts, number = [], 1
    while len(parts) < n:
        divisor = folded(SEED ^ number, FOLD ^ 16)
        if 1 < divisor < 1 << 62 and math.gcd(number, divisor) == 1:
            parts.append("x<%d/%d" % (number, divisor))
        number += 1
    return in_labels(parts, 100)


@kind("show prism f (0)", most=280000)
def plain_quotients(n):
    return in_labels(["x<%d/%d" % (2 * k + 1, (1 << 61) + 2 * k) for k in range(n)], 100)


@kind("show prism f (0)", most=480000)
def colliding_literals(n):
    """Whole numbers past the bound of computed ones, equal modulo 1,000,000,007."""
    return in_labels(["x<%d" % (1000000007 * (5000000000 + k)) for k in range(n)], 200)


@kind("show prism f (0)", most=480000)
def plain_literals(n):
    return in_labels(["x<%d" % (1000000007 * 5000000000 + k) for k in range(n)], 200)


def written(files):
    for name, text in files.items():
        with open(name, "w") as f:
            f.write(text)
    return sum(map(os.path.getsize, files))


def run(it, command, count):
    """Processor seconds, greatest memory and status of a run on so many, the size of its files, and of what was written."""
    files, words = it.files(count)
    size = written(files)
    spent, memory, status = measured(command + words, "out")
    return spent, memory, status, size, os.path.getsize("out")


def grown(before, count, spent):
    """How many times the seconds grow for each doubling."""
    return (spent / before[1]) ** (1 / math.log2(count / before[0]))


def row(it, command, sizes, again):
    """The rows of a kind, and what is to be told of it at the end."""
    told, before = [], None
    for count in it.counts_for(sizes):
        spent, memory, status, size, out = run(it, command, count)
        growth = None
        if status == it.status and before and before[1] >= LEAST and count > 1.4 * before[0]:
            growth = grown(before, count, spent)
            for _ in range(0 if it.excepted else again):
                if growth <= GROWTH:
                    break
                before = before[0], min(before[1], run(it, command, before[0])[0])
                spent = min(spent, run(it, command, count)[0])
                growth = grown(before, count, spent)
        before = count, spent
        print("%-42s %8d %7.2f %8.3f %6s %8.1f %7.1f %9.1f %6d  %s" % (
            it.name, count, size / MEGA, spent, "" if growth is None else "%.2f" % growth, memory / MEGA, memory / size, memory / max(out, 1),
            status, it.excepted or ""), flush=True)
        if status != it.status:
            told.append("ends with %d" % status)
            break
        if growth and growth > GROWTH and not it.excepted:
            told.append("%.2f MB: grows %.2f times" % (size / MEGA, growth))
        if memory > SHARE * (size + out) + ROOM and not it.excepted:
            told.append("%.2f MB: memory %.0f times" % (size / MEGA, memory / (size + out)))
    return told


def main():
    options = argparse.ArgumentParser(description="Measures bridge on files that are made to cost much.")
    options.add_argument("--program", default="crates/bridge/out/bridge")
    options.add_argument("--only", default="", help="only kinds whose name contains this word")
    options.add_argument("--sizes", default="0.25,0.5,1,2,4,8,16", help="megabytes")
    options.add_argument("--seconds", type=int, default=20, help="processor time of a run")
    options.add_argument("--memory", type=int, default=2000, help="megabytes of a run; 0 for no bound")
    options.add_argument("--again", type=int, default=0, help="how often both runs of a doubling that grows too much are made again; the least seconds count")
    options.add_argument("--list", action="store_true")
    given = options.parse_args()
    kinds = [it for it in KINDS if given.only in it.name]
    if given.list:
        for it in kinds:
            print("%-42s %-28s %s" % (it.name, it.words, " ".join((it.make.__doc__ or "").split())))
        return 0
    limits = "ulimit -t %d; %s" % (given.seconds, "ulimit -v %d; " % (given.memory * 1000) if given.memory else "")
    command, told = ["/bin/sh", "-c", limits + 'exec "$0" "$@"', os.path.abspath(given.program)], {}
    print("%-42s %8s %7s %8s %6s %8s %7s %9s %6s" % ("kind", "count", "MB", "seconds", "growth", "memory", "x files", "x written", "status"))
    with tempfile.TemporaryDirectory() as room:
        os.chdir(room)
        for it in kinds:
            told[it.name] = row(it, command, [float(size) for size in given.sizes.split(",")], given.again)
        os.chdir("/")
    for name, what in told.items():
        for it in what:
            print("%s: %s" % (name, it))
    return 1 if any(told.values()) else 0


if __name__ == "__main__":
    sys.exit(main())
