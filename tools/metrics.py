#!/usr/bin/env python3
"""Reads Prometheus' text format, version 0.0.4, as strictly as it is written here, and prints what is wrong in it.

    metrics.py [FILE]     of standard input, if there is no FILE. The last line is 'N passed, M failed', of metrics

Each metric has a line HELP, a line TYPE and then all its samples, together and in this order. A sample is a name, its
labels, if it has some, and a whole number, with single spaces and no moment. All samples of a metric have the same
labels in the same order, and no two have the same values of them. Label values have no escapes but those for a
backslash, a quote and a new line. A name has small letters, digits and underscores, and no type's word in it. A counter
ends in `_total`, another metric doesn't, and a counter isn't negative. A summary has two samples without labels, whose
names end in `_sum`, which has nine decimals, and then in `_count`; neither is negative, and no other metric's name ends
so. The text ends with LF, and has no empty line, no CR and no other comment. Prometheus itself allows more.
"""
import re
import sys

from shared import Count

NAME = re.compile(r"[a-z_][a-z0-9_]*")
# What the lint of `promtool check metrics` refuses in a name, of the kinds that are read here.
TYPED = re.compile(r"_(?:counter|gauge|histogram|gauge_histogram|summary)(?:_|$)")
LABEL = re.compile(r'([a-zA-Z_][a-zA-Z0-9_]*)="((?:[^"\\\n]|\\["\\n])*)"')
VALUE = re.compile(r"0|-?[1-9][0-9]*")
SECONDS = re.compile(r"(?:0|[1-9][0-9]*)\.[0-9]{9}")
HELP = re.compile(r"(?:[^\\\n]|\\[\\n])+")
KINDS = ("counter", "gauge", "summary")
PARTS = ("_sum", "_count")
ESCAPES = {'\\"': '"', "\\\\": "\\", "\\n": "\n"}


def unescaped(text):
    return re.sub(r'\\["\\n]', lambda it: ESCAPES[it[0]], text)


class Metrics:
    """What a text in the format says: of each sample its value, by name and labels, `kinds` by the metric's name, and
    the faults that were found, each with the name of its metric, or None."""

    def __init__(self, text):
        self.samples, self.kinds, self.helps, self.faults = {}, {}, {}, []
        self.labels, self.name, self.order = {}, None, []
        if not text.endswith("\n"):
            self.fault(0, "the text doesn't end with LF")
        for number, line in enumerate(text.removesuffix("\n").split("\n"), 1):
            self.read(number, line)
        self.end_summary()

    def fault(self, number, what):
        self.faults.append((self.name, f"line {number}: {what}"))

    def read(self, number, line):
        if not line or "\r" in line or line != line.strip(" \t"):
            self.fault(number, f"an empty line, a CR or a space at an end: {line!r}")
        elif line.startswith("# HELP "):
            self.help(number, line)
        elif line.startswith("# TYPE "):
            self.kind(number, line)
        elif line.startswith("#"):
            self.fault(number, f"a comment that is neither HELP nor TYPE: {line!r}")
        else:
            self.sample(number, line)

    def end_summary(self):
        """Looks that the last metric has its two samples, if it is a summary."""
        wanted = [f"{self.name}{part}" for part in PARTS]
        if self.kinds.get(self.name) == "summary" and [it for it in self.order if it in wanted] != wanted:
            self.fault(0, f"{self.name} hasn't one _sum and then one _count")

    def help(self, number, line):
        self.end_summary()
        _, _, name, *rest = line.split(" ", 3)
        self.name = name
        if not NAME.fullmatch(name):
            self.fault(number, f"{name!r} is no name")
        if TYPED.search(name):
            self.fault(number, f"{name} has a type's word in it")
        if name.endswith(PARTS):
            self.fault(number, f"{name} is named as a sample of a summary")
        if name in self.helps:
            self.fault(number, f"{name} has a second HELP, or isn't in one piece")
        if not rest or not HELP.fullmatch(rest[0]):
            self.fault(number, f"{name} has no help, or a wrong escape in it")
        self.helps[name] = rest

    def kind(self, number, line):
        words = line.split(" ")
        name = words[2]
        if name != self.name or name in self.kinds or self.labels.get(name) is not None:
            self.fault(number, f"{name}: TYPE isn't once, behind HELP and before the samples")
        self.name = name
        if len(words) != 4 or words[3] not in KINDS:
            self.fault(number, f"{name} is no counter, no gauge and no summary")
        elif (words[3] == "counter") != name.endswith("_total"):
            self.fault(number, f"{name} is a {words[3]}")
        self.kinds[name] = words[-1]

    def sample(self, number, line):
        it = NAME.match(line)
        if not it:
            return self.fault(number, f"no sample: {line!r}")
        name, rest = it[0], line[it.end() :]
        is_part = self.kinds.get(self.name) == "summary"
        wanted = [f"{self.name}{part}" for part in PARTS] if is_part else [self.name]
        if name not in wanted or self.name not in self.kinds:
            self.fault(number, f"a sample of {name} that isn't behind its HELP and TYPE")
        labels = self.labels_of(number, rest)
        if labels is None:
            return None
        labels, rest = labels
        if is_part and labels:
            self.fault(number, f"{name} has labels")
        if is_part and name.endswith("_sum"):
            if not rest.startswith(" ") or not SECONDS.fullmatch(rest[1:]):
                return self.fault(number, f"{rest!r} isn't a space and a number with nine decimals")
            return self.keep(number, name, labels, float(rest[1:]))
        if not rest.startswith(" ") or not VALUE.fullmatch(rest[1:]):
            return self.fault(number, f"{rest!r} isn't a space and a whole number")
        return self.keep(number, name, labels, int(rest[1:]))

    def labels_of(self, number, rest):
        """The labels at the start of `rest`, and what is behind them. None if they are malformed."""
        if not rest.startswith("{"):
            return (), rest
        labels, rest = [], rest[1:]
        while it := LABEL.match(rest):
            labels.append((it[1], unescaped(it[2])))
            rest = rest[it.end() :]
            if rest.startswith("}"):
                return tuple(labels), rest[1:]
            if not rest.startswith(","):
                break
            rest = rest[1:]
        return self.fault(number, f"labels are malformed: {rest!r}")

    def keep(self, number, name, labels, value):
        names = tuple(label for label, _ in labels)
        if len(set(names)) != len(names) or any(label.startswith("__") for label in names):
            self.fault(number, f"{name} has a label twice, or one that begins with two underscores")
        if self.labels.setdefault(name, names) != names:
            self.fault(number, f"{name} has the labels {names}, and {self.labels[name]} before")
        if (name, labels) in self.samples:
            self.fault(number, f"{name} {dict(labels)} is there twice")
        if value < 0 and self.kinds.get(self.name) != "gauge":
            self.fault(number, f"{name} is a {self.kinds.get(self.name)}, and {value}")
        self.samples[name, labels] = value
        self.order.append(name)

    def one(self, name, **labels):
        """The value of a sample, or None if it isn't there. Its labels may be given in any order."""
        wanted = {(name, value if isinstance(value, str) else str(value)) for name, value in labels.items()}
        found = [value for (of, has), value in self.samples.items() if of == name and set(has) == wanted]
        return found[0] if found else None

    def all(self, name):
        """The samples of a metric: the value of each, by the values of its labels."""
        return {tuple(it for _, it in labels): value for (of, labels), value in self.samples.items() if of == name}


def main():
    text = open(sys.argv[1], encoding="utf-8", newline="").read() if len(sys.argv) > 1 else None
    if text is None:
        text = sys.stdin.buffer.read().decode()
    metrics, count = Metrics(text), Count()
    for name in dict.fromkeys([*metrics.helps, *metrics.kinds, *(it for it, _ in metrics.faults)]):
        count.case(fault for of, fault in metrics.faults if of == name)
    count.end()


if __name__ == "__main__":
    main()
