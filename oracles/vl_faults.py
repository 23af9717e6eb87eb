#!/usr/bin/env python3
"""Random right specifications of Vega-Lite, each spoiled at one place, which the built program has to refuse at that place:
    oracles/vl_faults.py [PROGRAM [COUNT [SEED]]]
Each is a tree of forms that knows how it can be spoiled: a value of another form, a member that isn't known, one that is missing, an
expression without a reading, a name that isn't there or is there already, a number past its bounds, and what breaks a rule that looks around: an end
without its begin, a size off points, channels and views that layers don't take, a unit too many, a fold too long, a selection over what has no cells,
a circle of parameters, no data. Every tenth one is tried as it is, and has to be accepted. Left out is what makes a second fault elsewhere: a parameter whose name is lost while it is used, and the type of a mark
that has a size. The program is run once for each, by as many processes as there are processors, or as VL_FAULTS_JOBS says: COUNT is 100,000. Each
tree is made of its own seed, those from SEED + 1 on: with COUNT 1 one of them is made again. A line is written for each that is told otherwise, with the
specification; the status is then 1.
"""
import json, multiprocessing, os, random, re, shutil, sys, tempfile

TOP = os.path.dirname(os.path.dirname(os.path.abspath(__file__)))
HUGE = "1e99"  # written bare


class Bare(str):
    """A number that is written as it stands."""


class Leaf:
    def __init__(self, value, bad=(), kind="wrong"):
        self.value, self.bad, self.kind = value, list(bad), kind


class Node:
    """An object: members with their forms; which of them are required, and whether others are known."""
    def __init__(self, members, required=(), closed=True, bad=(7, "x", [], None)):
        self.members, self.required, self.closed, self.bad, self.kind = members, set(required), closed, list(bad), "wrong"


class Items:
    def __init__(self, items, bad=(7, "x", None), bare=False):
        self.items, self.bad, self.kind = items, list(bad), "wrong"


def text(value, *more):
    return Leaf(value, [7, None, True, [], {}, *more])


def name_of(value):
    return Leaf(value, ["nosuch", "", 7, None, [value]])


def flag(value):
    return Leaf(value, ["true", 0, None, []])


def scalar(value):
    return Leaf(value, [[], {}, [1, 2], Bare(HUGE)])


def title():
    return Leaf(random.choice(["a title", "", None]), [7, True, [], {}])


def number(least, most, value=None, whole=False):
    step = 1 if whole else 0.000001
    bad = ["1", None, [], {}, Bare(HUGE)]
    if least is not None:
        bad.append(least - step if whole or abs(least) < 10**6 else least - 1)
    if most is not None:
        bad.append(most + step if whole or abs(most) < 10**6 else most + 1)
    if whole:
        bad.append(1.5)
    if value is None:
        low, high = least or 0, most if most is not None else 50
        value = random.choice([low, high, random.randint(int(low) + (low != int(low)), int(high))])
        if least == 0.000001 and value < least:
            value = least
    return Leaf(value, bad)


def expression(value):
    return Leaf(value, [value + " +", value + ")", "", "foo(" + value + ")", "domain('x').length", 7, None, []])


def unknown(value, asked):
    """An expression over a parameter, which may be one that isn't there."""
    form = expression(value)
    form.bad.append(value.replace(asked, "nosuch"))
    return form


FORMATS = [".2f", ",d", "%", ",.0%", "%Y", "%b %d", "Q%q"]


def label_format():
    return Leaf(random.choice(FORMATS), ["~s", ".7f", "%x", "year", "", "%Y %", 7, None])


FIELDS = ["a", "b", "c", "d e", "f\\.g"]
UNITS = ["year", "yearmonth", "month", "day", "utchours", "quarter"]
OPS = ["count", "sum", "mean", "min", "max", "median", "distinct", "q1"]
MARKS = ["bar", "rect", "point", "circle", "square", "line", "area", "tick", "rule", "text"]
SIZED = ("point", "circle", "square")


def some(*members):
    """Some of these members, in any order; those marked with True always."""
    kept = [(name, make()) for name, always, make in members if always or random.random() < 0.3]
    random.shuffle(kept)
    return kept


def field():
    return text(random.choice(FIELDS))


class Maker:
    def __init__(self, rng_units=8):
        self.left = rng_units
        self.values = [f"k{i}" for i in range(random.randint(0, 2))]
        self.computed = [f"c{i}" for i in range(random.randint(0, 2))]
        self.points = [f"s{i}" for i in range(random.randint(0, 2))]
        self.intervals = [f"i{i}" for i in range(random.randint(0, 1))]
        self.names = 0
        self.data = []
        self.named = []      # views that selections name
        self.given = []      # leaves that give a name, by their space
        self.kinds = {ch: random.choice(kinds) for ch, kinds in {
            "x": ["quantitative", "temporal", "nominal"], "y": ["quantitative", "nominal"],
            "color": ["quantitative", "nominal"], "opacity": ["quantitative", "nominal"],
            "size": ["quantitative", "nominal"], "shape": ["nominal"]}.items()}
        self.pending = self.params()

    # ---- names

    def fresh(self, stem):
        self.names += 1
        return f"{stem}{self.names}"

    def known(self):
        return self.values + self.computed + self.points + self.intervals

    def expression(self, over=None):
        over = self.known() if over is None else over
        plain = ["datum.a > 1", "1 + 2 * 3", "datum['d e'] == 'x' || !datum.b", "isValid(datum.a) ? 1 : 0", "[1, 2]", "'é'"]
        if over and random.random() < 0.5:
            name = random.choice(over)
            return unknown(f"{name} != datum.a", name)
        if self.points and over is not None and random.random() < 0.1:
            name = random.choice(self.points)
            return unknown(f"length(data('{name}_store')) == 0", name)
        return expression(random.choice(plain))

    def reference(self, names):
        name = random.choice(names)
        return Leaf(name, ["nosuch", 7, None, []])

    def given_name(self, space, name):
        leaf = text(name)
        self.given.append((space, leaf))
        return leaf

    # ---- parameters

    def params(self):
        """The parameters without selections; each is put into some view."""
        out = []
        for name in self.values:
            out.append(Node(some(("name", True, lambda: self.param_name(name)), ("value", False, lambda: Leaf(random.choice([1, "a", None, True, [1, 2]]),
                [{}, [1], [1, 2, 3], Bare(HUGE), ["a", "b"]])), ("bind", False, lambda: Leaf({"input": "range"}, ["scales", "legend"]))), ["name"]))
        for at, name in enumerate(self.computed):
            def computed():
                form = self.expression(self.values + self.computed[:at])
                form.bad.append(f"{name} + 1")
                return form
            out.append(Node(some(("name", True, lambda: self.param_name(name)), ("expr", True, computed)), ["name"]))
        return out

    def param_name(self, name):
        leaf = self.given_name("params", name)
        leaf.bad += ["1k", "a b", "datum", "true", "false", "null", "", "é"]
        return leaf

    def take_params(self):
        taken = [it for it in self.pending if random.random() < 0.5]
        self.pending = [it for it in self.pending if it not in taken]
        return taken

    # ---- data and transforms

    def own_data(self):
        def parse():
            return Node([(name, name_of(random.choice(["number", "boolean", "string", "date"]))) for name in random.sample(["a", "b", "c"], random.randint(0, 2))], closed=False)
        def format_():
            return Node(some(("type", False, lambda: name_of(random.choice(["json", "csv"]))), ("parse", False, parse)))
        form = random.random()
        if form < 0.2 and self.data:
            return Node([("name", text(random.choice(self.data)))])
        name = self.fresh("d") if random.random() < 0.6 else None
        members = []
        if name:
            self.data.append(name)
            members.append(("name", self.given_name("data", name)))
        if random.random() < 0.3:
            url = Leaf("file.csv", [7, None, [], {}])
            url.far = True
            members.append(("url", url))
        else:
            members.append(("values", Leaf([{"a": 1, "b": [1]}, 7])))
        if random.random() < 0.3:
            members.append(("format", format_()))
        random.shuffle(members)
        return Node(members)

    def filter_(self, depth=0):
        form = random.random()
        if form < 0.35:
            return self.expression()
        if form < 0.5 and self.known():
            return Node(some(("param", True, lambda: self.reference(self.known())), ("empty", False, lambda: flag(True))), bad=(7, None, []))
        if form < 0.65 and depth < 2:
            kind = random.choice(["and", "or", "not"])
            inner = self.filter_(depth + 1) if kind == "not" else Items([self.filter_(depth + 1) for _ in range(random.randint(0, 2))])
            return Node([(kind, inner)], bad=(7, None, []))
        kind = random.choice(["equal", "lt", "lte", "gt", "gte", "range", "oneOf", "valid"])
        value = {"range": lambda: Items([Leaf(random.choice([1, None]), ["1", [], True]) for _ in range(2)], bad=(7, [1], [1, 2, 3])),
                 "oneOf": lambda: Items([scalar(1), scalar("a")]), "valid": lambda: flag(True)}.get(kind, lambda: scalar(random.choice([1, "a", None, True])))
        return Node(some(("field", True, field), (kind, True, value), ("timeUnit", False, lambda: name_of(random.choice(UNITS)))), bad=(7, None, []))

    def transform(self, folds):
        new = lambda: text(self.fresh("n"))
        names = lambda: Items([field() for _ in range(random.randint(0, 2))])
        texts_or_one = lambda: random.choice([new, lambda: Items([new(), new()], bad=(7, [], ["a"], ["a", "b", "c"]))])()
        sort = lambda: Items([Node(some(("field", True, field), ("order", False, lambda: name_of(random.choice(["ascending", "descending"])))), ["field"]) for _ in range(random.randint(0, 2))])
        op = lambda names: Node(some(("op", True, lambda: name_of(random.choice(names))), ("field", False, field), ("as", True, new)), ["op", "as"])
        kinds = {
            "filter": lambda: Node([("filter", self.filter_())]),
            "calculate": lambda: Node(some(("calculate", True, self.expression), ("as", True, new)), ["as"]),
            "bin": lambda: Node(some(("bin", True, lambda: random.choice([lambda: Leaf(True, [False, None, 7]), lambda: Node(some(("maxbins", False, lambda: number(1, 1000, whole=True)),
                ("step", False, lambda: number(0.000001, None))), bad=(7, False))])()), ("field", True, field), ("as", True, texts_or_one)), ["field", "as"]),
            "timeUnit": lambda: Node(some(("timeUnit", True, lambda: name_of(random.choice(UNITS))), ("field", True, field), ("as", True, new)), ["field", "as"]),
            "aggregate": lambda: Node(some(("aggregate", True, lambda: Items([op(OPS) for _ in range(random.randint(0, 2))])), ("groupby", False, names))),
            "joinaggregate": lambda: Node(some(("joinaggregate", True, lambda: Items([op(OPS)])), ("groupby", False, names))),
            "stack": lambda: Node(some(("stack", True, field), ("as", True, texts_or_one), ("groupby", False, names), ("sort", False, sort),
                ("offset", False, lambda: name_of(random.choice(["zero", "normalize", "center"])))), ["as"]),
            "window": lambda: Node(some(("window", True, lambda: Items([op(OPS + ["rank", "row_number", "lag"])])), ("groupby", False, names), ("sort", False, sort),
                ("frame", False, lambda: Items([Leaf(random.choice([None, 0, -2]), ["0", 0.5, []]) for _ in range(2)], bad=(7, [0], [0, 0, 0]))), ("ignorePeers", False, lambda: flag(False)))),
            "lookup": lambda: Node(some(("lookup", True, field), ("from", True, lambda: Node(some(("data", True, self.own_data), ("key", True, field), ("fields", True, names)), ["data", "key", "fields"])),
                ("as", False, lambda: None), ("default", False, lambda: scalar(0))), ["from"]),
            "fold": lambda: Node(some(("fold", True, lambda: Items([field() for _ in range(random.randint(1, folds))])), ("as", False, lambda: Items([new(), new()], bad=(7, "x", [], ["a"]))))),
        }
        kind = random.choice([it for it in kinds if it != "fold" or folds > 1])
        made = kinds[kind]()
        made.members = [(n, m) for n, m in made.members if m is not None]
        return made

    # ---- channels

    def scale(self, channel, kind):
        right = {"quantitative": "linear", "temporal": "time"}.get(kind) or {"x": "band", "y": "point", "color": "ordinal", "shape": "ordinal", "opacity": random.choice(["point", "ordinal"]), "size": "point"}.get(channel, "band")
        listed = right == "ordinal" and channel == "opacity"  # its range is a list only beside its type
        other = {"linear": "time", "time": "band", "band": "linear", "point": "time", "ordinal": "band"}[right]
        has_scale = channel in ("x", "y", "color", "opacity", "size", "shape")
        def type_():
            leaf = name_of(right)
            if has_scale:
                leaf.bad.append(other)
            return leaf
        def domain():
            if self.known() and random.random() < 0.3:
                return Node(some(("param", True, lambda: self.reference(self.known())), ("encoding", False, lambda: name_of(random.choice(["x", "y"])))), ["param"], bad=(7, "x"))
            return Items([scalar(1), scalar("a")], bad=(7, "x"))
        def range_():
            if not has_scale:
                return Items([Leaf("red", [[], {}]), Leaf(5, [-1, 1000001, {}])], bad=(7, [], "x"))
            if listed:
                return Items([Leaf(0, [[], {}]), Leaf(1, [-1, 1000001, {}]), Leaf(2, [{}])], bad=(7, [], "x"))
            if right == "ordinal":
                return Items([Leaf("red", [[], {}]), Leaf(5, [-1, 1000001, {}])], bad=(7, [], "x"))
            return Items([Leaf(0, [-0.000001, 1000001, {}]), Leaf(100, [-1, 1000000.000001, {}])], bad=(7, [], [1], [1, 2, 3], ["a", "b"]))
        def scheme():
            leaf = name_of("blues")
            if channel == "color" and right != "ordinal":
                leaf.bad.append("tableau10")
            return leaf
        return Node(some(("type", listed, type_), ("domain", False, domain), ("range", False, (lambda: None) if channel == "color" and right != "ordinal" else range_),
            ("scheme", False, scheme), ("zero", False, lambda: flag(True)), ("nice", False, lambda: flag(False)), ("padding", False, lambda: number(0, 1)),
            ("paddingInner", False, lambda: number(0, 1)), ("paddingOuter", False, lambda: number(0, 1)), ("reverse", False, lambda: flag(True))))

    def axis(self, channel):
        if random.random() < 0.2:
            return Leaf(None, [7, "x", []])
        sides = {"x": ["top", "bottom"], "y": ["left", "right"]}.get(channel, ["left", "top"])
        def side():
            leaf = name_of(random.choice(sides))
            if channel in ("x", "y"):
                leaf.bad.append("left" if channel == "x" else "top")
            return leaf
        return Node(some(("title", False, title), ("labels", False, lambda: flag(True)), ("ticks", False, lambda: flag(True)), ("domain", False, lambda: flag(False)), ("grid", False, lambda: flag(True)),
            ("labelAngle", False, lambda: Leaf(random.choice([0, -90, 270]), [90, 1, "0", None])), ("tickCount", False, lambda: number(1, 100, whole=True)),
            ("values", False, lambda: Items([scalar(1)])), ("orient", False, side), ("format", False, label_format)), bad=(7, "x", []))

    def condition(self, channel):
        def one():
            test = [("param", self.reference(self.known()))] if self.known() and random.random() < 0.5 else [("test", self.filter_())]
            if test[0][0] == "param" and random.random() < 0.5:
                test.append(("empty", flag(False)))
            what = [("value", scalar("red"))] if random.random() < 0.6 else [("field", field()), ("type", name_of(self.kinds.get(channel, "nominal")))]
            if len(what) == 2 and random.random() < 0.3:
                what.append(("scale", self.scale(channel, self.kinds.get(channel, "nominal"))))
            members = test + what
            random.shuffle(members)
            return Node(members, bad=(7, "x", None))
        if random.random() < 0.3:
            return Items([one() for _ in range(random.randint(0, 2))], bad=(7, "x", None))
        return one()

    def shown(self, kind, alone):
        """Members by which a definition shows cells of this kind, and whether these alone say so."""
        made = []
        if kind == "quantitative" and random.random() < 0.4:
            made.append(("bin", True, lambda: random.choice([lambda: Leaf(True, [None, 7, "binned"]), lambda: Node(some(("maxbins", False, lambda: number(1, 1000, whole=True))), bad=(None, 7))])()))
        if kind == "quantitative" and not alone and random.random() < 0.3:
            made.append(("aggregate", True, lambda: Leaf(random.choice(OPS), ["nosuch", "", 7, None])))
        implied = bool(made)
        if kind == "temporal" or (implied and random.random() < 0.3):
            made.append(("timeUnit", random.random() < 0.5, lambda: name_of(random.choice(UNITS))))
            implied = implied or (kind == "temporal" and made[-1][1])
        return made, implied

    def definition(self, channel, facet=False, alone=False):
        kind = self.kinds.get(channel, "nominal")
        maybe = lambda name, make: (name, False, make)
        if not facet and random.random() < 0.15:
            return Node(some(("value", True, lambda: scalar(random.choice([1, "red"]))), maybe("condition", lambda: self.condition(channel))), bad=(7, "x", []))
        legend = lambda: random.choice([lambda: Leaf(None, [7, "x", []]), lambda: Node(some(("title", False, title), ("format", False, label_format)), bad=(7, "x", []))])()
        if not facet and channel != "detail" and random.random() < 0.1:
            return Node(some(("datum", True, lambda: scalar(3)), ("type", True, lambda: name_of(kind)), maybe("title", title), maybe("scale", lambda: self.scale(channel, kind)), maybe("legend", legend),
                maybe("axis", lambda: self.axis(channel))), bad=(7, "x", []))
        sort = lambda: random.choice([lambda: Leaf(None, [7, True]), lambda: Leaf("descending", ["nosuch", "", 7, True]), lambda: Items([scalar("a"), scalar(1)], bad=(7, True)),
            lambda: Node(some(("field", True, field), ("op", False, lambda: name_of("sum")), ("order", False, lambda: name_of("descending"))), ["field"], bad=(7, True))])()
        showing, implied = self.shown(kind, alone) if not facet else ([], False)
        members = [("field", True, field), *showing, ("type", not implied or random.random() < 0.5, lambda: name_of(kind)), maybe("title", title), maybe("sort", sort), maybe("scale", lambda: self.scale(channel, kind)),
            maybe("legend", legend), maybe("axis", lambda: self.axis(channel)), maybe("format", label_format),
            maybe("header", lambda: Node(some(("labels", False, lambda: flag(True)), ("title", False, lambda: Leaf({"any": 1}))))),
            maybe("columns", lambda: number(1, 1000, whole=True)), maybe("spacing", lambda: number(0, 1000)),
            maybe("stack", lambda: Leaf(random.choice([None, True, "zero", "normalize"]), [7, "nosuch", []]))]
        if not facet and kind == "nominal" and random.random() < 0.1:
            members.append(("bin", True, lambda: Leaf(False, [None, 7, "binned"])))
        return Node(some(*members), ["field"] if facet else [], bad=(7, "x", [], None))

    def encoding(self, mark, layered, outer=(), alone=False):
        channels = []
        for channel in random.sample(["x", "y", "color", "opacity", "shape", "text", "detail"], random.randint(0, 5)):
            form = self.definition(channel, alone=alone)
            if channel == "detail":
                form.bad = [7, "x"]  # a list of definitions may be empty
                form = Items([form], bad=(7, "x", None)) if random.random() < 0.5 else form
            channels.append((channel, form))
        names = [it[0] for it in channels]
        for channel in ("x", "y"):
            if (channel in names or channel in outer) and random.random() < 0.2:
                channels.append((channel + "2", self.definition("x2")))
        if mark in SIZED and random.random() < 0.3:
            channels.append(("size", self.definition("size", alone=alone)))
        if not layered and random.random() < 0.2:
            for channel in random.choice([["row"], ["column"], ["row", "column"], ["facet"]]):
                channels.append((channel, self.definition(channel, facet=True)))
        if random.random() < 0.1:
            channels.append(("tooltip", Leaf([{"field": "a"}])))
        random.shuffle(channels)
        return Node(channels)

    def selections(self, encoding, outer):
        """The selections that a unit with this encoding can have, in layers that have these channels."""
        # `shape` and `text` are dropped where a mark has no use for them
        fields = {name: form for name, form in encoding.members if name not in ("shape", "text") and isinstance(form, Node) and any(it[0] == "field" for it in form.members)}
        empty = [it for it in ("x", "y", "color", "detail") if it not in outer and it not in [name for name, _ in encoding.members]]
        out = []
        common = [("clear", False, lambda: Leaf(random.choice([True, "dblclick"]), [False, "click", 7])), ("toggle", False, lambda: Leaf(random.choice([True, "event.shiftKey"]), [False, "x"])), ("mark", False, lambda: Leaf({"any": 1}))]
        if self.points and not getattr(self, "placed_points", False):
            self.placed_points = True
            for name in self.points:
                keys = random.sample(list(fields), min(len(fields), random.randint(0, 2)))
                def select():
                    if random.random() < 0.3:
                        return Leaf("point", ["nosuch", 7, None, []])
                    form = Node(some(("type", True, lambda: Leaf("point", ["nosuch", 7])), ("encodings", False, lambda: over(keys, empty)), ("on", False, lambda: name_of("click")), *common), ["type"], bad=(7, []))
                    return form
                out.append(Node(some(("name", True, lambda: self.param_name(name)), ("select", True, select)), ["name"]))
        if self.intervals and not getattr(self, "placed_intervals", False):
            keys = [it for it in ("x", "y") if it in fields and self.kinds[it] in ("quantitative", "temporal")]
            if keys:
                self.placed_intervals = True
                for name in self.intervals:
                    select = Node(some(("type", True, lambda: Leaf("interval", ["nosuch", 7])), ("encodings", True, lambda: over(keys, [*empty, "color"])),
                        ("on", False, lambda: name_of("[mousedown, mouseup] > mousemove")), *common), ["type"], bad=(7, []))
                    out.append(Node([("name", self.param_name(name)), ("select", select)], ["name"]))
        return out

    # ---- views

    def mark(self, kind, points):
        if not points and random.random() < 0.5:
            return Leaf(kind, ["arc", "", 7, None, []])
        look = lambda most: number(0, most)
        members = [("type", True, lambda: Leaf(kind, ["arc", 7, None])), ("color", False, lambda: text("red")), ("opacity", False, lambda: look(1)), ("filled", False, lambda: flag(True)),
            ("strokeWidth", False, lambda: look(1000000)), ("align", False, lambda: name_of("left")), ("baseline", False, lambda: name_of("top")), ("dx", False, lambda: number(-1000000, 1000000)),
            ("fontSize", False, lambda: number(1, 1000, whole=True)), ("interpolate", False, lambda: name_of("linear")), ("tooltip", False, lambda: Leaf({"any": 1}))]
        if points or kind != "line":
            members.append(("point", points, lambda: flag(points or random.random() < 0.5)))
        if kind in SIZED:
            members.append(("size", False, lambda: look(1000000)))
        members = some(*members)
        if any(name == "size" for name, _ in members):
            # without its type the mark would have no size either
            for name, form in members:
                form.bad = [] if name == "type" else form.bad
            return Node(members, bad=(7, None, []))
        return Node(members, ["type"], bad=(7, None, []))

    def size(self):
        if random.random() < 0.5:
            form = number(0.000001, 10000, random.choice([0.000001, 10000, 123.5]))
            form.bad.remove({})  # an object lacks its step
            return form
        return Node([("step", number(0.000001, 1000, random.choice([20, 1000])))], ["step"], bad=("x", None, []))

    def view(self, top, layered, depth, has_data, folds, outer=()):
        kinds = ["unit"] * 3
        if depth < 3 and self.left > 1:
            kinds += ["layer"] if layered else ["layer", "hconcat", "vconcat", "concat", "facet"]
        kind = random.choice(kinds)
        mine = []
        if not has_data or random.random() < 0.15:
            mine.append(("data", self.own_data()))
        has_data = True
        if random.random() < 0.4:
            steps, own = [], folds
            for _ in range(random.randint(0, 3)):
                step = self.transform(own)
                for n, form in step.members:
                    if n == "fold":
                        own //= max(1, len(form.items))
                steps.append(step)
            folds = max(1, own)
            mine.append(("transform", Items(steps)))
        params = self.take_params()
        if kind == "unit":
            self.left -= 1
            mark = random.choice(MARKS)
            points = mark == "line" and self.left > 0 and random.random() < 0.3
            self.left -= points
            mine.append(("mark", self.mark(mark, points)))
            # a line and its points would group rows by other channels
            encoding = self.encoding(mark, layered, outer, alone=points)
            if encoding.members or random.random() < 0.5:
                mine.append(("encoding", encoding))
            name = self.fresh("v") if random.random() < 0.3 else None
            for it in self.selections(encoding, outer):
                if name and random.random() < 0.5:
                    # it stands at the top, and names its unit
                    it.members.insert(random.randint(0, 2), ("views", Items([Leaf(name, ["nosuch", "", 7, None])], bad=(7, "x", {}, None))))
                    self.pending.append(it)
                    self.named.append(name)
                else:
                    params.append(it)
        elif kind == "facet":
            definitions = lambda: Node([(name, self.definition(name, facet=True)) for name in random.choice([["row"], ["column"], ["row", "column"]])])
            mine.append(("facet", random.choice([lambda: self.definition("facet", facet=True), definitions])()))
            mine.append(("spec", self.view(False, False, depth + 1, has_data, folds)))
        else:
            count = random.randint(1, min(3, max(1, self.left)))
            if kind == "layer" and random.random() < 0.4:
                shared = Node([(channel, self.definition(channel, alone=True)) for channel in random.sample(["x", "y", "color"], random.randint(0, 3))])
                mine.append(("encoding", shared))
                outer = set(outer) | {name for name, _ in shared.members}
            mine.append((kind, Items([self.view(False, kind == "layer", depth + 1, has_data, folds, outer if kind == "layer" else ()) for _ in range(count)], bad=(7, "x", [], {}))))
        if kind in ("facet", "concat") and random.random() < 0.3:
            mine.append(("columns", number(1, 1000, whole=True)))
        if kind in ("facet", "concat", "hconcat", "vconcat") and random.random() < 0.3:
            mine.append(("spacing", number(0, 1000)))
        if top:
            params += self.pending
        if params:
            random.shuffle(params)
            mine.append(("params", Items(params)))
        mine += some(("title", False, lambda: text("a title")), ("description", False, lambda: Leaf([1])))
        if kind != "unit":
            name = self.fresh("v") if random.random() < 0.3 else None
        if name:
            mine.append(("name", self.given_name("views", name)))
        if kind in ("unit", "layer"):
            mine += some(("width", False, self.size), ("height", False, self.size))
        if top:
            config = lambda: Node([("view", Node(some(("continuousWidth", False, lambda: number(0.000001, 10000, 300)), ("discreteHeight", False, self.size), ("step", False, lambda: number(0.000001, 1000, 20)),
                ("stroke", False, lambda: Leaf(None)))))])
            mine += some(("$schema", False, lambda: text(random.choice(["https://vega.github.io/schema/vega-lite/v5.json", "https://vega.github.io/schema/vega-lite/v4.17.0.json"]))), ("config", False, config),
                ("padding", False, lambda: number(0, 1000)), ("autosize", False, lambda: name_of("pad")), ("usermeta", False, lambda: Leaf({"any": 1})), ("background", False, lambda: Leaf("white")),
                ("datasets", False, lambda: self.datasets()))
        random.shuffle(mine)
        deciding = {"unit": "mark", "facet": "facet"}.get(kind, kind)
        required = [deciding] if kind == "unit" else (["spec"] if kind == "facet" else [])
        made = Node(mine, required, bad=(7, "x", [], None))
        made.view, made.layered, made.outer = kind, layered, outer
        made.mark, made.counts = (mark, 1 + points) if kind == "unit" else (None, 0)
        return made

    def datasets(self):
        names = [self.fresh("e") for _ in range(random.randint(0, 2))]
        return Node([(name, Leaf([{"a": 1}])) for name in names], closed=False)


def over(channels, others):
    """A list of channels of a selection; one of the others in it is a fault of the selection."""
    items = Items([Leaf(it, ["z", 7]) for it in channels])
    items.others = others
    return items


def plain_unit():
    form = Node([("mark", Leaf("bar"))])
    form.view, form.counts = "unit", 1
    return form


def plain_channel():
    return Node([("field", Leaf("a"))])


def written(form):
    parts = []
    write(form, parts.append)
    return "".join(parts)


def write(form, put):
    if isinstance(form, Leaf):
        put(written_value(form.value))
    elif isinstance(form, Node):
        put("{")
        for at, (name, it) in enumerate(form.members):
            put("," if at else "")
            put(QUOTED(name))
            put(":")
            write(it, put)
        put("}")
    elif isinstance(form, Items):
        put("[")
        for at, it in enumerate(form.items):
            put("," if at else "")
            write(it, put)
        put("]")
    else:
        put(str(form))


QUOTED = json.encoder.encode_basestring


def written_value(value):
    kind = type(value)
    if kind is str:
        return QUOTED(value)
    if kind is Bare:
        return str(value)
    if kind is float:
        return f"{value:.6f}".rstrip("0").rstrip(".")
    if kind is list:
        return "[" + ",".join(written_value(it) for it in value) + "]"
    return json.dumps(value, ensure_ascii=False)


def step_of(name):
    return "/" + name.replace("~", "~0").replace("/", "~1")


def places(form, path="", into=None):
    """Each form with its path, the outer before the inner."""
    into = [] if into is None else into
    into.append((form, path))
    if isinstance(form, Node):
        for name, it in form.members:
            places(it, path + step_of(name), into)
    elif isinstance(form, Items):
        for at, it in enumerate(form.items):
            places(it, f"{path}/{at}", into)
    return into


def put_in(form, name, it):
    """A member more, somewhere; gives its step."""
    form.members.insert(random.randint(0, len(form.members)), (name, it))
    return step_of(name)


def first_unit(form, path, is_it):
    """The path of the first unit in the order of the text for which this holds."""
    return next((p for it, p in places(form, path) if getattr(it, "view", None) == "unit" and is_it(it)), None)


def ways_round(top, all_places):
    """How rules that look around can be broken: by what is done the ways to do it, each of which gives what is to be said."""
    ways = {}

    def way(what):
        return ways.setdefault(what, []).append

    for form, path in all_places:
        view = getattr(form, "view", None)
        inside = dict(form.members) if view else {}
        if view == "unit" and "encoding" in inside:
            encoding, at = inside["encoding"], path + "/encoding"
            for channel in ("x", "y"):
                if channel not in form.outer and not any(name in (channel, channel + "2") for name, _ in encoding.members):
                    way("an end without its begin")(lambda e=encoding, a=at, c=channel: ("wrong", a + put_in(e, c + "2", plain_channel())))
            if form.mark not in SIZED:
                way("a size off points")(lambda e=encoding, a=at: ("unsupported", a + put_in(e, "size", Node([("value", Leaf(5))]))))
            if form.layered:
                way("a facet in a layer")(lambda e=encoding, a=at: ("unsupported", a + put_in(e, random.choice(["row", "column", "facet"]), plain_channel())))
        if view == "unit" and "transform" in inside:
            def fold(steps=inside["transform"], a=path):
                steps.items.append(Node([("fold", Items([Leaf("a") for _ in range(9)]))]))
                return "wrong", f"{a}/transform/{len(steps.items) - 1}/fold"
            way("a fold too long")(fold)
        if view == "layer":
            def other(views=inside["layer"], a=path):
                kind = random.choice(["hconcat", "vconcat", "concat", "facet"])
                members = [("facet", plain_channel()), ("spec", plain_unit())] if kind == "facet" else [(kind, Items([plain_unit()]))]
                views.items.append(Node(members))
                return "unsupported", f"{a}/layer/{len(views.items) - 1}/{kind}"
            way("a view that no layer takes")(other)
        if view in ("layer", "hconcat", "vconcat", "concat"):
            def more(views=inside[view]):
                views.items.extend(plain_unit() for _ in range(33))
                left = [32]
                def is_over(unit):
                    left[0] -= unit.counts
                    return left[0] < 0
                return "wrong", first_unit(top, "", is_over)
            way("a unit too many")(more)
        if isinstance(form, Items) and getattr(form, "others", None):
            def unfit(channels=form, a=path):
                channels.items.insert(random.randint(0, len(channels.items)), Leaf(random.choice(channels.others)))
                return "wrong", a.rsplit("/", 1)[0]
            way("a selection over what has no cells")(unfit)
    data = dict(top.members)["data"]
    if not any(name == "name" for name, _ in data.members):
        has_data = set()
        for form, _ in all_places[1:]:
            if getattr(form, "view", None) and any(name == "data" for name, _ in form.members):
                has_data |= {id(it) for it, _ in places(form)}
        lacks = first_unit(top, "", lambda unit: id(unit) not in has_data)
        if lacks is not None:
            def none():
                top.members = [it for it in top.members if it[0] != "data"]
                return "missing", lacks + "/data"
            way("no data")(none)
    return ways


LOST_VIEW = "a view is lost that a selection names before it"


def lost_view(maker, before, inside):
    """Where the first selection of these places names a view that is among these forms, and so is lost with them."""
    names = {leaf.value for space, leaf in maker.given if space == "views" and id(leaf) in inside}
    return next((path for it, path in before if names and re.search(r"/params/[0-9]+/views/[0-9]+$", path) and id(it) not in inside and it.value in names), None)


def spoiled(maker, top):
    """Spoils one place; gives what is to be said, and what was done."""
    all_places = places(top)
    whole = written(top)
    ways = ways_round(top, all_places) if random.random() < 0.25 else {}
    if ways:
        what = random.choice(sorted(ways))
        return *random.choice(ways[what])(), what
    for _ in range(100):
        at = random.randrange(len(all_places))
        form, path = all_places[at]
        way = random.random()
        is_more = isinstance(form, Node) and form.closed and way < 0.35
        inside = {id(it) for it, _ in places(form)}
        lost = {leaf.value for space, leaf in maker.given if space == "params" and id(leaf) in inside}
        if isinstance(form, Node) and form.required:
            lost |= {leaf.value for space, leaf in maker.given if space == "params" and any(leaf is it for _, it in form.members)}
        if not is_more and any(len(re.findall(rf"\b{name}(_store)?\b", whole)) > 1 for name in lost):
            continue  # its use would be one of an unknown name
        if is_more:
            form.members.insert(random.randint(0, len(form.members)), (random.choice(["typo", "marks", "a/b", "é"]), Leaf(random.choice([1, {}, "x"]))))
            name = next(n for n, _ in form.members if n in ("typo", "marks", "a/b", "é"))
            return "unsupported", path + step_of(name), "an unknown member"
        if isinstance(form, Node) and form.required and way < 0.55:
            name = random.choice(sorted(form.required))
            absent = next((it for n, it in form.members if n == name), None)
            if absent:
                entry = lost_view(maker, all_places[:at + len(inside)], {id(it) for it, _ in places(absent)})
                form.members = [it for it in form.members if it[0] != name]
                if entry:
                    return "wrong", entry, LOST_VIEW
                return "missing", path + step_of(name), "a missing member"
        if isinstance(form, Leaf) and getattr(form, "far", False) and way < 0.5:
            form.value = "https://example.org/a.csv"
            return "unsupported", path, "an address of the network"
        twice = [(space, leaf) for space, leaf in maker.given if leaf is form]
        if twice and way < 0.5:
            others = [(p, leaf) for leaf, p in all_places for s, l in maker.given if l is leaf and s == twice[0][0] and leaf is not form]
            order = {id(leaf): at for at, (leaf, p) in enumerate(all_places)}
            before = [leaf for p, leaf in others if order[id(leaf)] < order[id(form)]]
            # a name in `views` that is given twice means both views, one that is no longer given none
            if before and twice[0][0] != "params" and not {form.value, before[0].value} & set(maker.named):
                form.value = before[0].value
                return "wrong", path, "a name given twice"
        if form.bad:
            value = random.choice(form.bad)
            entry = lost_view(maker, all_places[:at], inside)
            if isinstance(form, Leaf):
                form.value = value
            else:
                form.__class__, form.value = Leaf, value
            if entry:
                return "wrong", entry, LOST_VIEW
            return "wrong", path, "another form"
    return None


def made(seed):
    random.seed(seed)
    maker = Maker(random.choice([1, 2, 4, 8]))
    top = maker.view(True, False, 0, False, 8)
    return maker, top


def drop_absent(form):
    if isinstance(form, Node):
        form.members = [(n, it) for n, it in form.members if it is not None]
        for _, it in form.members:
            drop_absent(it)
    elif isinstance(form, Items):
        for it in form.items:
            drop_absent(it)


def one(seed, keep_right):
    """A specification, what is to be said of it, and what was done."""
    maker, top = made(seed)
    drop_absent(top)
    # a selection or a computed parameter that found no view leaves names unknown: such a specification isn't a right one
    told = [leaf.value for space, leaf in maker.given if space == "params"]
    if sorted(told) != sorted(maker.known()):
        return None
    if keep_right:
        return written(top), "unsupported ", "nothing"
    told = spoiled(maker, top)
    return told and (written(top), f"{told[0]} {told[1]}", told[2])


def told(program, text):
    """What the program says of a text, in the folder where this runs."""
    with open("s.json", "w") as file:
        file.write(text)
    ran = os.posix_spawn(program, [program, "render", "s.json"], os.environ, file_actions=[
        (os.POSIX_SPAWN_OPEN, 0, os.devnull, os.O_RDONLY, 0), (os.POSIX_SPAWN_OPEN, 1, os.devnull, os.O_WRONLY, 0),
        (os.POSIX_SPAWN_OPEN, 2, "notes", os.O_WRONLY | os.O_CREAT | os.O_TRUNC, 0o600)])
    status = os.waitstatus_to_exitcode(os.waitpid(ran, 0)[1])
    with open("notes", errors="replace") as file:
        note = file.read().rstrip("\n")
    return note.removeprefix("chart: spec ") if status == 4 else ("unsupported " if status == 0 else f"{status} {note}")


def begin(room):
    """A process works in a folder of its own."""
    os.chdir(tempfile.mkdtemp(dir=room))


def some_seeds(program, seeds):
    """Of each seed that gives a tree what was done to it, and where the program says something else, that with the tree."""
    out = []
    for seed in seeds:
        it = one(seed, seed % 10 == 0)
        if it:
            text, wanted, what = it
            said = told(program, text)
            out.append((seed, what, None if said == wanted else (said, wanted, text)))
    return out


def main(words):
    program = os.path.abspath(words[0] if words else f"{TOP}/crates/chart_tool/out/chart_tool")
    count = int(words[1]) if len(words) > 1 else 100_000
    seed = int(words[2]) if len(words) > 2 else 1
    if not os.access(program, os.X_OK):
        sys.exit(f"vl_faults: there is no program {program}: ./chart --prove builds it")
    room = tempfile.mkdtemp(prefix="vl_faults-", dir="/dev/shm" if os.path.isdir("/dev/shm") else None)
    failed = done = 0
    by = {}
    try:
        with multiprocessing.Pool(int(os.environ.get("VL_FAULTS_JOBS", os.cpu_count() or 1)), begin, [room]) as pool:
            while done < count:
                many = min(3000, 2 * (count - done))
                parts = [range(at, min(at + 50, seed + 1 + many)) for at in range(seed + 1, seed + 1 + many, 50)]
                for tried in pool.starmap(some_seeds, [(program, part) for part in parts], 1):
                    for seed_of, what, bad in tried[:count - done]:
                        done += 1
                        by.setdefault(what, [0, 0])[bad is not None] += 1
                        if bad:
                            failed += 1
                            print(f"seed {seed_of}, {what}: {bad[0]!r}, wanted is {bad[1]!r}: {bad[2]}", flush=True)
                seed += many
                print(f"vl_faults: {done} tried, of seeds to {seed}, {failed} failed", file=sys.stderr, flush=True)
    finally:
        shutil.rmtree(room)
    for what, (right, bad) in sorted(by.items()):
        print(f"vl_faults: {what}: {right} passed, {bad} failed")
    return 1 if failed else 0


if __name__ == "__main__":
    sys.exit(main(sys.argv[1:]))
