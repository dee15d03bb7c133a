"""The filters of portals against the tables of examples/deploy/portals/README.md: `portals.py SIRI PORTALS`. What `siri convert` reads
in the documents that a filter makes is, value by value, what the tables say of the answer: of the samples, whose items that are left
out stand here; of answers made of the tables, with every field and with one alone absent; and of the profile's own examples, which
come out as they are. What is of SIRI in JSON is written in each spelling of a value, and in XML, too."""
import datetime
import decimal
import importlib.machinery
import importlib.util
import json
import os
import re
import subprocess
import sys
import xml.etree.ElementTree as tree
import xml.sax.saxutils

# The samples, each with its filter, and the items of each kind, counted from 1, that can't be taken, with what is wrong with them.
SAMPLES = [
    ("prim.json", "prim", {"visit": {2: "no time", 3: "no ItemIdentifier", 4: "a minute 61"}}),
    ("mta.json", "mta", {"visit": {2: "no time", 3: "no journey", 4: "a text"}, "situation": {2: "no SituationNumber", 3: "no period"}}),
    ("511.json", "511", {"visit": {3: "no offset"}}),
    ("entur.json", "entur", {"journey": {3: "no time", 4: "no journey", 5: "30 February"}}),
    ("entur-situations.json", "entur", {"situation": {3: "no start"}}),
    ("entur-situations.json", "entur-visits", {"situation": {3: "no start"}}),
    ("entur.json", "entur-visits", {"departure": {5: "30 February"}}),
    ("entur-visits.json", "entur-visits", {"departure": {}}),
    ("entur-visits.json", "entur", {"journey": {3: "no journey"}}),
    ("xml-stop-monitoring.xml", "xml", {"visit": {3: "no offset"}}),
    ("xml-stop-monitoring.xml", "xml-visits", {"visit": {3: "no offset"}}),
    ("xml-timetable.xml", "xml", {"journey": {3: "no time"}}),
    ("xml-timetable.xml", "xml-visits", {"departure": {}}),
    ("xml-vehicles.xml", "xml", {"vehicle": {3: "no VehicleRef"}}),
    ("xml-situations.xml", "xml", {"situation": {3: "no period"}}),
    ("xml-soap.xml", "xml", {"visit": {}}),
]
# Of each filter that answers are made for: the column of its tables, and the kinds of its items.
SHAPES = [("prim", "prim", ("visit",)), ("mta", "mta", ("visit", "situation")), ("511", "511", ("visit",)), ("entur", "entur", ("journey", "situation")),
          ("entur-visits", "entur", ("departure", "situation")), ("siri", "siri", ("visit", "journey", "vehicle", "situation")),
          ("siri-visits", "siri", ("departure", "visit", "situation")), ("xml", "siri", ("visit", "journey", "vehicle", "situation")),
          ("xml-visits", "siri", ("departure", "visit", "situation"))]
TABLES = {"visit": "A visit", "journey": "A journey of a timetable", "departure": "A journey of a timetable", "vehicle": "A vehicle", "situation": "A situation"}
DELIVERIES = {"visit": "StopMonitoringDelivery", "journey": "EstimatedTimetableDelivery", "departure": "EstimatedTimetableDelivery",
              "vehicle": "VehicleMonitoringDelivery", "situation": "SituationExchangeDelivery"}
FRAMED = ("FramedVehicleJourneyRef.DataFrameRef", "FramedVehicleJourneyRef.DatedVehicleJourneyRef")
JOURNEY = ((("OfCall",), {"LineRef"}), ((), {"LineRef"}), ((*FRAMED, "OfCall"), {"LineRef"}), ((*FRAMED, "DatedVehicleJourneyRef", "OfCall"), {"LineRef", "DatedVehicleJourneyRef"}))
DEPARTURE = ((("OfCall",), ()), (("OfCall", "Cancellation"), ()), ((), ()), ((*FRAMED, "OfCall", "Order"), ()), ((*FRAMED, "DatedVehicleJourneyRef", "OfCall", "Cancellation"), ()))
NAMED = {"ItemIdentifier", "MonitoringRef"}
VISIT = ((("OfCall",), NAMED), ((), NAMED), (("OfCall", "DestinationName"), NAMED), ((*FRAMED, "OfCall"), NAMED), ((*FRAMED, "DatedVehicleJourneyRef", "OfCall"), NAMED))
# Which fields an item is made without (OfCall being the Cancellation of its calls), and which of the others it then can't do without.
WANTED = {("prim", "visit"): (((), NAMED), (("DestinationName",), NAMED)), ("mta", "visit"): (((), {FRAMED[1], "MonitoringRef"}),),
          ("511", "visit"): (((), ()), (("ItemIdentifier", "MonitoringRef", "DestinationName"), {FRAMED[1], "MonitoringRef"})),
          ("entur", "journey"): JOURNEY, ("siri", "journey"): JOURNEY, ("entur", "departure"): DEPARTURE, ("siri", "departure"): DEPARTURE, ("siri", "visit"): VISIT,
          ("siri", "vehicle"): ((("OfCall",), {"VehicleRef"}), (("OfCall", "DestinationName", *FRAMED), {"VehicleRef"}))}
CALLS = ("RecordedCalls.RecordedCall", "EstimatedCalls.EstimatedCall")
ABSENT = (None, "", [], {})
FLAGS = ("Monitored", "VehicleAtStop", "Cancellation", "OfCall")
WORDS = {"ArrivalStatus", "DepartureStatus", "Occupancy", "Progress", "Severity"}
# What is known of calls beside the rows of their table.
BESIDE = ("Cancellation", "DestinationDisplay", "VisitNumber")


class Tables:
    """What README.md has: of each table and portal the cells by their names, and what is passed over."""

    def __init__(self, path):
        with open(path) as file:
            parts = re.findall(r"^## (.*?)\n(.*?)(?=^## |\Z)", file.read(), re.M | re.S)
        rows = {head: [[cell.strip() for cell in line.strip("| ").split("|")] for line in re.findall(r"^\|.*", text, re.M)] for head, text in parts}
        self.rows = {head: [row + [""] * (len(table[0]) - len(row)) for row in table] for head, table in rows.items()}
        self.passed_over = {portal: set(re.findall(r"\w+", members)) for portal, members in self.rows["What is passed over"][2:]}

    def column(self, head, portal):
        table = self.rows[head]
        return {row[0]: row[table[0].index(portal)].replace("`", "") for row in table[2:] if row[table[0].index(portal)]}


def steps(name, cell):
    """The members and places in which the value of a name stands by a cell that has no `or`."""
    return re.findall(r"\w+|\[0\]", cell.replace("=", name.rpartition(".")[0] + "." * ("." in name) + name.rpartition(".")[2], 1))


def at(value, path):
    """What stands at a path of an answer; None where it or what is around it is absent. It has to be of the form that the path says."""
    for step in path:
        if value in ABSENT:
            return None
        if not isinstance(value, list if step == "[0]" else dict):
            raise ValueError("%s isn't as the table of %s has it" % (value, path))
        value = value[0] if step == "[0]" else value.get(step)
    return None if value in ABSENT else value


def every(value, path):
    """All that stands at a path of names, of whose lists every entry counts."""
    if value in ABSENT:
        return []
    if isinstance(value, list):
        return [one for entry in value for one in every(entry, path)]
    return [value] if not path else every(value.get(path[0]), path[1:])


def placed(value, path, new):
    """A value with another one at a path, in objects and lists of one entry."""
    if not path:
        return new
    if path[0] == "[0]":
        return [placed((value or [None])[0], path[1:], new)]
    return {**(value or {}), path[0]: placed((value or {}).get(path[0]), path[1:], new)}


def read(name, value):
    """The value of a name as the profile writes it."""
    last = name.rpartition(".")[2]
    if last.endswith("Time"):
        moment = datetime.datetime.fromisoformat(value).astimezone(datetime.timezone.utc)
        part = ".%03d" % (moment.microsecond // 1000) if moment.microsecond >= 1000 else ""
        return moment.strftime("%Y-%m-%dT%H:%M:%S") + part + "Z"
    if last in FLAGS:
        return {True: True, False: False, "true": True, "false": False, "1": True, "0": False}[value]
    if last == "Order":
        return int(value)
    if last in ("Longitude", "Latitude"):
        return format(decimal.Decimal(str(value)).normalize(), "f")
    if last in WORDS and re.fullmatch("[A-Z]+(_[A-Z]+)*", value):
        first, *others = value.lower().split("_")
        return first + "".join(map(str.capitalize, others))
    return str(value)


class Shape:
    """Items of a kind in answers for a filter."""

    def __init__(self, name, column, kind, tables, lists):
        self.name, self.column, self.kind, self.lists = name, column, kind, lists
        self.is_timetable = kind in ("journey", "departure")
        self.item = tables.column(TABLES[kind], column)
        self.journey, self.call = ({} if kind == "situation" else tables.column(head, column) for head in ("Its journey", "A call"))
        self.at_journey = [] if self.is_timetable else ["MonitoredVehicleJourney"]
        if self.is_timetable:
            self.journey = {name: re.sub(r" or MonitoredCall.*", "", cell) for name, cell in self.journey.items() if not name.startswith("VehicleLocation")}

    def value(self, name, cell, whole, around):
        """The value of a name by a cell, below `around`, where the item is whole."""
        for one in cell.split(" or "):
            if "/" in one:
                found = self.made_name(one, whole, (at(whole, self.at_journey) or {}).get("MonitoredCall") or {})
            else:
                found = at(around, steps(name, one.replace(" ", "")))
            if found is not None:
                return found
        return None

    def made_name(self, cell, whole, call):
        parts = [self.named(part, whole, call) for part in cell.split("/")]
        return "/".join(parts) if parts[1] and parts[2] else None

    def named(self, name, whole, call):
        """The value of a part of a name that is made, empty where it is absent."""
        tables = ((self.journey, at(whole, self.at_journey) or {}), (self.call, call))
        rows = [(row, cell, around) for table, around in tables for row, cell in table.items() if row.rpartition(".")[2] == name]
        found = [self.value(row, cell, whole, around) for row, cell, around in rows] if rows else [call.get(name)]
        return next((str(value) for value in found if value not in ABSENT), "")

    # ---- what the tables make of an item

    def expected(self, item, frame):
        """The items that the tables make of one, as the profile writes them."""
        if self.kind == "situation":
            return [self.situation(item)]
        whole, made = {**item, "frame": frame}, {}
        for table, around, place in ((self.item, whole, []), (self.journey, at(item, self.at_journey) or {}, self.at_journey)):
            for name, cell in table.items():
                value = self.value(name, cell, whole, around)
                if value is not None:
                    made = placed(made, place + name.split("."), read(name, value))
        journey_named(at(made, self.at_journey) or {})
        if not self.is_timetable:
            call = self.call_of(whole, at(item, [*self.at_journey, "MonitoredCall"]) or {})
            return [made if not call and self.kind == "vehicle" else placed(made, [*self.at_journey, "MonitoredCall"], call)]
        calls = {list_of: at(item, list_of.split(".")) or [] for list_of in CALLS}
        if self.kind == "departure":
            return [visit for list_of in CALLS for one in calls[list_of] for visit in self.departure(made, whole, one)]
        for list_of, all_of in calls.items():
            if all_of:
                made = placed(made, list_of.split("."), [self.call_of(whole, one) for one in all_of])
        return [made]

    def call_of(self, whole, call, is_cancelled=False):
        found = {name: self.value(name, cell, whole, call) for name, cell in self.call.items()}
        made = {name: read(name, value) for name, value in found.items() if value is not None}
        if is_cancelled or call.get("Cancellation") not in ABSENT and read("Cancellation", call["Cancellation"]):
            made.update(ArrivalStatus="cancelled", DepartureStatus="cancelled")
        return made

    def departure(self, journey, whole, call):
        """The visit of a call, or none."""
        own = self.call_of(whole, call, journey.get("Cancellation"))
        order = "Order" if call.get("Order") not in ABSENT else "VisitNumber"
        name = self.made_name("DataFrameRef/DatedVehicleJourneyRef/StopPointRef/" + order, whole, call)
        if not any(time.endswith("DepartureTime") for time in own) or name is None:
            return []
        shown = at(call, ["DestinationDisplay", *(["[0]", "value"] if self.column == "entur" else [])])
        rest = {key: value for key, value in journey.items() if key not in ("RecordedAtTime", "Cancellation")}
        visit = {"ItemIdentifier": name, "MonitoringRef": own["StopPointRef"],
                 "MonitoredVehicleJourney": {**rest, **({} if shown is None else {"DestinationName": shown}), "MonitoredCall": own}}
        return [{**visit, **{key: journey[key] for key in ("RecordedAtTime",) if key in journey}}]

    def situation(self, item):
        made, periods = {}, []
        for name, cell in self.item.items():
            path = [step for step in steps(name, cell.replace(" ", "")) if step != "[0]"]
            if name.startswith("Affects."):
                names = list(dict.fromkeys(every(item, path)))
                *outer, inner = name.split(".")
                if names:
                    made = placed(made, re.findall(r"\w+|\[0\]", ".".join(outer).replace("AffectedNetwork.", "AffectedNetwork[0].")), [{inner: one} for one in names])
            elif name.startswith("ValidityPeriod."):
                inner = name.rpartition(".")[2]
                periods = periods or [{} for _ in every(item, path[:-1])]
                for period, one in zip(periods, every(item, path[:-1])):
                    period.update({inner: read(name, one[path[-1]])} if one.get(path[-1]) not in ABSENT else {})
            else:
                value = at(item, steps(name, cell.replace(" ", "")))
                made.update({name: read(name, value)} if value is not None else {})
        return {**made, "ValidityPeriod": periods}

    # ---- answers

    def answer(self, items):
        """An answer of the portal's form."""
        if self.is_timetable:
            delivery = {"EstimatedJourneyVersionFrame": [{"EstimatedVehicleJourney": items}]}
        elif self.kind == "situation":
            delivery = {"Situations": {"PtSituationElement": items}}
        else:
            delivery = {{"visit": "MonitoredStopVisit", "vehicle": "VehicleActivity"}[self.kind]: items}
        deliveries = {"ServiceDelivery": {DELIVERIES[self.kind]: delivery if self.name == "511" else [delivery]}}
        return deliveries if self.name == "511" else {"Siri": deliveries}

    def fields(self):
        """Each field of an item: its name, and the places where its value may stand, with what is around them."""
        places = [] if self.kind == "situation" else [list_of.split(".") + ["[0]"] for list_of in CALLS] if self.is_timetable else [["MonitoredVehicleJourney", "MonitoredCall"]]
        for table, around in ((self.item, []), (self.journey, self.at_journey), *((self.call, place) for place in places)):
            for name, cell in table.items():
                for one in cell.split(" or "):
                    if "/" not in one and not one.startswith("frame"):
                        yield name, around + self.listed(steps(name, one.replace(" ", "")))
        for place in places if self.column in ("entur", "siri") else []:
            yield "OfCall", [*place, "Cancellation"]
            if self.kind == "departure":
                yield "VisitNumber", [*place, "VisitNumber"]
                yield "DestinationDisplay", [*place, "DestinationDisplay", *(["[0]", "value"] if self.column == "entur" else [])]
        if self.name == "mta" and places:
            yield "VisitNumber", ["MonitoredVehicleJourney", "MonitoredCall", "VisitNumber"]

    def listed(self, path):
        """A path with the first place of each list of a situation that it goes through."""
        return [one for step in path for one in ([step, "[0]"] if self.kind == "situation" and step in self.lists else [step])]


def journey_named(journey):
    """A journey is written by its frame and its name there, or by a name alone where there is no frame; a frame alone names none."""
    framed = journey.get("FramedVehicleJourneyRef", {})
    if set(framed) == {"DataFrameRef", "DatedVehicleJourneyRef"}:
        journey.pop("DatedVehicleJourneyRef", None)
    elif framed:
        journey.update({key: value for key, value in journey.pop("FramedVehicleJourneyRef").items() if key == "DatedVehicleJourneyRef"})


def items_of(document, kind):
    """The items of a kind in a document, each with its frame."""
    deliveries = document.get("Siri", document)["ServiceDelivery"].get(DELIVERIES[kind], [])
    found = []
    for one in deliveries if isinstance(deliveries, list) else [deliveries]:
        if kind in ("journey", "departure"):
            found += [(item, frame) for frame in one.get("EstimatedJourneyVersionFrame", []) for item in frame["EstimatedVehicleJourney"]]
        elif kind == "situation":
            found += [(item, None) for item in one.get("Situations", {}).get("PtSituationElement", [])]
        else:
            found += [(item, None) for item in one.get("MonitoredStopVisit" if kind == "visit" else "VehicleActivity", [])]
    return found


# ---- XML, read and written apart from the filters

def of_xml(element, lists):
    """An element as the tables take it: lists are those of the profile, and of what else stands several times the first counts."""
    if not len(element):
        return (element.text or "").strip()
    made = {}
    for inner in element:
        name = inner.tag.rpartition("}")[2]
        if name in lists:
            made.setdefault(name, []).append(of_xml(inner, lists))
        else:
            made.setdefault(name, of_xml(inner, lists))
    return made


def delivery_of_xml(text, lists):
    """The deliveries of a document as one ServiceDelivery."""
    made = {}
    for element in tree.fromstring(text).iter():
        if element.tag.rpartition("}")[2] in DELIVERIES.values():
            made.setdefault(element.tag.rpartition("}")[2], []).append(of_xml(element, lists))
    return {"ServiceDelivery": made}


def to_xml(name, value):
    if isinstance(value, list):
        return "".join(to_xml(name, one) for one in value)
    if isinstance(value, dict):
        inner = "".join(to_xml(*pair) for pair in value.items() if pair[1] is not None)
    else:
        inner = xml.sax.saxutils.escape({True: "true", False: "false"}.get(value, value) if isinstance(value, (bool, str)) else str(value))
    return "<%s>%s</%s>" % (name, inner, name)


def in_xml(answer, is_soap):
    delivery = answer["Siri"]["ServiceDelivery"]
    if is_soap:
        return ("<E xmlns='http://schemas.xmlsoap.org/soap/envelope/'><Body><w:Notify xmlns:w='http://wsdl.siri.org.uk'>"
                "<Notification xmlns='http://www.siri.org.uk/siri'>%s</Notification></w:Notify></Body></E>" % "".join(to_xml(*pair) for pair in delivery.items()))
    return "<?xml version='1.0' encoding='UTF-8'?>\n<Siri xmlns='http://www.siri.org.uk/siri' version='2.0'>%s</Siri>\n" % to_xml("ServiceDelivery", delivery)


def spelled(value, how):
    """A value with each text and number in it written by `how`."""
    if isinstance(value, dict):
        return {key: spelled(one, how) for key, one in value.items()}
    if isinstance(value, list):
        return [spelled(one, how) for one in value]
    return value if value is None or isinstance(value, bool) else how(value)


def stripped(value):
    return spelled(value, lambda one: one.strip() if isinstance(one, str) else one)


SPELLINGS = (("as it is", lambda one: one), ("as objects", lambda one: {"value": one, "lang": "en"}), ("as lists", lambda one: [one]),
             ("as lists of objects", lambda one: [{"value": one}, {"value": "another"}]))


# ---- answers made of the tables

def sample_value(name, number):
    """A value for a name, another one for each number, with what wants care in JSON."""
    last = name.rpartition(".")[2]
    if last.endswith("Time"):
        return "2024-05-%02dT23:%02d:07.%d+02:00" % (1 + number % 28, number % 60, 100 + number)
    if last in FLAGS:
        return number % 2 == 0 or last == "OfCall"
    if last in WORDS:
        return ("ON_TIME", "minorDelay", "CLOSED", "noReport", "MANY_SEATS_AVAILABLE")[number % 5]
    if last == "Delay":
        return "PT1M%dS" % (1 + number % 50)
    if last in ("Order", "VisitNumber"):
        return 100 + number
    if last in ("Longitude", "Latitude"):
        return -73.5 - number / 1000
    return "%s %d “\u05ea\u0645\u00e9” \"a\\b\" / <i> \n" % (last, number)


def variants(shape, dropped, wanted):
    """Items that can be taken: with every field but those that are dropped, and with one more absent; and those that can't, without one
    that is wanted."""
    whole, seen, fields = {}, set(), []
    for name, path in shape.fields():
        # (of two places of a dropped field the second one is left, but of the Cancellation of calls)
        if name in dropped and (name not in seen or name == "OfCall"):
            seen.add(name)
        else:
            fields.append((name, path))
    for number, (name, path) in enumerate(fields):
        if at(whole, path) is None:
            whole = placed(whole, path, sample_value(name, number))
    # (a place that two fields have is told of the first)
    fields = {tuple(path): name for name, path in reversed(fields)}
    made, left = [whole], []
    for path, name in fields.items():
        for item in without(whole, path):
            (left if name in wanted else made).append(item)
    return made, left


def without(item, path):
    """The item in each way in which what stands at a path may be absent: as null, an empty text, an empty list or an empty object, by what
    the path says is there."""
    last = max(place for place, step in enumerate(path, 1) if step not in ("[0]", "value"))
    for keep in range(last, len(path) + 1):
        empty = "" if keep == len(path) else [] if path[keep] == "[0]" else {}
        yield placed(item, path[:keep], empty)
        if path[keep - 1] != "[0]":
            yield placed(item, path[:keep], None)


def spellings(shape, items, number, count):
    """An answer of these items in the ways in which it may be written, with what it is, and with the items themselves: one of the ways
    for each number, and all where there are fewer numbers than ways."""
    if shape.name.startswith("xml"):
        items = stripped(items)
        ways = [("in SOAP" if is_soap else "in XML", in_xml(shape.answer(items), is_soap).encode(), items) for is_soap in (False, True)]
    else:
        ways = [(what, json.dumps(shape.answer(spelled(items, how))).encode(), items) for what, how in (SPELLINGS if shape.column == "siri" else SPELLINGS[:1])]
    return ways if count < len(ways) else [ways[number % len(ways)]]


class Trial:
    def __init__(self, siri, folder, lists, faults):
        self.siri, self.folder, self.lists, self.faults = siri, folder, lists, faults

    def filtered(self, name, answer):
        """What is read in the documents that a filter makes of an answer, in the profile's form: the items of each kind."""
        told = subprocess.run([os.path.join(self.folder, "filter"), name], input=answer, capture_output=True, check=False)
        if told.returncode not in (0, 3):
            raise ValueError("%s: %s" % (told.returncode, told.stderr.decode()))
        documents = [self.converted(document + b"\n") for document in told.stdout.splitlines()]
        return {kind: [item for document in documents for item in read_items(document, kind)] for kind in ("visit", "journey", "vehicle", "situation")}

    def converted(self, document):
        return json.loads(subprocess.run([self.siri, "convert"], input=document, capture_output=True, check=True).stdout)

    def compare(self, name, what, items, expected):
        if len(items) != len(expected):
            self.faults.append("of %s, %s, %d items are taken and not %d" % (name, what, len(items), len(expected)))
        for number, (item, wanted) in enumerate(zip(items, expected), 1):
            if item != wanted:
                self.faults.append("of %s, %s, item %d is\n%s\nand by the table\n%s" % (name, what, number, json.dumps(item, sort_keys=True), json.dumps(wanted, sort_keys=True)))
                return

    def sample(self, file, shapes, left_out):
        """What is made of a sample, all of whose members are known."""
        with open(os.path.join(self.folder, "samples", file), "rb") as opened:
            text = opened.read()
        answer = delivery_of_xml(text, self.lists) if file.endswith(".xml") else json.loads(text.decode("utf-8-sig"))
        made = self.filtered(shapes[0].name, text)
        for shape in shapes:
            items = items_of(answer, shape.kind)
            if shape.kind not in left_out:
                continue
            for item, _ in items:
                self.faults += ["the sample %s has %s, of which the tables say nothing" % (file, leaf) for leaf in leaves(item) if not is_known(shape, leaf)]
            expected = [one for number, item in enumerate(items, 1) if number not in left_out[shape.kind] for one in shape.expected(*item)]
            self.compare(shape.name, file, made[kind_out(shape)], expected)

    def made_of_tables(self, shape):
        """What is made of answers that the tables give."""
        combinations = WANTED.get((shape.column, shape.kind), (((), {"SituationNumber", "ValidityPeriod.StartTime"}),))
        for number, (dropped, wanted) in enumerate(combinations):
            made, left = variants(shape, dropped, wanted)
            for what, text, items in spellings(shape, made, number, len(combinations)):
                found = self.filtered(shape.name, text)[kind_out(shape)]
                self.compare(shape.name, "an answer made of the tables %s" % what, found, [one for item in items for one in shape.expected(item, None)])
            for what, text, _ in list(spellings(shape, left, number, len(combinations)))[:1] if left else []:
                self.compare(shape.name, "an answer of what can't be taken %s" % what, self.filtered(shape.name, text)[kind_out(shape)], [])

    def examples(self):
        """The profile's own examples come out as they are, of JSON and of XML."""
        folder = os.path.join(os.path.dirname(os.path.abspath(__file__)), "..", "examples")
        for name, kind in (("stop_monitoring", "visit"), ("estimated_timetable", "journey"), ("vehicle_monitoring", "vehicle"), ("situation_exchange", "situation")):
            with open(os.path.join(folder, name + ".json"), "rb") as file:
                text = file.read()
            expected = read_items(self.converted(text), kind)
            for way, answer in (("siri", text), ("xml", in_xml(json.loads(text), False).encode())):
                self.compare(way, name, self.filtered(way, answer)[kind], expected)


def kind_out(shape):
    return "visit" if shape.kind == "departure" else shape.kind


def read_items(document, kind):
    """The items of a document in the profile's form. (A time of record that all journeys of a frame share is written at the frame.)"""
    return [{**item, "RecordedAtTime": frame["RecordedAtTime"]} if frame and "RecordedAtTime" in frame else item for item, frame in items_of(document, kind)]


def leaves(value):
    """The names of members below which there are no others."""
    if isinstance(value, list):
        return [name for one in value for name in leaves(one)]
    if isinstance(value, dict):
        return [name for key, one in value.items() for name in ([key] if not isinstance(one, (dict, list)) or one in ABSENT
                                                                else [(key + "." + name).removesuffix(".value") for name in leaves(one)] or [key])]
    return []


def is_known(shape, leaf):
    """Whether a leaf of a sample stands in a table, or is passed over."""
    rows = {".".join(step for step in path if step != "[0]").removesuffix(".value") for _, path in shape.fields()}
    rows |= {".".join([list_of, name]) for list_of in CALLS for name in BESIDE if shape.kind == "departure" or shape.kind == "journey" and name == "Cancellation"}
    return leaf in rows or leaf + ".value" in rows or any(row.startswith(leaf + ".") for row in rows) or set(leaf.split(".")) & shape.passed_over


def profile_lists():
    """The members of deliveries and items that PROFILE has as lists, but its own."""
    with open(os.path.join(os.path.dirname(os.path.abspath(__file__)), "..", "docs", "PROFILE.md")) as file:
        text = file.read()
    parts = [re.search(r"^## %s.*?(?=^## )" % head, text, re.M | re.S)[0] for head in ("Items", "Deliveries")]
    return set(re.findall(r"^ *(\w+) +\[\.\.\]", "".join(parts), re.M)) - {"Removed"}


def lists_of(path):
    """The lists that from_xml knows."""
    loader = importlib.machinery.SourceFileLoader("from_xml", path)
    module = importlib.util.module_from_spec(importlib.util.spec_from_loader("from_xml", loader))
    loader.exec_module(module)
    return module.LISTS


def main(siri, folder):
    tables, faults, lists = Tables(os.path.join(folder, "README.md")), [], profile_lists()
    if lists != lists_of(os.path.join(folder, "from_xml")):
        faults.append("from_xml and PROFILE have other lists: %s" % sorted(lists ^ lists_of(os.path.join(folder, "from_xml"))))
    trial = Trial(siri, folder, lists, faults)
    shapes = {name: [Shape(name, column, kind, tables, lists | {"AffectedVehicleJourney"}) for kind in kinds] for name, column, kinds in SHAPES}
    for shape in [shape for all_of in shapes.values() for shape in all_of]:
        shape.passed_over = tables.passed_over[shape.column]
    tried = [(file, lambda file=file, name=name, left=left: trial.sample(file, shapes[name], left)) for file, name, left in SAMPLES]
    # (what is no visit of a timetable comes by the filters of visits as by the others)
    tried += [("%s of %s" % (shape.name, shape.kind), lambda shape=shape: trial.made_of_tables(shape))
              for all_of in shapes.values() for shape in all_of if not shape.name.endswith("-visits") or shape.kind == "departure"]
    for what, run in [*tried, ("examples", trial.examples)]:
        try:
            run()
        except (ValueError, subprocess.CalledProcessError) as fault:
            faults.append("of %s: %s: %s" % (what, fault, getattr(fault, "stderr", b"")))
    for fault in faults:
        print("portals: " + fault)
    return 1 if faults else 0


if __name__ == "__main__":
    sys.exit(main(*sys.argv[1:]))
