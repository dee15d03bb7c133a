# What the filters of portals share: values as the profile reads them, the parts of items, and the documents that come out. A value
# that the profile would refuse is an error `PATH: REASON`, with the profile's reasons, so it costs its item and no other.

# A text or number as such, or as the first entry of a list, or as the value of an object; null where it is absent.
def plain:
  (if type == "array" then .[0] else . end)
  | (if type == "object" then .value else . end)
  | if type == "number" then tostring elif . == "" then null else . end;

# The object itself or the first entry of a list; {} where it is absent.
def object: (if type == "array" then .[0] else . end) | if type == "object" then . else {} end;

# Each entry of a list, or the one value that stands in its place.
def entries: if type == "array" then .[] elif . == null then empty else . end;

# Whatever goes wrong within a member is told with its name. (What goes wrong later isn't caught: the list ends what is tried.)
def at(member; f): [try {made: f} catch {fault: .}][0] | if has("fault") then error("\(member).\(.fault)") else .made end;

def member(name; is_good; reason):
  (.[name] | plain) as $value
  | if $value == null then {}
    elif ($value | type) != "string" then error("\(name): WrongKind")
    elif ($value | is_good) then {(name): $value}
    else error("\(name): \(reason)") end;

def name(member): member(member; utf8bytelength <= 255; "BadName");
def text(member): member(member; utf8bytelength <= 16384; "BadName");

# A word of an enumeration. Some portals write it as programs have it, ON_TIME, and not as the standard has it, onTime.
def word(member):
  text(member)
  | map_values(if test("^[A-Z]+(_[A-Z]+)*$") then ascii_downcase | split("_") | .[:1] + (.[1:] | map((.[:1] | ascii_upcase) + .[1:])) | add else . end);

def number(member): member(member; test("^[0-9]{1,18}$"); "BadNumber");
def degrees(member): member(member; test("^[+-]?[0-9]{1,3}([.][0-9]{0,40})?$") and (tonumber | . >= -180 and . <= 180); "BadDecimal");
def span(member): member(member; test("^-?P(?=[0-9T])(0+Y)?(0+M)?([0-9]{1,5}D)?(T(?=[0-9])([0-9]{1,6}H)?([0-9]{1,7}M)?([0-9]{1,9}([.][0-9]{1,20})?S)?)?$"); "BadSpan");

def flag(member):
  (.[member] | plain) as $value
  | if $value == null then {}
    elif [true, false, "true", "false", "1", "0"] | index([$value]) then {(member): $value}
    else error("\(member): WrongKind") end;

def month_length($year; $month):
  if $month == 2 then (if ($year % 4 == 0 and $year % 100 != 0) or $year % 400 == 0 then 29 else 28 end)
  elif [4, 6, 9, 11] | index($month) then 30 else 31 end;

# A time with its offset from UTC, of the years 1971 to 9998: 1970 stands for nothing else than that a portal knows none.
def is_time:
  utf8bytelength <= 64
  and test("^[0-9]{4}-(0[1-9]|1[0-2])-(0[1-9]|[12][0-9]|3[01])T([01][0-9]|2[0-3])(:[0-5][0-9]){2}([.][0-9]+)?(Z|[+-](0[0-9]|1[0-3]):[0-5][0-9]|[+-]14:00)$")
  and ([.[0:4], .[5:7], .[8:10]] | map(tonumber) | .[0] >= 1971 and .[0] <= 9998 and .[2] <= month_length(.[0]; .[1]));

def time(member):
  (.[member] | plain) as $value
  | if ($value | type) == "string" and ($value + "Z" | is_time) then error("\(member): NoOffset")
    else member(member; is_time; "BadTime") end;

# A member that the profile wants.
def wanted(name; f): f as $made | if $made | has(name) then $made else error("\(name): Missing") end;

# ---- the parts of items

def call_times: ["ActualDepartureTime", "ExpectedDepartureTime", "AimedDepartureTime", "ActualArrivalTime", "ExpectedArrivalTime", "AimedArrivalTime"];

def is_true: plain | . == true or . == "true" or . == "1";

# What is cancelled is told by the statuses of the call, which the profile has, and not by its Cancellation.
def call:
  (flag("Cancellation") | .Cancellation | is_true) as $is_cancelled
  | name("StopPointRef") + number("Order") + text("StopPointName") + flag("VehicleAtStop")
  + ([call_times[] as $one | time($one)] | add)
  + word("ArrivalStatus") + text("ArrivalPlatformName") + word("DepartureStatus") + text("DeparturePlatformName")
  + if $is_cancelled then {ArrivalStatus: "cancelled", DepartureStatus: "cancelled"} else {} end;

def has_moment: keys - (keys - call_times) | length > 0;

# An extra journey has an EstimatedVehicleJourneyCode in the place of a journey's name.
def named: if (.FramedVehicleJourneyRef | object | .DatedVehicleJourneyRef | plain) == null and (.DatedVehicleJourneyRef | plain) == null
  then .DatedVehicleJourneyRef = .EstimatedVehicleJourneyCode else . end;

def journey_reference:
  named
  | (.FramedVehicleJourneyRef | object) as $framed
  | at("FramedVehicleJourneyRef"; $framed | name("DataFrameRef") + name("DatedVehicleJourneyRef")) as $made
  | if $made | has("DatedVehicleJourneyRef") then {FramedVehicleJourneyRef: $made} else name("DatedVehicleJourneyRef") end;

def journey:
  name("LineRef") + name("DirectionRef") + journey_reference + text("PublishedLineName") + name("OperatorRef") + name("DestinationRef")
  + text("DestinationName") + name("VehicleRef") + flag("Monitored") + word("Occupancy") + span("Delay");

def location:
  at("VehicleLocation"; .VehicleLocation | object | degrees("Longitude") + degrees("Latitude")) as $made
  | if $made == {} then {} else {VehicleLocation: $made} end;

# The destination of a journey, or where it has none what the vehicle shows at the call.
def destination($call):
  if (.DestinationName | plain) != null then text("DestinationName")
  else at("MonitoredCall"; $call | text("DestinationDisplay")) | with_entries(.key = "DestinationName") end;

def journey_of: .MonitoredVehicleJourney | object;
def call_of: journey_of | .MonitoredCall | object;

# A visit, whose MonitoringRef and ItemIdentifier are those that the filter says.
def visit(monitoring; identifier):
  time("RecordedAtTime")
  + wanted("ItemIdentifier"; {ItemIdentifier: identifier} | name("ItemIdentifier"))
  + wanted("MonitoringRef"; {MonitoringRef: monitoring} | name("MonitoringRef"))
  + {MonitoredVehicleJourney: (call_of as $call | at("MonitoredVehicleJourney"; journey_of | journey + destination($call) + location
      + {MonitoredCall: at("MonitoredCall"; $call | call)}
      | if .MonitoredCall | has_moment then . else error("MonitoredCall: NoMoment") end))};

# A name for a visit that has none: of its journey, its stop and the order of its call there.
def made_identifier(order):
  (journey_of | named) as $journey
  | ($journey.FramedVehicleJourneyRef | object) as $framed
  | [$framed.DataFrameRef, ($framed.DatedVehicleJourneyRef | plain) // $journey.DatedVehicleJourneyRef, call_of.StopPointRef, (call_of | order)] | map(plain)
  | if .[1] == null or .[2] == null then null else map(. // "") | join("/") end;

# A vehicle, which may have no call.
def vehicle:
  time("RecordedAtTime") + name("ItemIdentifier") + time("ValidUntilTime")
  + {MonitoredVehicleJourney: (call_of as $call | at("MonitoredVehicleJourney"; journey_of | wanted("VehicleRef"; name("VehicleRef"))
      + journey + destination($call) + location + (at("MonitoredCall"; $call | call) | if . == {} then {} else {MonitoredCall: .} end)))};

# The journeys of a timetable: each has the RecordedAtTime of its frame where it has none. What is no journey stays what it is.
def journeys_of:
  .EstimatedTimetableDelivery | entries | object | .EstimatedJourneyVersionFrame | entries | object
  | .RecordedAtTime as $recorded | .EstimatedVehicleJourney | entries | if type == "object" and (has("RecordedAtTime") | not) then .RecordedAtTime = $recorded else . end;

def calls($list; $entry):
  [.[$list] | object | .[$entry] | entries] as $all
  | if $all == [] then {}
    elif ($all | length) > 1000 then error("\($list).\($entry): TooMany")
    else {($list): {($entry): [$all | to_entries[] | . as $one | at("\($list).\($entry)[\($one.key)]"; $one.value | object | call)]}} end;

def timetable:
  time("RecordedAtTime") + wanted("LineRef"; name("LineRef")) + journey + flag("Cancellation") + calls("RecordedCalls"; "RecordedCall") + calls("EstimatedCalls"; "EstimatedCall")
  | if has("FramedVehicleJourneyRef") or has("DatedVehicleJourneyRef") then . else error("DatedVehicleJourneyRef: Missing") end
  | if [.RecordedCalls.RecordedCall // [], .EstimatedCalls.EstimatedCall // []] | add | any(has_moment) then . else error("EstimatedCalls: NoMoment") end;

# Each call of a timetable at which its vehicle departs, with its journey: what a board shows. A call that is recorded is among them, so
# that what has left isn't expected any more.
def departures_of:
  journeys_of | . as $journey
  | if type != "object" then .
    else ((.RecordedCalls | object | .RecordedCall), (.EstimatedCalls | object | .EstimatedCall)) | entries
      | if type != "object" then .
        elif [.ActualDepartureTime, .ExpectedDepartureTime, .AimedDepartureTime] | all(plain == null) then empty
        else {journey: $journey, call: .} end end;

# The visit of such a call, at the stop point that the call names. What the vehicle shows there comes before the journey's destination.
def departure:
  (.journey | flag("Cancellation") | .Cancellation | is_true) as $is_cancelled
  | (.call | if $is_cancelled then .Cancellation = true else . end) as $call
  | {RecordedAtTime: .journey.RecordedAtTime,
     MonitoredVehicleJourney: (.journey | .MonitoredCall = $call
       | if ($call.DestinationDisplay | plain) == null then . else .DestinationName = $call.DestinationDisplay end)}
  | visit($call.StopPointRef; made_identifier((.Order | plain) // .VisitNumber));

# The names of affected parts, each once.
def references($path; $reference; items):
  [items | at($path; object | name($reference)) | .[$reference] // empty]
  | reduce .[] as $one ([]; if index([$one]) then . else . + [$one] end)
  | if length > 2000 then error("\($path): TooMany") else map({($reference): .}) end;

def lines_of_networks: .Networks | object | .AffectedNetwork | entries | object | .AffectedLine | entries;

# What a situation affects, of whose lines the filter says where they stand.
def affects(lines):
  (.Affects | object) as $affects
  | at("Affects"; $affects
      | {Operators: {AffectedOperator: references("Operators.AffectedOperator"; "OperatorRef"; .Operators | object | .AffectedOperator | entries)},
         Networks: {AffectedNetwork: [{AffectedLine: references("Networks.AffectedNetwork.AffectedLine"; "LineRef"; lines)}]},
         StopPoints: {AffectedStopPoint: references("StopPoints.AffectedStopPoint"; "StopPointRef"; .StopPoints | object | .AffectedStopPoint | entries)}})
  | with_entries(select([.value | .. | strings] != []))
  | if . == {} then {} else {Affects: .} end;

# A situation, whose periods and lines stand where the filter says.
def situation(periods; lines):
  time("CreationTime") + name("ParticipantRef") + wanted("SituationNumber"; name("SituationNumber")) + name("Version") + time("VersionedAtTime") + word("Progress")
  + {ValidityPeriod: ([periods | select(. != null)] | if . == [] then error("ValidityPeriod: Missing") elif length > 100 then error("ValidityPeriod: TooMany")
      else [to_entries[] | . as $one | at("ValidityPeriod[\($one.key)]"; $one.value | object | wanted("StartTime"; time("StartTime")) + time("EndTime"))] end)}
  + word("Severity") + text("Summary") + text("Description") + affects(lines);

# A visit that a portal takes back.
def cancellation: wanted("ItemRef"; name("ItemRef")) + wanted("MonitoringRef"; name("MonitoringRef"));

# ---- what comes out

def service_delivery: (if has("Siri") then .Siri else . end) | object | .ServiceDelivery | object;

# What a portal itself says where it has no answer: of the whole, or of a service, its Status is false, or an ErrorCondition stands in
# the place of a Status. The first text of the ErrorCondition is told, in one line.
def refusals:
  [., (to_entries[] | select(.key | endswith("Delivery")) | .value | entries | object)]
  | map((.Status | plain) as $status | [.ErrorCondition | .. | strings | select(. != "")] as $texts
      | select($status == false or $status == "false" or $status == "0" or ($status == null and $texts != []))
      | ($texts[0] // "Status false") | gsub("\\s+"; " ") | .[:300])
  | unique;

def counted: group_by(.) | map("\(length) left out: \(.[0])")[];

# The items of a kind that `items` gives of an answer, where it has this delivery: each by `convert`, in documents of at most 200, made
# by `wrap`; of those that can't be taken it stays why.
def part($kind; $delivery; items; convert; wrap):
  {$kind, stands: has($delivery)} + (
    [items | select(. != null) | . as $item
     | try {taken: (if $item | type == "object" then $item | convert else error("WrongKind") end)} catch {left: (if type == "string" then . else "WrongKind" end)}]
    | (map(select(has("taken")) | .taken)) as $taken
    | {taken: ($taken | length), left: map(select(has("left")) | .left),
       documents: [range(0; $taken | length; 200) as $at | {Siri: {ServiceDelivery: ($taken[$at:$at + 200] | wrap)}}]});

# What comes of an answer: its documents, and what is told, of the parts that it has, or of the first. Beside them stands whether the
# portal refuses, and whether it has more than it sent (MoreData), so that it wants to be asked again.
def outcome(parts):
  service_delivery
  | if . == {} then error("there is no ServiceDelivery") else . end
  | refusals as $refusals
  | (.MoreData | is_true) as $more
  | [parts] as $parts
  | ([$parts[] | select(.stands)] | if . == [] then $parts[:1] else . end) as $told
  | {
      $more, refuses: ($refusals != []), documents: [$parts[].documents[]],
      told: ([$refusals[] | "\($portal): the portal refuses: \(.)"]
        + [$told[] | select($refusals == [] or .taken > 0 or .left != [])
           | "\($portal): \(.taken) \(.kind) taken, \(.left | length) left out", (.left | counted | "\($portal): \(.)")])
    };

def visits(convert):
  part("visits"; "StopMonitoringDelivery"; .StopMonitoringDelivery | entries | object | .MonitoredStopVisit | entries; convert; {StopMonitoringDelivery: [{MonitoredStopVisit: .}]});

def cancellations:
  [.StopMonitoringDelivery | entries | object | .MonitoredStopVisitCancellation | entries] as $all
  | part("cancellations"; "StopMonitoringDelivery"; $all[]; cancellation; {StopMonitoringDelivery: [{MonitoredStopVisitCancellation: .}]}) | .stands = ($all != []);

def journeys:
  part("journeys"; "EstimatedTimetableDelivery"; journeys_of; timetable; {EstimatedTimetableDelivery: [{EstimatedJourneyVersionFrame: [{EstimatedVehicleJourney: .}]}]});

# The visits of a timetable, for boards, which ask for visits.
def departures: part("visits"; "EstimatedTimetableDelivery"; departures_of; departure; {StopMonitoringDelivery: [{MonitoredStopVisit: .}]});

def vehicles: part("vehicles"; "VehicleMonitoringDelivery"; .VehicleMonitoringDelivery | entries | object | .VehicleActivity | entries; vehicle; {VehicleMonitoringDelivery: [{VehicleActivity: .}]});

def situations(convert):
  part("situations"; "SituationExchangeDelivery"; .SituationExchangeDelivery | entries | object | .Situations | object | .PtSituationElement | entries;
    convert; {SituationExchangeDelivery: [{Situations: {PtSituationElement: .}}]});

def general_situation: situation(.ValidityPeriod | entries; lines_of_networks);
