# The same for a board, which asks for visits: those of stops, those of the calls of timetables, and situations.
include "items";

outcome(visits(visit(.MonitoringRef; .ItemIdentifier)), cancellations, departures, situations(general_situation))
