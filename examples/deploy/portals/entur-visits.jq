# Visits of the estimated timetables of Entur, for a board, which asks for visits; and situations.
include "items";

outcome(departures, situations(general_situation))
