# The four services of SIRI 2.0 and 2.1 from whoever answers in the manner of SIRI Lite, and from from_xml.
include "items";

outcome(visits(visit(.MonitoringRef; .ItemIdentifier)), cancellations, journeys, vehicles, situations(general_situation))
