# Readings as lines of JSON become items, and a line {"tick": T} a tick where time hasn't gone so far by what stands before it,
# less the slack of a reading. A line that is neither is passed over.

# a number to a thousandth: jq writes 0.00001 as 1e-05, which is no decimal
def decimal:
  (. * 1000 | round) as $n | ($n | fabs) as $size
  | (if $n < 0 then "-" else "" end) + ($size / 1000 | floor | tostring) + "." + ("00" + ($size % 1000 | tostring))[-3:];

def is_time: type == "number" and . >= 0 and . < 253402300800000;
def is_reading: (.sensor | type == "string") and (.at | is_time) and (.celsius | type == "number" and (isnan | not) and fabs < 1e9);

# each reading is a node of its own
def item($number): "@item <http://example.org/readings> \(.at | floor)
_:r\($number) <http://example.org/sensor> <http://example.org/\(.sensor | @uri)> .
_:r\($number) <http://example.org/celsius> \"\(.celsius | decimal)\"^^<http://www.w3.org/2001/XMLSchema#decimal> .
@end";

foreach (inputs | fromjson? | select(type == "object")) as $line (
  {readings: 0, latest: 0};
  .block = null
  | if $line | is_reading then .readings += 1 | .readings as $n | .latest = ([.latest, $line.at - $slack] | max) | .block = ($line | item($n))
    elif ($line.tick | is_time) and $line.tick > .latest then .latest = $line.tick | .block = "@tick \($line.tick | floor)"
    else . end;
  .block | select(. != null))
