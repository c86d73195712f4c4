# jq -rnf examples/csv.jq < LISTING: a listing as CSV for a spreadsheet, which keeps 15 digits of a number and may run a text that begins with =, +, - or @.
# So an apostrophe stands before every key and every name, and before microseconds of more than 15 digits: such a cell is text.

def text: "\u0027" + tostring;
def number: if (tostring | length) > 15 then text else . end;

(["key", "ticks", "us", "id", "ptr", "by", "name", "gone", "field", "info 1", "info 2", "info 3", "info 4"],
 (inputs | [(.key | text), .ticks, (.us | number), .id, .ptr, .by, (if .name == null then "" else .name | text end), .gone, .field, .info[]]))
| @csv
