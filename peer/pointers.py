"""pointers.py FILE prints a library's bitcode, as text, so that it does the same where pointers shrink from 64 bits to 32 and numbers stay.

A pointer that is stored is stored as a number of 64 bits, and made a pointer again where it is loaded. So memory is the same on both, byte for byte,
as it is on the wider machine where all of it lies below 4 GB; and what the program does there is proved for it wherever it lies.
Only the forms below are let pass: of a pointer a number is made where it is stored, and where the standard library's copy asks whether two parts
lie apart, which takes their distance, one address less another, and nothing else of an address; and none compares two pointers.
Whether a caller's pointer is null may be asked: it is on both or on neither. Two values may be a function's result: as a pair,
whose second part lies at the same place on both once a pointer in it is a number too.
"""
import re
import sys

NUMBER = r"i(?:1|8|16|32|64)"
VALUE = r"(?:%[\w.]+|-?\d+|true|false)"
NAME = r'@(?:[\w.]+|"[^"]+")'
LABEL = r"label %[\w.]+"
PAIR = rf"\{{ (?:ptr|{NUMBER}), (?:ptr|{NUMBER}) \}}"
PLAIN = [re.compile(form) for form in (
    rf"%[\w.]+ = (?:add|sub|mul|udiv|urem|and|or|xor)(?: nuw)? {NUMBER} {VALUE}, {VALUE}",
    rf"%[\w.]+ = icmp (?:eq|ne|ult|ule|ugt|uge) {NUMBER} {VALUE}, {VALUE}",
    rf"%[\w.]+ = (?:zext|trunc)(?: nuw)? {NUMBER} {VALUE} to {NUMBER}",
    rf"%[\w.]+ = getelementptr(?: inbounds nuw)? i8, ptr %[\w.]+, i64 {VALUE}",
    rf"%[\w.]+ = alloca (?:{NUMBER}|\[\d+ x i8\]), align \d+",
    rf"%[\w.]+ = load {NUMBER}, ptr %[\w.]+, align \d+(?:, ![a-z]+ !\d+)*",
    rf"store {NUMBER} {VALUE}, ptr %[\w.]+, align \d+",
    rf"br (?:{LABEL}|i1 {VALUE}, {LABEL}, {LABEL})",
    rf"switch {NUMBER} {VALUE}, {LABEL} \[",
    rf"{NUMBER} -?\d+, {LABEL}",
    rf"ret (?:void|{NUMBER} {VALUE}|ptr %[\w.]+)",
    r"\]|unreachable",
)]
FRAME = re.compile(r"(%[\w.]+) = alloca ptr, (align \d+)")
LOAD = re.compile(r"(%[\w.]+) = load ptr, ptr (%[\w.]+), (align \d+)(?:, ![a-z]+ !\d+)*")
STORE = re.compile(rf"store ptr (%[\w.]+|{NAME}), ptr (%[\w.]+), (align \d+)")
LOAD_PAIR = re.compile(rf"(%[\w.]+) = load ({PAIR}), ptr (%[\w.]+), (align \d+)")
PART = re.compile(rf"(%[\w.]+) = extractvalue ({PAIR}) (%[\w.]+), ([01])")
GIVE_PAIR = re.compile(rf"ret ({PAIR}) (%[\w.]+)")
ADDRESS = re.compile(r"(%[\w.]+) = ptrtoaddr ptr (%[\w.]+) to i64")
DISTANCE = re.compile(r"%[\w.]+ = sub i64 (%[\w.]+), (%[\w.]+)")
IS_NULL = re.compile(r"%[\w.]+ = icmp eq ptr (%a\d+), null")
CALL = re.compile(rf"(?:(%[\w.]+) = )?call (?:zeroext )?(void|ptr|{NUMBER}|{PAIR}) ({NAME})\((.*)\)")
OUTSIDE = {"@llvm.memmove.p0.p0.i64", "@llvm.memset.p0.i64", "@llvm.trap", "@llvm.ctpop.i32", "@llvm.ctlz.i32", "@llvm.bswap.i32", "@llvm.bswap.i16"}
DECLARED = re.compile(rf"declare (?:void|i16|i32) ({NAME})\(.*\) #\d+")
DEFINED = re.compile(rf"define (internal )?(?:noundef )?(?:zeroext )?(void|ptr|{NUMBER}|{PAIR}) ({NAME})\((.*)\) #\d+ \{{")
CONSTANT = re.compile(rf'({NAME}) = private unnamed_addr constant \[\d+ x i8\] (?:c"[^"]*"|zeroinitializer), align 1')
ARGUMENT = re.compile(rf"(ptr|{NUMBER}) (?:noundef |zeroext |byval\(\[\d+ x i8\]\) align \d+ )*({VALUE})")
ASIDE = re.compile(r'(?:;.*|source_filename = ".*"|target (?:datalayout|triple) = ".*"|attributes #\d+ = \{.*\}|![\w.]+ = .*|\}|[\w.]+: *(?:;.*)?)?')


def fault(line, why):
    sys.exit(f"pointers: {why}: {line.strip()}")


def plain(name):
    return name.replace('"', "")


def as_numbers(text):
    """Each pair of a text with numbers for its pointers."""
    return re.sub(PAIR, lambda pair: pair[0].replace("ptr", "i64"), text)


def arguments_in(line, text):
    """The type and the value of each argument or parameter."""
    found = list(ARGUMENT.finditer(text))
    if ", ".join(each[0] for each in found) != text:
        fault(line, "arguments of an unknown form")
    return [each.groups() for each in found]


class Function:
    """One function's lines; it knows the pairs by their forms, the pointers that come from outside, and the addresses that were taken."""

    def __init__(self, constants, calls):
        self.constants, self.calls, self.pairs, self.callers, self.stored = constants, calls, {}, set(), 0
        self.addresses, self.used = set(), set()

    def enter(self, line, parameters, is_internal):
        for index, (form, value) in enumerate(parameters):
            if value != f"%a{index}":
                fault(line, "parameters of unknown names")
            if form == "ptr" and not is_internal:
                self.callers.add(value)

    def frame(self, line, result, align):
        return [f"{result} = alloca i64, {align}"]

    def load(self, line, result, place, align):
        return [f"{result}.number = load i64, ptr {place}, {align}", f"{result} = inttoptr i64 {result}.number to ptr"]

    def store(self, line, value, place, align):
        if value.startswith("@") and value not in self.constants:
            fault(line, "a constant that is not known")
        self.stored += 1
        return [f"%stored.{self.stored} = ptrtoint ptr {value} to i64", f"store i64 %stored.{self.stored}, ptr {place}, {align}"]

    def load_pair(self, line, result, form, place, align):
        self.pairs[result] = form
        return [as_numbers(f"{result} = load {form}, ptr {place}, {align}")]

    def part(self, line, result, form, pair, index):
        self.is_pair(line, form, pair)
        if form.strip("{} ").split(", ")[int(index)] != "ptr":
            return [as_numbers(f"{result} = extractvalue {form} {pair}, {index}")]
        return [as_numbers(f"{result}.number = extractvalue {form} {pair}, {index}"), f"{result} = inttoptr i64 {result}.number to ptr"]

    def give_pair(self, line, form, pair):
        self.is_pair(line, form, pair)
        return [as_numbers(f"ret {form} {pair}")]

    def is_pair(self, line, form, pair):
        if self.pairs.get(pair) != form:
            fault(line, "a pair that is not known yet")

    def address(self, line, result, value):
        if result in self.used:
            fault(line, "an address that was used before it was taken")
        self.addresses.add(result)
        return [f"{result} = ptrtoint ptr {value} to i64"]

    def spares_addresses(self, line):
        """Of two addresses the distance may be taken, and nothing else is done with one."""
        if re.search(r"%0\d", line):
            fault(line, "a name that can be spelled in another way")
        given, distance = set(re.findall(r"%[\w.]+", re.sub(r"^%[\w.]+ = ", "", line))), DISTANCE.fullmatch(line)
        if self.addresses & given and not (distance and set(distance.groups()) <= self.addresses):
            fault(line, "an address that is used for more than a distance")
        self.used |= given

    def is_null(self, line, value):
        if value not in self.callers:
            fault(line, "a pointer compared that is not the caller's")
        return [line.strip()]

    def call(self, line, given_back, result, callee, given):
        arguments = arguments_in(line, given)
        if plain(callee) not in OUTSIDE:
            self.calls.append((line, plain(callee), result, [form for form, _ in arguments]))
        if "{" in result:
            self.pairs[given_back] = result
        return [as_numbers(line.strip())]

    def read(self, line):
        text = line.strip()
        self.spares_addresses(text)
        takers = ((FRAME, self.frame), (LOAD, self.load), (STORE, self.store), (LOAD_PAIR, self.load_pair), (PART, self.part),
                  (GIVE_PAIR, self.give_pair), (ADDRESS, self.address), (IS_NULL, self.is_null), (CALL, self.call))
        for form, take in takers:
            found = form.fullmatch(text)
            if found:
                return take(text, *found.groups())
        if not any(form.fullmatch(text) for form in PLAIN):
            fault(line, "an unknown form")
        return [text]


def main(path):
    calls, kinds, constants, function, out = [], {}, set(), None, []
    for line in open(path):
        line = line.rstrip("\n")
        defined, declared, constant = (form.fullmatch(line.rstrip()) for form in (DEFINED, DECLARED, CONSTANT))
        if defined:
            if not defined[1] and "{" in defined[2]:
                fault(line, "a pair that is given outside")
            parameters = arguments_in(line, defined[4])
            function = Function(constants, calls)
            function.enter(line, parameters, defined[1])
            kinds[plain(defined[3])] = defined[2], [form for form, _ in parameters]
            line = as_numbers(line)
        elif constant:
            constants.add(constant[1])
        elif line.startswith("  ") and function:
            out += ["  " + each for each in function.read(line.split(" ; ")[0])]
            continue
        elif not (declared and declared[1] in OUTSIDE) and not ASIDE.fullmatch(line.rstrip()):
            fault(line, "an unknown form")
        out.append(line)
    for line, callee, result, forms in calls:
        if kinds.get(callee) != (result, forms):
            fault(line, "a call that is not as its function is defined")
    print("\n".join(out))


main(sys.argv[1])
