"""The audit of bitcode for 32-bit pointers: it turns small sound texts as it should, and refuses each wrong change of them. Silent where all is well."""
import pathlib
import subprocess
import sys
import tempfile

AUDIT = pathlib.Path(__file__).resolve().parent.parent / "peer" / "pointers.py"
# One function makes a slice of a pointer and a length and lends it, the other copies it and reads a byte that it leads to.
SOUND = """\
declare void @llvm.memmove.p0.p0.i64(ptr writeonly captures(none), ptr readonly captures(none), i64, i1 immarg) #1
declare void @llvm.memset.p0.i64(ptr writeonly captures(none), i8, i64, i1 immarg) #4
define internal noundef i64 @"take"(ptr noundef %a0, i64 noundef %a1) #0 {
start:
  %r0 = alloca [16 x i8], align 8
  call void @llvm.memmove.p0.p0.i64(ptr %r0, ptr %a0, i64 16, i1 false)
  %r1 = load ptr, ptr %r0, align 8, !noundef !1
  %r2 = getelementptr i8, ptr %r1, i64 %a1
  %r3 = load i8, ptr %r2, align 1, !noundef !1
  %r4 = zext i8 %r3 to i64
  ret i64 %r4
}
define noundef i64 @lepsaino_give(ptr noundef %a0, i64 noundef %a1, ptr noundef %a2) #0 {
start:
  %r0 = alloca [16 x i8], align 8
  store ptr %a0, ptr %r0, align 8
  %r1 = getelementptr i8, ptr %r0, i64 8
  store i64 %a1, ptr %r1, align 8
  %r2 = alloca ptr, align 8
  store ptr %a0, ptr %r2, align 8
  %r3 = call i64 @"take"(ptr %r0, i64 %a1)
  ret i64 %r3
}
"""
# What becomes of lines that store or load a pointer; all others stay.
NARROWED = [
    ("  %r1 = load ptr, ptr %r0, align 8, !noundef !1\n", "  %r1.number = load i64, ptr %r0, align 8\n  %r1 = inttoptr i64 %r1.number to ptr\n"),
    ("  store ptr %a0, ptr %r0, align 8\n", "  %stored.1 = ptrtoint ptr %a0 to i64\n  store i64 %stored.1, ptr %r0, align 8\n"),
    ("  %r2 = alloca ptr, align 8\n", "  %r2 = alloca i64, align 8\n"),
    ("  store ptr %a0, ptr %r2, align 8\n", "  %stored.2 = ptrtoint ptr %a0 to i64\n  store i64 %stored.2, ptr %r2, align 8\n"),
]
WRONG = [
    ("a parameter of another name", "@\"take\"(ptr noundef %a0, i64 noundef %a1)", "@\"take\"(ptr noundef %a0, i64 noundef %a7)"),
    ("a call with another result", "call i64 @\"take\"", "call i32 @\"take\""),
    ("a call with a number for a pointer", "(ptr %r0, i64 %a1)", "(i64 %a1, i64 %a1)"),
    ("a call of another function", "call i64 @\"take\"", "call i64 @\"lose\""),
    ("a pointer made a number", "%r4 = zext i8 %r3 to i64", "%r4 = ptrtoint ptr %r1 to i64"),
    ("a pointer made a number behind a label", "start:\n  %r0 = alloca [16 x i8], align 8\n  store", "start: %r9 = ptrtoint ptr %a0 to i64\n  %r0 = alloca [16 x i8], align 8\n  store"),
    ("a number made a pointer", "%r2 = getelementptr i8, ptr %r1, i64 %a1", "%r2 = inttoptr i64 %a1 to ptr"),
    ("a number made an address", "%r2 = getelementptr i8, ptr %r1, i64 %a1", "%r2 = addrspacecast ptr %r1 to ptr"),
    ("pointers compared", "%r4 = zext i8 %r3 to i64", "%r4 = icmp eq ptr %r1, %r2"),
    ("a step of several pointers", "getelementptr i8, ptr %r1", "getelementptr ptr, ptr %r1"),
    ("a struct with a pointer as a frame", "%r2 = alloca ptr", "%r2 = alloca { ptr, i8 }"),
    ("a call from outside", "declare void @llvm.memset", "declare i32 @read(i32) #1\ndeclare void @llvm.memset"),
    ("a global", "declare void @llvm.memset", "@table = global i64 0\ndeclare void @llvm.memset"),
    ("an argument of an unknown form", "(ptr %r0, i64 %a1)", "(ptr @table, i64 %a1)"),
]
# One function gives a slice of a constant or what it was lent, two numbers come from another, and the call for C asks whether it was lent nothing.
GIVING = """\
@static.0 = private unnamed_addr constant [2 x i8] c"\\22,", align 1
@static.1 = private unnamed_addr constant [0 x i8] zeroinitializer, align 1
declare void @llvm.memset.p0.i64(ptr writeonly captures(none), i8, i64, i1 immarg) #4
define internal noundef { ptr, i64 } @"pick"(ptr noundef %a0, i64 noundef %a1) #0 {
start:
  %r0 = alloca [16 x i8], align 8
  %r1 = alloca ptr, align 8
  %r2 = alloca [16 x i8], align 8
  call void @llvm.memset.p0.i64(ptr %r0, i8 0, i64 16, i1 false)
  store ptr @static.0, ptr %r0, align 8
  %r3 = getelementptr i8, ptr %r0, i64 8
  store i64 2, ptr %r3, align 8
  store ptr %a0, ptr %r1, align 8
  store ptr %a0, ptr %r2, align 8
  %r4 = load { ptr, i64 }, ptr %r0, align 8
  ret { ptr, i64 } %r4
}
define internal noundef { i64, i64 } @"count"(i64 noundef %a0) #0 {
start:
  %r0 = alloca [16 x i8], align 8
  store i64 %a0, ptr %r0, align 8
  %r1 = load { i64, i64 }, ptr %r0, align 8
  ret { i64, i64 } %r1
}
define noundef i64 @lepsaino_pick(ptr noundef %a0, i64 noundef %a1) #0 {
start:
  %r0 = icmp eq ptr %a0, null
  %r1 = zext i1 %r0 to i64
  %r2 = getelementptr i8, ptr %a0, i64 %r1
  %r3 = call { ptr, i64 } @"pick"(ptr %r2, i64 %a1)
  %r4 = extractvalue { ptr, i64 } %r3, 0
  %r5 = extractvalue { ptr, i64 } %r3, 1
  %r6 = load i8, ptr %r4, align 1, !noundef !1
  %r7 = call { i64, i64 } @"count"(i64 %r5)
  %r8 = extractvalue { i64, i64 } %r7, 0
  ret i64 %r8
}
"""
NARROWED_GIVING = [
    ("noundef { ptr, i64 } @", "noundef { i64, i64 } @"),
    ("  %r1 = alloca ptr, align 8\n", "  %r1 = alloca i64, align 8\n"),
    ("  store ptr @static.0, ptr %r0, align 8\n", "  %stored.1 = ptrtoint ptr @static.0 to i64\n  store i64 %stored.1, ptr %r0, align 8\n"),
    ("  store ptr %a0, ptr %r1, align 8\n", "  %stored.2 = ptrtoint ptr %a0 to i64\n  store i64 %stored.2, ptr %r1, align 8\n"),
    ("  store ptr %a0, ptr %r2, align 8\n", "  %stored.3 = ptrtoint ptr %a0 to i64\n  store i64 %stored.3, ptr %r2, align 8\n"),
    ("load { ptr, i64 }", "load { i64, i64 }"),
    ("ret { ptr, i64 }", "ret { i64, i64 }"),
    ("call { ptr, i64 }", "call { i64, i64 }"),
    ("  %r4 = extractvalue { ptr, i64 } %r3, 0\n", "  %r4.number = extractvalue { i64, i64 } %r3, 0\n  %r4 = inttoptr i64 %r4.number to ptr\n"),
    ("extractvalue { ptr, i64 } %r3, 1", "extractvalue { i64, i64 } %r3, 1"),
]
WRONG_GIVING = [
    ("a slice given as two numbers", "%r4 = load { ptr, i64 }, ptr %r0", "%r4 = load { i64, i64 }, ptr %r0"),
    ("two pointers given", "%r4 = load { ptr, i64 }, ptr %r0", "%r4 = load { ptr, ptr }, ptr %r0"),
    ("numbers given as a slice", "%r1 = load { i64, i64 }, ptr %r0", "%r1 = load { ptr, i64 }, ptr %r0"),
    ("a slice given of what was never made", "ret { ptr, i64 } %r4", "ret { ptr, i64 } %r9"),
    ("numbers in a slice's place", "ret { ptr, i64 } %r4", "ret { i64, i64 } %r4"),
    ("a call with another pair", "call { ptr, i64 } @\"pick\"", "call { i64, i64 } @\"pick\""),
    ("a pointer taken from two numbers", "extractvalue { i64, i64 } %r7, 0", "extractvalue { ptr, i64 } %r7, 0"),
    ("a number taken from a slice's front", "extractvalue { ptr, i64 } %r3, 0", "extractvalue { i64, i64 } %r3, 0"),
    ("a part of what is no pair", "extractvalue { ptr, i64 } %r3, 1", "extractvalue { ptr, i64 } %r2, 1"),
    ("a third part", "extractvalue { ptr, i64 } %r3, 1", "extractvalue { ptr, i64 } %r3, 2"),
    ("a pair given outside", "define internal noundef { i64, i64 }", "define noundef { i64, i64 }"),
    ("a caller's pointer compared with another", "icmp eq ptr %a0, null", "icmp eq ptr %a0, %r4"),
    ("a caller's pointer ordered", "icmp eq ptr %a0, null", "icmp ult ptr %a0, null"),
    ("a number asked whether it is null", "icmp eq ptr %a0, null", "icmp eq ptr %a1, null"),
    ("a pointer of its own asked whether it is null", "  store ptr %a0, ptr %r1, align 8\n", "  %r9 = icmp eq ptr %r0, null\n  store ptr %a0, ptr %r1, align 8\n"),
    ("a lent pointer asked whether it is null", "  store ptr %a0, ptr %r1, align 8\n", "  %r9 = icmp eq ptr %a0, null\n  store ptr %a0, ptr %r1, align 8\n"),
    ("a constant that is not there", "store ptr @static.0", "store ptr @static.2"),
    ("a function in a constant's place", "store ptr @static.0", "store ptr @lepsaino_pick"),
    ("a constant in a number's place", "store i64 2, ptr %r3", "store i64 @static.0, ptr %r3"),
    ("a constant of a pointer", "constant [0 x i8] zeroinitializer, align 1", "constant [1 x ptr] [ptr @static.0], align 8"),
    ("a constant that can be written", "@static.1 = private unnamed_addr constant", "@static.1 = private unnamed_addr global"),
    ("a constant from outside", "@static.1 = private unnamed_addr constant [0 x i8] zeroinitializer", "@static.1 = external constant [0 x i8]"),
    ("a constant of numbers of another width", "constant [0 x i8] zeroinitializer, align 1", "constant [1 x i64] zeroinitializer, align 8"),
]
# One function says how far apart two parts lie, as the standard library's copy asks.
APART = """\
define internal noundef i64 @"apart"(ptr noundef %a0, ptr noundef %a1) #0 {
start:
  %r0 = ptrtoaddr ptr %a0 to i64
  %r1 = ptrtoaddr ptr %a1 to i64
  %r2 = sub i64 %r0, %r1
  ret i64 %r2
}
"""
NARROWED_APART = [
    ("%r0 = ptrtoaddr", "%r0 = ptrtoint"),
    ("%r1 = ptrtoaddr", "%r1 = ptrtoint"),
]
WRONG_APART = [
    ("an address given back", "ret i64 %r2", "ret i64 %r1"),
    ("addresses compared", "ret i64 %r2", "%r3 = icmp ult i64 %r0, %r1\n  ret i64 %r2"),
    ("an address less a number", "sub i64 %r0, %r1", "sub i64 %r0, 8"),
    ("a number less an address", "sub i64 %r0, %r1", "sub i64 8, %r1"),
    ("addresses added up", "sub i64 %r0", "add i64 %r0"),
    ("an address cut to 32 bits", "ret i64 %r2", "%r3 = trunc i64 %r0 to i32\n  ret i64 %r2"),
    ("an address stored", "ret i64 %r2", "store i64 %r1, ptr %a0, align 8\n  ret i64 %r2"),
    ("an address as a step", "ret i64 %r2", "%r3 = getelementptr i8, ptr %a0, i64 %r1\n  ret i64 %r2"),
    ("an address handed on", "ret i64 %r2", "%r3 = call i64 @\"apart\"(ptr %a0, i64 %r1)\n  ret i64 %r2"),
    ("an address used before it is taken", "  %r1 = ptrtoaddr ptr %a1 to i64\n  %r2 = sub i64 %r0, %r1\n", "  %r2 = add i64 %r1, 8\n  %r1 = ptrtoaddr ptr %a1 to i64\n"),
    ("an address by another spelling", "  %r2 = sub", "  %1 = ptrtoaddr ptr %a0 to i64\n  %2 = add i64 %01, 8\n  %r2 = sub"),
    ("an address of 32 bits", "ptrtoaddr ptr %a0 to i64", "ptrtoaddr ptr %a0 to i32"),
]


def audited(text):
    """What the audit makes of a text, or nothing where it refuses it."""
    with tempfile.NamedTemporaryFile("w", suffix=".ll") as file:
        file.write(text)
        file.flush()
        run = subprocess.run([sys.executable, "-B", str(AUDIT), file.name], capture_output=True, text=True)
        return run.stdout if run.returncode == 0 else None


def main():
    for sound, narrowed, wrong in ((SOUND, NARROWED, WRONG), (GIVING, NARROWED_GIVING, WRONG_GIVING), (APART, NARROWED_APART, WRONG_APART)):
        expected = sound
        for old, new in narrowed:
            assert expected.count(old) == 1, old
            expected = expected.replace(old, new)
        if audited(sound) != expected:
            sys.exit("pointers: the audit refuses a sound text, or makes another of it")
        for title, old, new in wrong:
            assert sound.count(old) == 1, title
            if audited(sound.replace(old, new)) is not None:
                sys.exit(f"pointers: the audit lets pass {title}")


main()
