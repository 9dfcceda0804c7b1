# Makes of the text of an LLVM module, which the kit's compiler has made of a program for x86-64, one for WebAssembly with 64-bit addresses:
#     awk -f retarget.awk < x86-64.ll > wasm.ll
# Four things change, and no instruction of the program:
#   target     the name of the target, its data layout and its processor
#   main       which looks at features of x86-64, and then calls the program's own start; page_run takes its place, and calls that start
#   stack      each function first looks whether its frame is still in the room for the stack, which the linker puts at the lowest addresses,
#              and traps where it is not; a write below address 0 would trap too, but one past a large frame might hit other data
#   builtins   three functions of the C library are not there, so calls of them may not be made of loops
# It stops at a module with assembly, and at one that needs a function beyond those of host.c and heap.c and a few of LLVM's own.
function wrong(text) {
    print "retarget: " text > "/dev/stderr"
    failed = 1
    exit 1
}

function names_into(set, text,    names, n) {
    for (n = split(text, names, " "); n >= 1; n--) set[names[n]] = 1
}

# the lines of a function's first block that are held back: the test of the stack goes after the last of them that takes room on it
function end_of_first_block(    i, last) {
    for (i = 1; i <= held; i++) if (line_held[i] ~ /^ +%[^ ]+ = alloca /) last = i
    for (i = 1; i <= last; i++) print line_held[i]
    print "  %stack.at = call ptr @llvm.frameaddress.p0(i32 0)"
    print "  call void @stack_check(ptr %stack.at)"
    for (i = last + 1; i <= held; i++) print line_held[i]
    held = 0
    in_first_block = 0
}

BEGIN {
    layout = "e-m:e-p:64:64-p10:8:8-p20:8:8-i64:64-i128:128-n32:64-S128-ni:1:10:20"
    attributes = "\"no-builtin-bcmp\" \"no-builtin-memcmp\" \"no-builtin-strlen\" \"target-cpu\"=\"lime1\""
    names_into(known, "rattle_alloc rattle_realloc rattle_dealloc rattle_arg rattle_env rattle_env_at rattle_errno rattle_set_errno lseek read write")
    names_into(known, "llvm.memset.p0.i64 llvm.memmove.p0.p0.i64 llvm.trap llvm.cttz.i32 llvm.cttz.i64 llvm.ctlz.i32 llvm.ctlz.i64 llvm.ctpop.i32 llvm.ctpop.i64")
    names_into(of_main, "__sysv_signal __write __x86_get_cpuid_feature_leaf")
}

/(^|[^A-Za-z0-9_.])asm (sideeffect )?"/ { wrong("line " NR " has assembly") }
/"target-features"/ { wrong("line " NR " asks for features of a processor") }

/^define i32 @main\(\)/ { in_main = 1 }
in_main {
    if (match($0, /call i32 @"[A-Za-z0-9_]+::main\+start"\(\)/)) start = substr($0, RSTART, RLENGTH)
    if ($0 == "}") in_main = 0
    next
}

/^declare / {
    name = $0
    sub(/\(.*/, "", name)
    sub(/.*@/, "", name)
    if (name in of_main) next
    if (!(name in known)) wrong("the module calls " name)
}
/@(__sysv_signal|__write|__x86_get_cpuid_feature_leaf)\(/ { wrong("line " NR " calls what main alone may call") }

/^target datalayout = / { print "target datalayout = \"" layout "\""; layouts += 1; next }
/^target triple = / { print "target triple = \"wasm64-unknown-unknown\""; triples += 1; next }

{ gsub(/"target-cpu"="[^"]*"/, attributes) }

/^define .*\{$/ { print; at_label = 1; next }
at_label {
    if ($0 !~ /^[^ ].*:/) wrong("line " NR ": a function whose first block has no label")
    print
    at_label = 0
    in_first_block = 1
    next
}
in_first_block && ($0 == "}" || /^[^ ].*:/) { end_of_first_block() }
in_first_block { line_held[++held] = $0; next }
{ print }

END {
    if (failed) exit 1
    if (layouts != 1 || triples != 1 || start == "") wrong("this is no module of a program for x86-64")
    print ""
    print "define i32 @page_run() nounwind \"target-cpu\"=\"lime1\" {"
    print "start:"
    print "  %status = " start
    print "  ret i32 %status"
    print "}"
    print "define internal void @stack_check(ptr %at) alwaysinline nounwind \"target-cpu\"=\"lime1\" {"
    print "start:"
    print "  %bits = ptrtoint ptr %at to i64"
    print "  %low = icmp slt i64 %bits, 16"
    print "  br i1 %low, label %trap, label %ok"
    print "ok:"
    print "  ret void"
    print "trap:"
    print "  call void @llvm.trap()"
    print "  unreachable"
    print "}"
    print "declare ptr @llvm.frameaddress.p0(i32 immarg)"
}
