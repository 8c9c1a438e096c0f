# The module of a proved crate for another processor: awk -f module.awk DECLARATIONS MODULE
#
#     -v way=rattle      the module as it is, for the processor that rattle made it for: what comes out is not compiled
#     -v way=exported    its exported functions, for a processor with 64-bit addresses
#     -v way=inner       the functions behind them, as castanhiu_inner_*, for one with 32-bit addresses; the exported ones are left out
#     -v way=program     its start as program_main, and what it calls of the system, as program_*; its main is left out
#     -v triple= -v attributes=    the target, and what stands for the attributes that are for x86-64
#     -v logic= -v tool=           the logic that must have proved the module; whose messages these are
#
# The module is not optimised yet, and for x86-64, or for AArch64 where it is taken as it is. Only what is named here may stand in it: what
# another kit writes has to be looked at first. DECLARATIONS is what clang makes of the C declarations, for the target.
BEGIN {
    # None of these depends on the processor but ptr, and its bytes are never looked at: an address is stored and loaded as one. How far
    # apart two lie (ptrtoaddr) is asked of whole numbers.
    words = "define declare internal noundef zeroext void ptr i1 i8 i16 i24 i32 i48 i56 i64 float x label to true false" \
        " alloca load store getelementptr inbounds nuw nsw align !noundef !range call ret br switch unreachable extractvalue null" \
        " add sub mul udiv urem and or xor lshr icmp eq ne ult ule ugt uge slt sle sgt sge zext trunc" \
        " uitofp fsub fdiv fcmp oeq ptrtoaddr"
    count = split(words, list, " ")
    for (i = 1; i <= count; i++) known[list[i]] = 1
    from = "x86_64-unknown-linux-gnu"
    layout = "e-m:e-p270:32:32-p271:32:32-p272:64:64-i64:64-i128:128-f80:128-n8:16:32:64-S128"
    own = "{ nounwind \"probe-stack\"=\"inline-asm\" \"stack-probe-size\"=\"3072\" \"target-cpu\"=\"x86-64\" }"
    if (way == "rattle" && triple != from) {
        from = "aarch64-unknown-linux-gnu"
        layout = "e-m:e-p270:32:32-p271:32:32-p272:64:64-i8:8:32-i16:16:32-i64:64-i128:128-n32:64-S128-Fn32"
        own = "{ nounwind \"frame-pointer\"=\"non-leaf\" \"probe-stack\"=\"inline-asm\" \"stack-probe-size\"=\"3072\" \"target-cpu\"=\"generic\" }"
    }
    top["source_filename = \"rattle\""] = 1
    top["target datalayout = \"" layout "\""] = 1
    top["target triple = \"" from "\""] = 1
    top["!llvm.ident = !{!0}"] = 1
    intrinsic["declare void @llvm.memmove.p0.p0.i64(ptr writeonly captures(none), ptr readonly captures(none), i64, i1 immarg)"] = 1
    intrinsic["declare void @llvm.memset.p0.i64(ptr writeonly captures(none), i8, i64, i1 immarg)"] = 1
    intrinsic["declare float @llvm.arithmetic.fence.f32(float)"] = 1
    intrinsic["declare i32 @llvm.ctlz.i32(i32, i1 immarg)"] = 1
    intrinsic["declare i64 @llvm.ctlz.i64(i64, i1 immarg)"] = 1
    intrinsic["declare void @llvm.trap()"] = 1
    common["{ nounwind }"] = 1
    common["{ nobuiltin nounwind }"] = 1
    common["{ cold noreturn nounwind memory(inaccessiblemem: write) }"] = 1
    common["{ nocallback nofree nosync nounwind speculatable willreturn memory(none) }"] = 1
    common["{ nocallback nofree nounwind willreturn memory(argmem: readwrite) }"] = 1
    common["{ nocallback nofree nounwind willreturn memory(argmem: write) }"] = 1
    common["{ nocallback nocreateundeforpoison nofree nosync nounwind speculatable willreturn memory(none) }"] = 1
    tagged = "{ i8, ptr }"
    held_tagged = "^(  %r[0-9]+ = (call|load|extractvalue) |  ret |define internal )\\{ i8, ptr \\}[ ,]"
    # What main calls before the start: a write to a pipe that nobody reads is to fail, and not to end the program. So does tools/program.c.
    for_main = "declare i64 @__sysv_signal(i32, i64)"
}

function say(text) {
    print tool ": " text >"/dev/stderr"
    bad = 1
}

function refuse(why) { say("line " FNR " of the module has " why ": " $0) }

# Every word of a line, but for names, numbers and marks; and that what it says of places in memory holds on every processor. Numbers side by
# side lie in the same places on all, and so does one of 64 bits behind an address, which has 4 bytes or 8. Places are counted in bytes.
# An address behind a small number lies at byte 8 on all, once `placed` has said so.
function look(line,    part, n, i, rest, shape) {
    gsub(/@"[^"]*"/, " ", line)
    sub(/;.*$/, "", line)
    rest = line
    sub(/ \{$/, "", rest)
    while (match(rest, /\{[^{}]*\}/)) {
        shape = substr(rest, RSTART, RLENGTH)
        rest = substr(rest, RSTART + RLENGTH)
        if (shape !~ /^\{ (i8|i16|i32|i64|float)(, (i8|i16|i32|i64|float))* \}$/ && shape != "{ ptr, i64 }" && !(shape == tagged && line ~ held_tagged)) refuse("a shape that is not known, " shape)
    }
    if (line ~ /getelementptr / && line !~ / getelementptr (inbounds nuw )?i8, ptr /) refuse("places that are not counted in bytes")
    gsub(/[][(){},=]/, " ", line)
    n = split(line, part, " ")
    for (i = 1; i <= n; i++) {
        if (part[i] in known || part[i] ~ /^[@%][A-Za-z0-9_.]+$/ || part[i] ~ /^[!#]?-?[0-9]+$/) continue
        if (part[i] ~ /^-?[0-9]\.[0-9]+e[-+][0-9]+$/ || part[i] ~ /^0x[0-9A-F]+$/) continue
        refuse("what is not known, " part[i])
        return
    }
}

# The line for a processor with 32-bit addresses: where an address lies behind a small number, and how two are told apart.
function placed(line) {
    if (triple !~ /^(armv7|thumbv7em)-/) return line
    if (index(line, tagged) && line ~ / = extractvalue /) sub(/, 1$/, ", 2", line)
    sub(/\{ i8, ptr \}/, "{ i8, [7 x i8], ptr }", line)
    sub(/ = ptrtoaddr ptr /, " = ptrtoint ptr ", line)
    return line
}

function name_of(line) {
    sub(/\(.*/, "", line)
    sub(/.*@/, "", line)
    return line
}

# The result and the parameters of a line `define` or `declare`, numbers 0 and 1 on: their types into shape, their extensions into ends,
# and into whole whether it is a number and not the bytes of a struct. Answers how many parameters there are.
function signature(line, shape, ends, whole,    part, n, i) {
    sub(/ #[0-9]+( \{)?$/, "", line)
    n = split(substr(line, index(line, "(") + 1, length(line) - index(line, "(") - 1), part, ", ")
    part[0] = substr(line, 1, index(line, "@") - 1)
    sub(/^(define|declare) /, "", part[0])
    sub(/^(internal|dso_local) /, "", part[0])
    for (i = 0; i <= n; i++) {
        sub(/ %a[0-9]+$/, "", part[i])
        ends[i] = part[i] ~ /zeroext/ ? "zeroext" : part[i] ~ /signext/ ? "signext" : ""
        whole[i] = part[i] ~ /noundef/
        gsub(/noundef|zeroext|signext/, "", part[i])
        gsub(/^ +| +$/, "", part[i])
        shape[i] = part[i]
    }
    return n
}

# Whether what the module has and what clang makes of the declaration lie in the same places. Not looked at are noundef, which is of the
# value, and the extension, which is taken over. Of a module as it is both write the same types, and so they do where no struct goes by
# value.
function agree(ours, theirs, is_whole) {
    if (ours == theirs) return 1
    # On 32-bit Arm two numbers come back in the first two registers, one in each, and so do the halves of one of 64 bits, the low one first;
    # past a number's own bits nobody reads.
    if (way == "inner") return (ours == "{ i8, i8 }" || ours == "{ i8, i32 }") && theirs == "i64"
    if (way != "exported") return 0
    # A struct of 9 to 16 bytes comes back in the first two registers of results, eight bytes in each, on RISC-V; so do the two numbers of an
    # LLVM struct or array. What lies past the struct's end nobody reads.
    if ((ours == "{ i64, i64 }" || ours == "{ i64, i32 }") && theirs == "[2 x i64]") return 1
    # A struct of fewer than 8 bytes lies in one register, its first byte lowest, and the bits past it are unspecified for both sides: the
    # module says how many bytes, clang says the register.
    if (!is_whole && ours ~ /^i(8|16|24|32|48|56)$/ && theirs == "i64") return 1
    return 0
}

# The line with the extensions that its declaration has: on AArch64 nobody may count on the bits past a small number, on RISC-V and Arm
# everybody may.
function held(line,    name, n, m, i, text) {
    name = name_of(line)
    if (!(name in declared)) {
        refuse("a function without a C declaration")
        return line
    }
    met[name] = 1
    n = signature(line, shape, ends, whole)
    m = signature(declared[name], shape2, ends2, whole2)
    for (i = 0; i <= n && n == m; i++) if (!agree(shape[i], shape2[i], whole[i])) m = -1
    if (n != m) {
        say(name " differs\n    in the module    " line "\n    in C             " declared[name])
        return line
    }
    text = (line ~ /^define/ ? "define " : "declare ") (way == "inner" ? "hidden " : "") ends2[0] " " shape[0] " @" name "("
    for (i = 1; i <= n; i++) {
        text = text (i > 1 ? ", " : "") shape[i] (whole[i] ? " noundef " : " ") ends2[i] (line ~ /^define/ ? " %a" (i - 1) : "")
    }
    sub(/^.*\)/, ")", line)
    return text line
}

NR == FNR { if (/^declare .*@(castanhiu|program)_/) declared[name_of($0)] = $0; next }

/^$/ || /^;/ { next }
$0 in top {
    if (/^target triple/) print "target triple = \"" triple "\""
    else if (!/^target datalayout/) print
    next
}
/^attributes #[0-9]+ = / {
    text = substr($0, index($0, "{"))
    hint = text ~ /^\{ (alwaysinline|noinline) / ? substr(text, 3, index(text, " nounwind") - 2) : ""
    sub(/^\{ (alwaysinline|noinline) /, "{ ", text)
    if (text == own) {
        sub(/\{.*/, attributes)
        sub(/\{ /, "{ " hint)
    } else if (hint != "" || !(text in common)) refuse("attributes that are not known")
    print
    next
}
# Texts, and tables of numbers, the low byte first as on all these processors: bytes, and no address among them.
/^@static\.[0-9]+ = private unnamed_addr constant \[[0-9]+ x i8\] c"[^"]*", align [1248]$/ { print; next }
/^![0-9]+ = !\{\}$/ || /^![0-9]+ = !\{i8 0, i8 2\}$/ { print; next }
/^!0 = !\{!"rattle logic=[0-9a-f]+"\}$/ && index($0, "\"rattle logic=" logic) > 0 { proved = 1; print; next }
/^declare (void|float|i32|i64) @llvm\./ {
    text = $0
    sub(/ #[0-9]+$/, "", text)
    if (!(text in intrinsic)) refuse("an intrinsic that is not known")
    print
    next
}
/^declare / && way == "program" {
    text = $0
    sub(/ #[0-9]+$/, "", text)
    if (text == for_main) next
    look($0)
    sub(/@/, "@program_")
    print held($0)
    next
}
/^define / && !inside {
    inside = 1
    look($0)
    if (way == "inner" && /^define internal .*@"castanhiu_c::[a-z_]+::castanhiu_[a-z_]+"\(/) {
        sub(/^define internal /, "define ")
        sub(/@"castanhiu_c::[a-z_]+::castanhiu_/, "@castanhiu_inner_")
        sub(/"/, "")
        print held($0)
    } else if (way == "program" && /^define internal noundef i32 @"[a-z_]+::main\+start"\(\)/) {
        sub(/^define internal noundef i32 @"[a-z_]+::main\+start"/, "define noundef i32 @program_main")
        print held($0)
    } else if (/^define internal /) {
        print placed($0)
    } else if (way == "program") {
        left_out = 1
        if (!/^define i32 @main\(\) #[0-9]+ \{$/) refuse("a function that a program does not have")
    } else if (way == "inner") {
        left_out = 1
    } else {
        print held($0)
    }
    next
}
inside && /^}$/ { if (!left_out) print; inside = left_out = 0; next }
inside && /^[A-Za-z][A-Za-z0-9_.]*:( +; (preds = .*|No predecessors!))?$/ { if (!left_out) print; next }
inside && /^  / {
    look($0)
    if (left_out && way == "program" && / call / && !/ call (i64 @__sysv_signal\(i32 13, i64 1\)|i32 @"[a-z_]+::main\+start"\(\))$/) {
        refuse("what main is not known to call")
    }
    if (left_out) next
    if (way == "inner" && /@"castanhiu_c::[a-z_]+::castanhiu_/) refuse("a call of what the boundary calls")
    if (way == "program" && /@"[a-z_]+::main\+start"/) refuse("a call of the start")
    if (way == "program" && match($0, /@[A-Za-z0-9_]+\(/)) sub(/@/, "@program_")
    print placed($0)
    next
}
{ refuse("what is not known") }

END {
    if (!proved) say("the module does not say that this logic proved it")
    if (way == "program" && !("program_main" in met)) say("the module has no main")
    for (name in declared) if (way != "program" && !(name in met)) say(name " stands in C, and not in the module")
    exit bad
}
