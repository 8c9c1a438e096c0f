# The functions that the header declares, held to those that the sources export: awk -f boundary.awk -v tool=NAME crates/*/src/*.rt HEADER
#
# What a function is given and gives back, down to the fields of each struct, their order, names and types. A machine's registers show no
# field that changed its place with one of the same size. A slice is a pointer and its length; a struct of nothing but uint32_t is an
# array of them, as the sources have it.
function say(text) {
    print tool ": " text >"/dev/stderr"
    bad = 1
}

function trim(text) {
    gsub(/[ \t]+/, " ", text)
    gsub(/^ | $/, "", text)
    return text
}

# A number of a [u8; N], by its name where it has one.
function sized(text,    name) {
    if (!match(text, /; [A-Za-z_]+\]/)) return text
    name = substr(text, RSTART + 2, RLENGTH - 3)
    if (!(name in constant)) say("no constant " name)
    return substr(text, 1, RSTART + 1) constant[name] "]" substr(text, RSTART + RLENGTH)
}

# Sources: a type in place of the name of a struct.
function spelt(type) {
    type = sized(trim(type))
    if (type in struct) return struct[type]
    if (match(type, /^\[[A-Za-z]+;/) && substr(type, 2, RLENGTH - 2) in struct) {
        return "[" struct[substr(type, 2, RLENGTH - 2)] substr(type, RLENGTH)
    }
    if (substr(type, 1, 1) == "&" && substr(type, 2) in struct) return "&" struct[substr(type, 2)]
    if (substr(type, 1, 5) == "&mut " && substr(type, 6) in struct) return "&mut " struct[substr(type, 6)]
    return type
}

function source_function(text,    name, list, part, n, i, result) {
    sub(/^.*extern "C" fn /, "", text)
    name = text
    sub(/\(.*/, "", name)
    list = substr(text, index(text, "(") + 1)
    list = substr(list, 1, index(list, ")") - 1)
    result = ""
    if (match(text, /\) -> [A-Za-z0-9_]+/)) result = " -> " spelt(substr(text, RSTART + 5, RLENGTH - 5))
    n = split(list, part, ",")
    list = ""
    for (i = 1; i <= n; i++) {
        if (trim(part[i]) == "") continue
        sub(/^[^:]*:/, "", part[i])
        list = list (list == "" ? "" : ", ") spelt(part[i])
    }
    source[name] = name "(" list ")" result
}

# The header: a type as the sources write it.
function of_c(type) {
    if (type in plain) return plain[type]
    if (type in c_struct) return c_struct[type]
    say("the header has a type that is not known, " type)
    return type
}

function c_members(text,    member, part, n, i, j, m, type, name, size, body, only32, count) {
    n = split(text, member, ";")
    only32 = 1
    count = 0
    for (i = 1; i <= n; i++) {
        member[i] = trim(member[i])
        if (member[i] == "") continue
        type = member[i]
        sub(/ .*/, "", type)
        sub(/^[^ ]+ /, "", member[i])
        m = split(member[i], part, ",")
        for (j = 1; j <= m; j++) {
            name = trim(part[j])
            size = ""
            if (match(name, /\[[0-9]+\]$/)) {
                size = substr(name, RSTART + 1, RLENGTH - 2)
                name = substr(name, 1, RSTART - 1)
            }
            body = body (body == "" ? "" : ", ") name ": " (size == "" ? of_c(type) : "[" of_c(type) "; " size "]")
            if (type != "uint32_t" && !(type in numbers)) only32 = 0
            else count += (size == "" ? 1 : size) * (type in numbers ? numbers[type] : 1)
        }
    }
    return only32 ? "[u32; " count "]" : "{" body "}"
}

function c_function(text,    name, list, part, n, i, result, is_const, type, rest) {
    name = text
    sub(/\(.*/, "", name)
    result = name
    sub(/.*[ *]/, "", name)
    sub(/ *[a-z_]+$/, "", result)
    list = substr(text, index(text, "(") + 1)
    sub(/\)[^)]*$/, "", list)
    n = split(list, part, ",")
    list = ""
    for (i = 1; i <= n; i++) {
        rest = trim(part[i])
        if (rest == "void") continue
        is_const = rest ~ /^const /
        sub(/^const /, "", rest)
        type = rest
        sub(/ .*/, "", type)
        rest = substr(rest, length(type) + 2)
        if (rest ~ /^\*/ && type == "uint8_t") {
            if (trim(part[i + 1]) !~ /^size_t [a-z_]*length$/) say(name " has a pointer to bytes without their length")
            type = (is_const ? "&" : "&mut ") "[u8]"
            i++
        } else if (rest ~ /^\*/) {
            type = (is_const ? "&" : "&mut ") of_c(type)
        } else if (match(rest, /\[[A-Z_]+\]$/)) {
            type = (is_const ? "&" : "&mut ") "[" of_c(type) "; " enumerated[substr(rest, RSTART + 1, RLENGTH - 2)] "]"
        } else {
            type = of_c(type)
        }
        list = list (list == "" ? "" : ", ") type
    }
    header[name] = name "(" list ")" (result == "void" ? "" : " -> " of_c(result))
}

BEGIN {
    count = split("uint8_t u8 uint16_t u16 uint32_t u32 int32_t i32 size_t usize bool bool float f32", list, " ")
    for (i = 1; i < count; i += 2) plain[list[i]] = list[i + 1]
}

FNR == 1 { gathered = ""; is_header = FILENAME ~ /\.h$/; is_c = 0 }

# Sources: constants, structs as C has them, exported functions. What a function's type names may stand in a later file.
!is_header {
    sub(/\/\/.*/, "")
    if ($0 ~ /^pub const [A-Z_]+: usize = [0-9]+;/) {
        name = $3
        sub(/:/, "", name)
        value = $NF
        sub(/;/, "", value)
        if (name in constant && constant[name] != value) value = "one of two"
        constant[name] = value
    }
    if ($0 ~ /^#\[repr\(C\)\]/) {
        is_c = 1
    } else if (is_c && $0 ~ /^pub struct /) {
        open = $3
        is_c = 0
        if (open in fields) say("two structs " open)
        fields[open] = ""
    } else if (open != "" && $0 ~ /^}/) {
        order[++structs] = open
        open = ""
    } else if (open != "" && $0 ~ /^ +pub /) {
        sub(/^ +pub /, "")
        fields[open] = fields[open] $0
    }
    if ($0 ~ /^pub extern "C" fn /) gathered = " "
    if (gathered == "") next
    is_last = $0 ~ /^ *(ensures|requires) / || $0 ~ /\{$/ || $0 ~ /^\{/
    sub(/(ensures|requires) .*/, "")
    gathered = gathered " " $0
    if (is_last) {
        exported[++functions] = gathered
        gathered = ""
    }
    next
}
{ text = text " " $0 }

END {
    # as many turns as structs can stand in each other
    for (turn = 1; turn <= structs; turn++) {
        for (i = 1; i <= structs; i++) {
            body = ""
            rest = fields[order[i]]
            while (match(rest, /[a-z_]+: (\[[^]]*\]|[A-Za-z0-9_]+)/)) {
                item = substr(rest, RSTART, RLENGTH)
                rest = substr(rest, RSTART + RLENGTH)
                body = body (body == "" ? "" : ", ") substr(item, 1, index(item, ":")) " " spelt(substr(item, index(item, ":") + 2))
            }
            struct[order[i]] = "{" body "}"
        }
    }
    for (i = 1; i <= functions; i++) source_function(trim(exported[i]))

    while (at = index(text, "/*")) {
        rest = substr(text, at + 2)
        text = substr(text, 1, at - 1) " " substr(rest, index(rest, "*/") + 2)
    }
    text = trim(text)
    rest = text
    while (match(rest, /CASTANHIU_[A-Z_]+ = [0-9]+/)) {
        item = substr(rest, RSTART, RLENGTH)
        rest = substr(rest, RSTART + RLENGTH)
        enumerated[substr(item, 1, index(item, " ") - 1)] = substr(item, index(item, "= ") + 2)
    }
    rest = text
    while (match(rest, /typedef struct \{[^}]*\} [a-z_]+;/)) {
        item = substr(rest, RSTART, RLENGTH)
        rest = substr(rest, RSTART + RLENGTH)
        name = item
        sub(/.*\} /, "", name)
        sub(/;$/, "", name)
        sub(/^typedef struct \{/, "", item)
        sub(/\}.*/, "", item)
        c_struct[name] = c_members(item)
        if (match(c_struct[name], /^\[u32; [0-9]+\]$/)) numbers[name] = substr(c_struct[name], 7, length(c_struct[name]) - 7)
    }
    rest = text
    while (match(rest, /[a-z_0-9]+ castanhiu_[a-z_]+\([^()]*\);/)) {
        item = substr(rest, RSTART, RLENGTH - 1)
        rest = substr(rest, RSTART + RLENGTH)
        c_function(item)
    }
    for (name in source) {
        if (!(name in header)) header[name] = "none"
        if (source[name] != header[name]) say(name " differs\n    in the sources   " source[name] "\n    in the header    " header[name])
    }
    for (name in header) if (!(name in source)) say(name " stands in the header, and no source exports it")
    if (functions == 0) say("no source exports a function")
    exit bad
}
