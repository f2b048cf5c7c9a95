# Spells the traces of lists out, for `run`: folder/N.octal has the bytes as escapes for printf, folder/N.want the lines,
# folder/N.name the place. A list has `#` comments and traces: the bytes in hex after `>`, blanks between them as one likes,
# one or more such lines, then the lines that are printed. `HH{N}` is the byte HH, N times.
function repeat(s, n,    out) {
    for (out = ""; n > 0; n = int(n / 2)) {
        if (n % 2) { out = out s }
        s = s s
    }
    return out
}
function byte(pair) {
    return sprintf("\\0%03o", 16 * index(DIGITS, substr(pair, 1, 1)) + index(DIGITS, substr(pair, 2, 1)) - 17)
}
function pairs(hex,    i) {
    for (i = 1; i < length(hex); i += 2) { printf "%s", byte(substr(hex, i, 2)) > file }
}
# Writes a text with its runs spelt out: as escapes where it is a trace, else as it is.
function spell(s, trace,    mark, brace, count) {
    while (match(s, /[0-9a-f][0-9a-f][{][0-9]+[}]/)) {
        mark = substr(s, RSTART, RLENGTH)
        brace = index(mark, "{")
        count = substr(mark, brace + 1, RLENGTH - brace - 1) + 0
        if (trace) { pairs(substr(s, 1, RSTART - 1)) } else { printf "%s", substr(s, 1, RSTART - 1) > file }
        printf "%s", repeat(trace ? byte(mark) : substr(mark, 1, 2), count) > file
        s = substr(s, index(s, mark) + length(mark))
    }
    if (trace) { pairs(s) } else { printf "%s\n", s > file }
}
# The lines of the trace before are over.
function finish() {
    if (n) { close(file) }
    within = 0
}
BEGIN { DIGITS = "0123456789abcdef" }
FNR == 1 { finish() }
/^#/ || /^$/ { next }
/^>/ {
    if (!within) {
        finish()
        within = 1
        file = folder "/" ++n ".name"
        printf "%s:%d\n", FILENAME, FNR > file
        close(file)
        file = folder "/" n ".octal"
        printf "" > file
    }
    hex = substr($0, 2)
    gsub(/ /, "", hex)
    plain = hex
    gsub(/[{][0-9]+[}]/, "", plain)
    if (plain !~ /^[0-9a-f]*$/ || length(plain) % 2) {
        printf "%s:%d: not bytes in hex\n", FILENAME, FNR > "/dev/stderr"
        exit 1
    }
    spell(hex, 1)
    next
}
{
    if (within) {
        close(file)
        file = folder "/" n ".want"
        within = 0
    }
    spell($0, 0)
}
