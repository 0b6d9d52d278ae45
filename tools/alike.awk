# Proofs that are the same but for names and numbers, of several lines each: a function's invariants and answers, as one without what they use, and
# each law with its statement.
function shape(text,   words, n, i, w, count, number, out) {
    gsub(/[][(){};,.=:]/, " & ", text)
    n = split(text, words, /[ \t\n]+/)
    for (i = 1; i <= n; i++) {
        w = words[i]
        if (w ~ /[A-Za-z0-9]/ && w !~ /^(let|in|where|record|module|unfolding|unfold|rw|at|simp|omega|arith|search|rules|grind|cc|elim|absurd)$/) {
            if (!(w in number)) number[w] = ++count
            w = "#" number[w]
        }
        out = out " " w
    }
    return out
}
function finish(   s) {
    if (lines > 3) {
        s = shape(part)
        if (s in first) print place ": the proof of " first[s] " but for names and numbers"
        else first[s] = place
    }
    part = ""
    lines = 0
}
FNR == 1 {
    folder = FILENAME
    sub(/[^\/]*$/, "", folder)
    joined = whole && folder == last
    if (!joined) { finish(); place = FILENAME }
    whole = FILENAME ~ /\/(Answers|Invariants|Proof)\.antt$/
    last = folder
    closing = 0
}
/^use / || /^[ \t]*--/ { next }
whole && /^pub [^ ]*_spec :/ { closing = 1 }
closing { next }
/^[ \t]*$/ { if (!whole) finish(); next }
{
    sub(/--.*/, "")
    if (part == "" && !whole) place = FILENAME ":" FNR
    part = part "\n" $0
    lines++
}
END { finish() }
