# Prints FILE:LINE: NAME for each name that a file of Rattle or antt imports and does not use. A text scan: a name is used if it stands somewhere in the file
# outside comments and imports; of an operator such as ◌++◌ one of its parts has to, and for self, of Rust, the name before it. An import may go over
# several lines.
function report(    i, k, n, parts, used) {
    for (i = 1; i <= count; i++) {
        n = split(name[i], parts, "◌")
        used = 0
        for (k = 1; k <= n; k++) if (parts[k] != "" && parts[k] in seen) used = 1
        if (name[i] in seen) used = 1
        if (!used) { print file ":" line[i] ": " name[i]; unused++ }
    }
    count = 0
    delete seen
}
function import(text, before,    i, n, parts, words, m) {
    n = split(text, parts, ",")
    for (i = 1; i <= n; i++) {
        m = split(parts[i], words, " ")
        if (m > 0) { name[++count] = words[m] == "self" ? before : words[m]; line[count] = FNR }
    }
}
FNR == 1 { report(); file = FILENAME; comment = FILENAME ~ /\.rt$/ ? "//" : "--" }
{
    sub(comment "( .*)?$", "")
    if (begun != "") { $0 = begun $0; begun = "" }
    if ($0 ~ /^(ghost |pub )?use /) {
        if ($0 ~ /\{/ && $0 !~ /\}/) { begun = $0 " "; next }
        if ($1 == "pub") next
        text = $0
        sub(/;[ \t]*$/, "", text)
        if (match(text, /\{.*\}/)) {
            braces = substr(text, RSTART + 1, RLENGTH - 2)
            n = split(substr(text, 1, RSTART - 1), tokens, /[ :.]+/)
            import(braces, tokens[n] == "" ? tokens[n - 1] : tokens[n])
        } else { gsub(/::|\./, " ", text); import(text) }
        next
    }
    text = $0
    gsub(/[(){},;.:&<>=!]/, " ", text)
    if (comment == "//") gsub(/[][]/, " ", text)
    n = split(text, tokens, " ")
    for (i = 1; i <= n; i++) seen[tokens[i]] = 1
    n = split($0, tokens, /[ (){},;]+/)
    for (i = 1; i <= n; i++) seen[tokens[i]] = 1
}
END { report(); exit unused > 0 }
