# Nothing is assumed: no axiom, no hole, `?` or `{! .. !}`, and no foreign function, whose contract a check would take as it stands.
nothing_assumed() {
    find crates -regex 'crates/[^/]*/out' -prune -o \( -name '*.rt' -o -name '*.antt' \) -exec awk '
        # A line without its quoted texts and its comment.
        function code(line,    kept) {
            while (match(line, marks)) {
                kept = kept substr(line, 1, RSTART - 1) " "
                if (substr(line, RSTART, 1) != "\"") return kept
                line = substr(line, RSTART + 1)
                if (!match(line, /^([^"\\]|\\.)*"/)) return kept
                line = substr(line, RLENGTH + 1)
            }
            return kept line
        }
        # In code `?` behind a value hands on an error.
        FNR == 1 {
            rt = FILENAME ~ /\.rt$/
            marks = rt ? "\"|//" : "\"|(^| )--( |$)"
            hole = rt ? "(^|[^])A-Za-z0-9_}])[?]|[{]!" : "[?]|[{]!"
        }
        /[?]|[{]!|axiom|Axiom|lem|ac|postulate|sorry/ {
            line = code($0)
            if (line ~ hole) print FILENAME ", line " FNR ", has a hole: " $0
            n = split(line, word, /[][()}{.,; \t]+/)
            for (i = 1; i <= n; i++) if (word[i] ~ /^(axiom|Axiom|lem|ac|postulate|sorry)$/) break
            if (i <= n) print FILENAME ", line " FNR ", names an axiom: " $0
        }' {} +
    grep -rnE --include='*.rt' '^[^/]*extern *("[^"]*" *)?[{]' crates | sed 's/$/ declares functions that nothing proves/'
}
