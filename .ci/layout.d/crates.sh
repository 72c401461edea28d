# crates.txt has every crate, with the crates that it names and all below those, in the order of the lines, and no others: the file
# is the picture of what stands on what, and what is listed in vain would be believed.
crates_listed() {
    lacking 'is not in crates.txt' <(printf '%s\n' crates/*/) <(crates_told)
    lacking 'is in crates.txt, but not there' <(crates_told) <(printf '%s\n' crates/*/)
    awk '
        function has(list, crate) { return index(" " list " ", " " crate " ") }
        function fault(what) { print "crates.txt, " crate ": " what }
        FNR == NR { names[$1] = names[$1] " " $2; next }
        !/^[a-z0-9_]+( staticlib)?:/ { next }
        {
            sub(/ staticlib:/, ":")
            crate = $1; sub(/:/, "", crate)
            listed = $0; sub(/^[^:]*: */, "", listed)
            all = ""
            n = split(names[crate], direct, " ")
            for (i = 1; i <= n; i++) {
                if (!(direct[i] in row)) fault(direct[i] " is used, but no line above")
                m = split(direct[i] " " below[direct[i]], each, " ")
                for (j = 1; j <= m; j++) if (!has(all, each[j])) all = all " " each[j]
            }
            below[crate] = all
            n = split(all, each, " ")
            for (i = 1; i <= n; i++) if (!has(listed, each[i])) fault(each[i] " is used, but not listed")
            last = 0
            for (i = 2; i <= NF; i++) {
                if (!has(all, $i)) fault($i " is listed, but not used")
                if (($i in row) && row[$i] < last) fault($i " is not in the order of the lines")
                if ($i in row) last = row[$i]
            }
            row[crate] = FNR
        }' <(crates_named) crates.txt
}

# The lines of crates.txt, as folders; a static library says so.
crates_told() {
    sed -nE 's|^([a-z0-9_]+)( staticlib)?:.*|crates/\1/|p' crates.txt
}

# CRATE OTHER, where the code of CRATE says `OTHER::`, or its code or proofs `Rattle.OTHER`. A module that a file takes from std, as
# `use std::io;`, is no crate, and neither is a function that is given its types, as `first_chunk::<6>`.
crates_named() {
    find crates -regex 'crates/[^/]*/out' -prune -o \( -name '*.rt' -o -name '*.antt' \) -exec awk '
        function named(other) {
            if (other != path[2] && other !~ /^(crate|self|super|std|[iu](8|16|32|64|128|size))$/ && !(other in of_std)) print path[2], other
        }
        FNR == 1 { split(FILENAME, path, "/"); code = FILENAME ~ /\.rt$/; split("", of_std) }
        { sub(code ? "//.*" : "(^| )-- .*", "") }
        code { gsub(/::</, "<") }
        code && /^use std::([a-z0-9_]+::)*[a-z0-9_]+;$/ { name = $2; sub(/;/, "", name); sub(/.*::/, "", name); of_std[name] }
        /Rattle\./ {
            n = split($0, part, /Rattle\./)
            for (i = 2; i <= n; i++) { sub(/[^a-z0-9_].*/, "", part[i]); named(part[i]) }
        }
        code && /::/ {
            n = split($0, word, /[^A-Za-z0-9_:]+/)
            for (i = 1; i <= n; i++) if (word[i] ~ /^[a-z][a-z0-9_]*::/) { sub(/::.*/, "", word[i]); named(word[i]) }
        }' {} + | sort -u
}
