# Lists that several tests compare, a line for each thing.

# Every function that is public or for C: crate::function, its signature, its contract; tabs between.
functions() {
    find crates -regex 'crates/[^/]*/out' -prune -o -path '*/src/*.rt' -exec awk '
        FNR == 1 { split(FILENAME, path, "/"); head = "" }
        { sub(/ *\/\/.*/, "") }
        /^ *(pub|extern) ([a-z]+ |"C" )*fn [a-z]/ || head != "" { head = head " " $0 }
        head != "" && /[{]$/ {
            gsub(/[ \t]+/, " ", head); sub(/^ /, "", head); sub(/ ?[{]$/, "", head)
            name = head; sub(/^[^(<]* fn /, "", name); sub(/[^a-z0-9_].*/, "", name)
            start = match(head, / (requires|ensures) /) ? RSTART : length(head) + 1
            print path[2] "::" name "\t" substr(head, 1, start - 1) "\t" substr(head, start + 1)
            head = ""
        }' {} +
}

# Every method that the impl of a trait has: crate::Type::method. It is public where the trait and the type are, and `pub` does not stand before it.
methods() {
    find crates -regex 'crates/[^/]*/out' -prune -o -path '*/src/*.rt' -exec awk '
        FNR == 1 { split(FILENAME, path, "/"); head = type = "" }
        /^impl/ { head = $0; type = "" }
        head != "" && !/^impl/ { head = head " " $0 }
        head != "" && /[{]$/ {
            if (sub(/^impl.* for +/, "", head)) { type = head; sub(/[^A-Za-z0-9_].*/, "", type) }
            head = ""
        }
        /^}/ { type = "" }
        type != "" && /^ +fn [a-z]/ { name = $2; sub(/[^a-z0-9_].*/, "", name); print path[2] "::" type "::" name }' {} +
}

# Those for C, by name.
functions_for_c() {
    functions | sed -nE 's/^[a-z0-9_]+::([^\t]*)\t(pub )?extern "C" .*/\1/p'
}

# The rows of the table of calls in PROMISES: crate::function, promise, law; tabs between.
calls() {
    awk '/^## / { here = $0 == "## The calls" }
        here && /^\| `/ { gsub(/[|`]/, ""); print $1 "\t" $2 "\t" $3 }' docs/PROMISES.md
}

# The calls that outsiders are told of: the second column of the table in README, and what the programs call.
calls_offered() {
    awk -F '|' '/^## / { here = $0 == "## The calls" }
        here && /^\|/ { print $3 }' README.md | grep -oE '[a-z0-9_]+::[a-z0-9_]+'
    grep -ohE '(printed|listed|read_text)::[a-z0-9_]+' crates/*/src/main.rt
}
