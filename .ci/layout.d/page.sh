# PROMISES is complete and names nothing else: what is in no row of it has no promise that a reader would find.
page_complete() {
    local page=docs/PROMISES.md
    lacking "is public, but in no row of $page" <(public) <(grep '^|' $page | cut -d '|' -f 2 | quoted)
    lacking "is in $page, but no public function" <(quoted <$page | grep -xE '[a-z0-9_]+::([A-Z][A-Za-z0-9]*::)?[a-z0-9_]+') <(public)
    lacking "is a function for C that $page does not name" <(functions_for_c) <(quoted <$page)
    lacking "is in $page, but no function for C" <(quoted <$page | grep -xE 'cedar_[a-z0-9_]+') <(functions_for_c)
    lacking "is an edit in no row of $page" <(edits) <(edits_named)
    lacking "is in $page, but no edit" <(edits_named) <(edits)
    lacking "is in $page, but not so in any specs/Promises.antt" <(promises_told) <(promises_meant)
}

# What others can call, by name.
public() {
    functions | cut -f 1
    methods
}

# What stands in backquotes.
quoted() {
    grep -o "\`[^\`]*\`" | tr -d "\`"
}

# Each `NAME ARGUMENTS` of the page, which must say `NAME ARGUMENTS` is `BODY`: as NAME ARGUMENTS = BODY.
promises_told() {
    awk -v RS= -F "\`" '{
            gsub(/[ \t\n]+/, " ")
            for (i = 2; i <= NF; i += 2)
                if ($i ~ /^[A-Z][A-Za-z]* [a-z]/) print $i " = " ($(i + 1) == " is " ? $(i + 2) : "..")
        }' docs/PROMISES.md
}

# The promises in that form; the body of a record is its field `outcome`.
promises_meant() {
    awk -v RS= -F '\n' '{
            gsub(/\n? +/, " ") # what is indented goes on with the line before
            for (i = 1; i <= NF; i++) {
                name = body = $i
                sub(/^pub record /, "", name); sub(/ : Type .*/, "", name); gsub(/ : [^()]*(\([^()]*\))?\)|\(/, "", name)
                if (sub(/^pub record .* pub outcome : /, "", body)) { sub(/ pub .*/, "", body); print name " = " body }
                if (body ~ /^[A-Z].* = /) print body
            }
        }' crates/*/specs/Promises.antt
}

edits() {
    printf '%s\n' crates/*/must-fail/*.edit | sed 's|^crates/||; s|\.edit$||'
}

# In its section "Impostors" the page writes crate/name for crate/must-fail/name.
edits_named() {
    awk '/^## / { impostors = $0 == "## Impostors" } impostors' docs/PROMISES.md | quoted |
        sed -nE 's|^([a-z0-9_]+)/([a-z0-9_]+)$|\1/must-fail/\2|p'
    quoted <docs/PROMISES.md | grep -xE '[a-z0-9_]+/must-fail/[a-z0-9_]+'
}
