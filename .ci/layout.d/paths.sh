# What the pages name is there: a path in backquotes, with `*` for any name, and the files of README's commands.
paths_exist() {
    local page path found
    for page in README.md docs/*.md docs/landings/*.md; do
        { quoted <"$page" && grep '^    ' "$page"; } | tr ' ' '\n' | grep -E '^(\.ci|bench|crates|docs|example|host|include)/' |
            grep -v 'NAME' | sort -u | while IFS= read -r path; do
            # shellcheck disable=SC2206
            found=($path)
            [ -e "${found[0]}" ] || echo "$page names $path, which is not there"
        done
    done
}
