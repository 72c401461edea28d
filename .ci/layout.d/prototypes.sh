# A prototype stands in cedar.h, and in a comment above its function; both are the same text, and say what the signature says:
# no compiler sees the header and the Rattle code together.
prototypes_agree() {
    lacking 'is not in include/cedar.h' <(prototypes_beside) <(prototypes_for_c)
    lacking 'is in include/cedar.h, but beside no function' <(prototypes_for_c) <(prototypes_beside)
    lacking 'is the signature, but not the comment above it' <(prototypes_of_signatures) <(prototypes_of_comments)
    lacking 'is the comment, but not the signature below it' <(prototypes_of_comments) <(prototypes_of_signatures)
}

# The declarations of the header, without its comments.
prototypes_for_c() {
    awk '!/^#/ { text = text " " $0 }
        END {
            while (start = index(text, "/*")) {
                end = index(substr(text, start), "*/")
                text = substr(text, 1, start - 1) (end ? substr(text, start + end + 1) : "")
            }
            gsub(/[{};]/, "&\n", text); gsub(/[ \t]+/, " ", text)
            print text
        }' include/cedar.h | sed -n 's/^ *\(.*);\)$/\1/p' | grep -v '^return '
}

# The comment above each function for C.
prototypes_beside() {
    awk '/^\/\/ / { comment = comment substr($0, 3); next }
        /extern "C" fn / && comment != "" { gsub(/[ \t]+/, " ", comment); print substr(comment, 2) }
        !/^#\[/ { comment = "" }' crates/cedar_c/src/lib.rt
}

# The comments, in names that both have: for C `number` is `record`, a word of antt, and `old` and `new`, a word of C++, end in `_value`.
# A length has no name in Rattle; here it is `length`, or so behind its buffer's name.
prototypes_of_comments() {
    prototypes_beside | sed -E 's/ record([,)])/ number\1/; s/ (old|new)_value([,)])/ \1\2/g' |
        sed -E 's/\*([a-z0-9_]+), size_t (\1_)?length([,)])/*\1, size_t\3/g; s/;$//'
}

prototypes_of_signatures() {
    awk -F '\t' '
        function declared(name, type) {
            if (type == "&[u8]") return "const uint8_t *" name ", size_t"
            if (type == "&mut [u8]") return "uint8_t *" name ", size_t"
            if (type ~ /^u(8|16|32|64)$/) type = "uint" substr(type, 2) "_t"
            return type " " name
        }
        $2 ~ /extern "C" fn / {
            name = $2; sub(/^.* fn /, "", name); sub(/\(.*/, "", name)
            result = $2; if (!sub(/^.* -> /, "", result)) result = "void"
            list = $2; sub(/^[^(]*\( ?/, "", list); sub(/,? ?\)[^)]*$/, "", list)
            n = split(list, parameter, /, /)
            text = n ? "" : "void"
            for (i = 1; i <= n; i++) { split(parameter[i], part, /: /); text = text (i > 1 ? ", " : "") declared(part[1], part[2]) }
            print declared(name, result) "(" text ")"
        }' <(functions)
}
