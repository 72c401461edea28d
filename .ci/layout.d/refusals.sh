# The refusal numbers of the definitions, of cedar.h and of refusals.txt are the same; `host/refusals` compares the last two.
# Each has an input that is refused so, and a place in an order: those of 30 and 52 are the laws `LongFirst` and `LongSliceFirst`, which stand with the orders.
refusals_listed() {
    local list=include/refusals.txt tables=crates/refusals/specs
    host/refusals
    lacking "is a refusal of the definitions, but not in $list" <(refusals_given) <(refusals_told)
    lacking "is in $list, but a refusal of no definition" <(refusals_told) <(refusals_given)
    lacking "is in $list, but no input of crates/refusals reaches it" <(refusals_told) <(refusals_in <$tables/Refusals.antt)
    lacking "has no place in the orders of crates/refusals" <(refusals_told) <(refusals_in <$tables/Orders.antt)
}

# The numbers that a text of definitions answers, also as the row of an output that is too short.
refusals_in() {
    sed 's/-- .*//' | grep -oE '(answer|written_of) [1-9][0-9]*' | cut -d ' ' -f 2
}

# The numbers that the definitions answer; demands and tables are none.
refusals_given() {
    find crates -regex 'crates/[^/]*/out' -prune -o -path '*/specs/*.antt' ! -path 'crates/demands/*' ! -path 'crates/refusals/*' -exec cat {} + | refusals_in
}

refusals_told() {
    grep -v '^#' include/refusals.txt | cut -f 1
}
