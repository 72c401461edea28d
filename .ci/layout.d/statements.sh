# Every statement of the demands and of the tables has a proof: one without it would be believed.
statements_proved() {
    lacking 'is stated, but not proved' <(statements) <(statements_shown)
}

statements() {
    sed -nE 's/^abbrev pub ([A-Z][A-Za-z0-9]*) : Type 0$/\1/p' crates/demands/specs/*.antt crates/refusals/specs/{Refusals,Orders}.antt
}

statements_shown() {
    sed -nE 's/^pub [a-z0-9_-]+ : ([A-Z][A-Za-z0-9]*)$/\1/p' crates/{demands,refusals}/proofs/*.antt
}
