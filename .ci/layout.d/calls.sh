# A call's promise is one name, which its contract applies and says nothing else: so it holds for all inputs, and the law that
# the promise fixes the outcome is a law about the call.
calls_promise() {
    local table='docs/PROMISES.md, "The calls"'
    contracts
    lacking "is a call of README or of a program, but in no row of $table" <(calls_offered) <(calls | cut -f 1)
    lacking "is in $table, but not defined" <(calls_as 'crates/\1/specs/Promises.antt: \3') <(promises)
    lacking "is in no row of $table" <(promises) <(calls_as 'crates/\1/specs/Promises.antt: \3')
    lacking "is in $table, but not so here" <(calls_as 'crates/demands/specs/Agree.antt: \4 of \3') <(laws)
    lacking "is not so in $table" <(laws) <(calls_as 'crates/demands/specs/Agree.antt: \4 of \3')
    lacking "is in $table, but not proved" <(calls_as 'crates/demands/proofs/Agree.antt: \4') <(laws_proved)
    lacking "is in no row of $table" <(functions_for_c) <(calls_as '\2')
    lacking 'is an export for C, but no call of crates/cedar with this signature and contract' <(exports) <(exported)
    lacking 'is a call of crates/cedar, but no export of crates/cedar_c with this signature and contract' <(exported) <(exports)
    lacking "is in no use line there" <(names_meant) <(names_used)
}

# calls_as FORM: each row of the table as sed writes it, \1 being the crate, \2 the function, \3 the promise, \4 the law.
calls_as() {
    calls | sed -E "s|^([a-z0-9_]+)::([a-z0-9_]+)\t([A-Za-z]+)\t([A-Za-z]+)\$|$1|"
}

# The exports for C, and the calls that they are to export: an export promises what the call of its name promises.
exports() {
    functions | sed -nE 's/^cedar_c::([^\t]*\tpub )extern "C" /\1/p'
}

exported() {
    functions | sed -n 's/^cedar:://p'
}

# Each call is there and ensures `PROMISE ARGUMENTS`, where the arguments are the result, the parameters and buffers afterwards, as in
#     ensures { Judges block.now result }
contracts() {
    awk -F '\t' '
        function applied(contract, promise,    word, n, i) {
            n = split(contract, word, /[() ]+/)
            if (word[1] " " word[2] " " word[3] != "ensures { " promise || word[n] != "}") return 0
            for (i = 4; i < n; i++)
                if (word[i] !~ /^([A-Za-z][A-Za-z0-9_]*(\.now|\.old|\.new)?(\.0)?|∷|\[\])$/) return 0
            return 1
        }
        function told(contract, what) {
            gsub(/[()]|\.0/, " ", contract)
            if (!index(contract, " " what " ")) print place " does not tell " what " to its promise"
        }
        { split($1, part, "::"); place = "crates/" part[1] "/src/lib.rt: " part[2] }
        FNR == NR && ($1 in signature) { print place " is there twice" }
        FNR == NR { signature[$1] = $2; contract[$1] = $3; next }
        signature[$1] !~ /^pub fn / { print place " is a call in docs/PROMISES.md, but no public function"; next }
        contract[$1] ~ /(^| )requires / { print place " has a requires: " contract[$1]; next }
        !applied(contract[$1], $2) { print place " does not ensure just " $2 " of names: " contract[$1]; next }
        {
            told(contract[$1], "result")
            parameters = signature[$1]; sub(/^[^(]*\( ?/, "", parameters)
            n = split(parameters, parameter, /, ?/)
            for (i = 1; i <= n; i++) {
                name = parameter[i]
                if (!sub(/: .*/, "", name)) continue
                told(contract[$1], name (parameter[i] ~ /: &mut / ? ".old" : parameter[i] ~ /: &/ ? ".now" : ""))
                if (parameter[i] ~ /: &mut /) told(contract[$1], name ".new")
            }
        }' <(functions) <(calls)
}

# What each crate defines as promises.
promises() {
    awk '/^((abbrev|unfoldable) )*pub / {
            sub(/^((abbrev|unfoldable) )*pub ((record|data) )?/, ""); print FILENAME ": " $1
        }' crates/*/specs/Promises.antt
}

# The agree laws, each with its promise: LAW = (NAME : TYPE) .. → Fixes (PROMISE NAME ..), for all NAMEs and without a hypothesis.
laws() {
    awk '
        function law() {
            binders = "(\\([a-z _-]+ : (List )*(ℕ|[A-Z][A-Za-z]*)\\) )+"
            if (body ~ "^[A-Z][A-Za-z]* = " binders "→ Fixes[A-Za-z]* \\([A-Z][A-Za-z]*( [a-z_-]+)+\\)$") {
                name = promise = given = told = body
                sub(/ .*/, "", name)
                sub(/^.*\(/, "", promise); sub(/ .*/, "", promise)
                sub(/^[^(]*/, "", given); sub(/ → .*/, "", given); gsub(/ : [^)]*|[()]/, "", given)
                sub(/^.*\([^ ]* /, "", told); sub(/\)/, "", told)
                if (given == told) print FILENAME ": " name " of " promise
            }
            body = ""
        }
        /^[A-Z]/ { body = $0 }
        body != "" && /^ / { sub(/^ +/, ""); body = body " " $0 }
        /^$/ { law() }
        END { law() }' crates/demands/specs/Agree.antt
}

laws_proved() {
    awk '/^pub [a-z_-]+ : [A-Z][A-Za-z]*$/ { print FILENAME ": " $4 }' crates/demands/proofs/Agree.antt
}

# A name is the promise's or the law's own: no other module gives it.
names_meant() {
    calls_as 'crates/\1/src/lib.rt: Rattle.\1.specs.Promises.\3'
    calls_as 'crates/\1_c/src/lib.rt: Rattle.\1.specs.Promises.\3' | grep '^crates/cedar_c/'
    calls_as 'crates/demands/specs/Agree.antt: Rattle.\1.specs.Promises.\3'
    calls_as 'crates/demands/proofs/Agree.antt: Rattle.demands.specs.Agree.\4'
}

names_used() {
    awk '/^(ghost )?use .*[{]/ {
            sub(/^(ghost )?use /, ""); module = $0; sub(/[{].*/, "", module); sub(/^.*[{]/, ""); sub(/[}].*/, "")
            n = split($0, name, /, */)
            for (i = 1; i <= n; i++) print FILENAME ": " module name[i]
        }' crates/*/src/lib.rt crates/demands/*/Agree.antt
}
