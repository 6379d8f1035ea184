# Checks of what is stored: the examples' traces and what is expected of them, and what parts of the switch are asked,
# for checks/run, which reads this file (`.`).

# Prints the names of the examples' traces that are below this folder.
traces_in() {
    (cd "$1" && find . -mindepth 2 -maxdepth 2 -name '*.pcap' | sort)
}

# Whether each trace of the examples is made, and no other, with the same bytes.
traces_are_as_made() {
    local name
    python3 examples/make_traces.py "$room/made" && diff <(traces_in "$room/made") <(traces_in examples) \
        && for name in $(traces_in examples); do
            cmp "$room/made/$name" "examples/$name" || return 1
        done
}

# Whether a program gives the expected files of the example of this name, and its summary, as its README.md has it run.
# With workers only what doesn't depend on them is expected.
gives_expected() {
    local program=$1 name=$2 made=$room/$3/$2 words
    mkdir -p "$made" && mapfile -t words < <(python3 checks/examples.py "$name" "$made/out") \
        && "$program" "${words[@]}" >"$made/summary" 2>"$room/complained" && [ ! -s "$room/complained" ] || return 1
    [[ "${words[*]}" != *--workers* ]] || rm "$made"/{summary,out.megaflows,out.journal}
    diff -r "$made" "examples/$name/expected"
}

expected_is_as_simulated() {
    local name
    for name in $(python3 checks/examples.py); do
        gives_expected checks/simulate "$name" simulated || return 1
    done
}

layers=$top/crates/tool_layers/out/tool_layers

# Whether the program that asks parts of the switch builds, and prints what is stored of each.
layers_are_as_stored() {
    # `rt ci` builds it. `rt run` would prove each library below it again.
    is_built tool_layers || (cd crates/tool_layers && rt run -- flows data/edits) >"$room/built" || return 1
    (
        cd checks/layers || exit 1
        "$layers" flows flows.edits | cmp - flows.expected \
            && "$layers" keys keys.pcap 37 | cmp - keys.expected \
            && "$layers" runs runs.edits 3 1=runs.pcap 2= 3= 4= --rounds=2 | cmp - runs.expected
    )
}

# Whether the tracer gives the expected text of its stored example, and of each example that is traced.
traces_are_as_expected() {
    local words name
    (cd crates/megatrace/data && mapfile -t words <../args && "$top/megatrace" "${words[@]}" | cmp - ../stdout) \
        || return 1
    while read -r name words; do
        # The words of these examples have no blanks.
        "$top/megatrace" $words | cmp - "examples/$name/expected/trace" || return 1
    done < <(python3 checks/examples.py --traced)
}

# Whether each comparison of the examples prints the expected text, and its classes are those of the simulation.
comparisons_are_as_expected() {
    local name expected words status
    while read -r name expected words; do
        # The words of these examples have no blanks.
        "$top/megadiff" $words >"$room/compared"
        status=$?
        [ "$status" = 1 ] && cmp "$room/compared" "examples/$name/expected/$expected" || return 1
        python3 checks/diff_rows.py crates/megadiff/out/megadiff ${words#--brief } || return 1
    done < <(python3 checks/examples.py --compared)
}
