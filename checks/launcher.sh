# Checks of the launcher, of tools/release and of the release, for checks/run, which reads this file (`.`).
#
# Most of them are done in a small repository, with scripts in the place of programs and of the kit: these tell which
# they are, so that it shows what the launcher took.

# What the launcher needs of the system, as links in a folder: a PATH without the kit.
plain_path() {
    local command
    mkdir -p "$room/plain" || return 1
    for command in sh awk cat chmod dirname find getconf gzip head mkdir mktemp mv readlink rm rmdir sed sha256sum \
        sleep sort tail touch wc; do
        ln -sf "$(type -P "$command")" "$room/plain" || return 1
    done
}

# Prints a program that tells its name and its words, and ends with 5; without words with 2, as each program does.
stand_in() {
    printf '#!/bin/sh\n[ $# -gt 0 ] || exit 2\necho "%s: $*"\necho "%s complains" >&2\nexit 5\n' "$1" "$1"
}

# Makes a program of what comes in.
make_program() {
    mkdir -p "$(dirname "$1")" && cat >"$1" && chmod +x "$1"
}

newline=$'\n'
built=crates/megaswitch/out/megaswitch

# Makes a kit that tells its name, and that builds a program which tells by whom.
make_kit() {
    stand_in 'by the kit' | make_program "$room/kit/program" && make_program "$room/kit/rt" <<END
#!/bin/sh
case \$* in
    version) echo 'rattle-kit-0 logic 0' ;;
    'all check'*) printf '== low\n== megaswitch\n' ;;
    run) cp "$room/kit/program" out/megaswitch; exec out/megaswitch ;;
esac
END
}

commit_all() {
    git add -A && git -c user.name=maker -c user.email=maker@localhost commit -qm all
}

# Makes a repository of this name, with a program that isn't built, and goes there.
small_repository() {
    mkdir -p "$room/$1"/{crates/{low,beside,megaswitch}/src,crates/low/{specs,must-fail},tools} && cd "$room/$1" \
        && cp -r "$top"/tools/{launch,release,sources.sh,help} tools && cp "$top"/{megaswitch,HANDLES} . \
        && sed -i 's/^programs=.*/programs=megaswitch/' tools/sources.sh \
        && printf '# Crates\nlow:\nbeside: low\nmegaswitch: low\n' >crates.txt \
        && echo '// low' >crates/low/src/lib.rt && echo '-- Low' >crates/low/specs/Low.antt \
        && echo 'file: src/lib.rt' >crates/low/must-fail/none.edit \
        && echo '// beside' >crates/beside/src/lib.rt && echo '// main' >crates/megaswitch/src/main.rt \
        && echo out/ >.gitignore && git init -q . && commit_all && plain_path && make_kit
}

# Makes the release of the program that is built in a small repository.
make_release() {
    PATH=$room/kit:$PATH tools/release >"$room/said" 2>"$room/complained"
}

# Makes a small repository that is released, as it comes from a clone.
released_repository() {
    small_repository "$1" && stand_in released | make_program "$built" && make_release \
        && rm -r crates/megaswitch/out && commit_all
}

# How the launcher is called, and the PATH that it has.
launcher=./megaswitch
path=$room/plain
path_with_kit=$room/kit:$room/plain:/usr/bin:/bin

# Runs the launcher, and ends with its status. What it prints is in two files.
launch() {
    PATH=$path XDG_CACHE_HOME=$room/cache "$launcher" "$@" >"$room/said" 2>"$room/complained" </dev/null
}

# Whether the launcher runs the program that tells this name of itself, and on standard error there is this text, if
# any, and what the program says there.
runs() {
    launch '--some words' '' last
    [ $? = 5 ] && diff <(echo "$1: --some words  last") "$room/said" \
        && diff <(printf '%s' "${2:+$2$newline}" && echo "$1 complains") "$room/complained"
}

# Whether it runs nothing, for this reason.
runs_nothing() {
    launch some words
    [ $? = 125 ] && [ ! -s "$room/said" ] && diff <(echo "megaswitch: $1, $no_kit") "$room/complained"
}

no_kit='and `rt` of the Rattle kit, by which it is proved and built, is not on the PATH'
unpacked='megaswitch: unpacked the released program, which is of the sources here,'
how='; tools/prove megaswitch proves and builds it here'
proving='it is proved and built now, which takes long the first time, and goes on where it was interrupted'

# ---- what is run

told_once() {
    released_repository once && runs released "$unpacked to $PWD/release/out$how" \
        && runs released && [ "$(ls -A release/out)" = megaswitch ] && [ -z "$(git status --porcelain)" ]
}

runs_from_elsewhere() {
    local at="$room/else where"
    released_repository 'else where' && mkdir -p "$room/bin" && ln -s "$at/megaswitch" "$room/bin" \
        && cd / && launcher=$at/megaswitch && runs released "$unpacked to $at/release/out$how" \
        && launcher=$room/bin/megaswitch && runs released && cd "$room" && launcher=bin/megaswitch && runs released \
        && path=$room/bin:$path && launcher=megaswitch && runs released
}

# A newer source counts by its time for a program of here, and by its content for a released one.
newer_sources() {
    released_repository newer && stand_in 'built here' | make_program "$built" && runs 'built here' \
        && touch crates/low/specs/Low.antt && runs released "$unpacked to $PWD/release/out$how" \
        && touch "$built" && runs 'built here' && echo more >>crates/beside/src/lib.rt && runs 'built here' \
        && echo more >>crates/low/src/lib.rt && runs_nothing 'the release is of other sources than those here' \
        && git checkout -q crates/low && runs released
}

# Whether the program finds, where it is run on these words, that the C library is told this.
tells_library() {
    local told=$1
    shift
    launch "${@:-word}"
    diff <(echo "$told") "$room/said"
}

# With a file in the place of the one in which Linux tells to whom it gives huge pages. A run of nine ports asks for none.
huge_pages() {
    local given=$room/given asking='always [madvise] never' madvise=glibc.malloc.hugetlb=1:glibc.malloc.top_pad=16777216
    unset GLIBC_TUNABLES
    small_repository huge && sed -i "s|^huge_pages=.*|huge_pages=$given|" tools/launch \
        && printf '#!/bin/sh\necho "${GLIBC_TUNABLES-nothing}"\n' | make_program "$built" && tells_library nothing \
        && echo "$asking" >"$given" && tells_library "$madvise" && tells_library "$madvise" edits out {1..8}=file \
        && tells_library nothing edits out {1..9}=file && GLIBC_TUNABLES=own tells_library own \
        && GLIBC_TUNABLES= tells_library '' && echo 'always madvise [never]' >"$given" && tells_library nothing
}

no_release() {
    small_repository no_release && runs_nothing 'there is no release'
}

# Of a damaged release the program was changed, or its checksum.
damaged_release() {
    local why='release/megaswitch.gz is damaged'
    released_repository damaged && truncate -s 50 release/megaswitch.gz && runs_nothing "$why" \
        && stand_in other | gzip >release/megaswitch.gz && runs_nothing "$why" \
        && rm release/megaswitch.gz && runs_nothing "$why" && git checkout -q release \
        && sed -i '/ program /s/.$/x/' release/sources && runs_nothing "$why" && git checkout -q release \
        && runs released "$unpacked to $PWD/release/out$how"
}

changed_program() {
    released_repository changed && runs released "$unpacked to $PWD/release/out$how" \
        && stand_in other >release/out/megaswitch && runs released "$unpacked to $PWD/release/out$how" \
        && runs released
}

# As where the C library is too old.
program_that_does_not_start() {
    small_repository no_start && printf '#!/bin/sh\necho no >&2\nexit 1\n' | make_program "$built" && make_release \
        && rm -r crates/megaswitch/out \
        && runs_nothing 'the released program, for x86-64 with glibc 2.34 or later, does not start here' \
        && [ ! -e release/out ] && [ -z "$(ls -A "$room/cache/megaswitch")" ]
}

# Whether it runs as released, by a user who isn't root and has these settings, and this is said.
runs_with() {
    local text=$1 nobody=()
    shift
    [ "$(id -u)" != 0 ] || nobody=(setpriv --reuid=65534 --regid=65534 --clear-groups)
    "${nobody[@]}" env -i PATH="$path" TMPDIR="$room/free/tmp" "$@" ./megaswitch word \
        >"$room/said" 2>"$room/complained"
    [ $? = 5 ] && diff <(echo 'released: word') "$room/said" \
        && diff <(printf '%s' "${text:+$text$newline}" && echo 'released complains') "$room/complained"
}

read_only_clone() {
    local sum free=$room/free
    released_repository read_only && sum=$(home=$PWD released 'megaswitch program') && chmod -R a-w . \
        && trap 'chmod -R u+w .' EXIT \
        && mkdir -p "$free"/{home,cache,tmp} && chmod 777 "$free"/* && chmod 755 "$room" \
        && runs_with "$unpacked to $free/home/.cache/megaswitch/$sum$how" HOME="$free/home" \
        && runs_with '' HOME="$free/home" XDG_CACHE_HOME=relative \
        && runs_with "$unpacked to $free/cache/megaswitch/$sum$how" HOME="$free/home" XDG_CACHE_HOME="$free/cache" \
        && runs_with '' XDG_CACHE_HOME="$free/cache" && runs_with "$unpacked for this run alone$how" HOME=/ \
        && runs_with "$unpacked for this run alone$how" && [ -z "$(ls -A "$free/tmp")" ]
}

# ---- what is proved and built

# Makes a tools/prove that ends with this status; with 0 it builds a program, and does this.
make_prover() {
    make_program tools/prove <<END
#!/bin/sh
echo "prove: \$*"
[ $1 = 0 ] || exit $1
mkdir -p crates/megaswitch/out && sed 's/by the kit/proved/' "$room/kit/program" >$built && chmod +x $built
${2:-}
END
}

proved_where_needed() {
    local why="megaswitch: there is no release; $proving${newline}prove: megaswitch"
    path=$path_with_kit
    small_repository proved && make_prover 0 && runs proved "$why" && runs proved && rm -r crates/megaswitch/out \
        && tools/launch --build megaswitch && [ -x "$built" ] && runs proved
}

# A source that is edited during the proof is newer than the program.
proved_again_after_edits() {
    local why="megaswitch: there is no release; $proving${newline}prove: megaswitch"
    path=$path_with_kit
    small_repository edited && make_prover 0 'echo more >>crates/low/src/lib.rt' && runs proved "$why" \
        && make_prover 0 && runs proved "$why" && runs proved
}

proved_by_the_kit() {
    path=$path_with_kit
    small_repository proved_by_the_kit && make_prover 3 && runs 'by the kit' "$(
        echo "megaswitch: there is no release; $proving"
        printf 'prove: megaswitch\nmegaswitch: 1 of 2 crates: low\nmegaswitch: 2 of 2 crates: megaswitch'
    )" && runs 'by the kit'
}

not_proved() {
    path=$path_with_kit
    small_repository not_proved && make_prover 1 || return 1
    launch some words
    [ $? = 125 ] && [ ! -s "$room/said" ] \
        && diff <(echo "megaswitch: there is no release; $proving" && echo 'prove: megaswitch') "$room/complained"
}

# Who stops the launcher stops the proof.
proof_is_stopped() {
    local launched
    path=$path_with_kit
    small_repository stopped && make_program tools/prove <<<$'#!/bin/sh\necho $$ >proof\nexec sleep 60' || return 1
    PATH=$path ./megaswitch some words >"$room/said" 2>"$room/complained" &
    launched=$!
    until [ -s proof ]; do
        sleep 0.1
    done
    kill "$launched"
    wait "$launched"
    [ $? = 125 ] && [ ! -s "$room/said" ] && ! kill -0 "$(cat proof)"
}

# ---- what is answered at once

# Whether the launcher of a program answers these words on standard output alone, and ends with 0.
answers() {
    launcher=$top/$1
    launch "${@:2}" && [ ! -s "$room/complained" ]
}

# The statuses that are told are those of the manual page.
help_is_given() {
    local name words
    plain_path || return 1
    for name in $programs; do
        for words in -h '--help out' --help; do
            # They are one word or two.
            answers "$name" $words && grep -x "usage: $name .*" "$room/said" \
                && grep -F "docs/$name.1" "$room/said" || return 1
        done
        diff <(sed -n '/^\.Sh EXIT STATUS/,/^\.Sh EXAMPLES/s/^\.It //p' "docs/$name.1") \
            <(sed -n '/^exit status/,$s/^  \([0-9]\+\) .*/\1/p' "$room/said") || return 1
    done
}

# Each option that the program's own text names has a line, and so do the other words.
help_is_whole() {
    local word
    plain_path && answers megaswitch --help || return 1
    for word in $(grep -o -- '--[a-z-]*' <<<"$usage") --generate --version --help, EDITS OUT PORT=FILE PORT=; do
        grep -- "^  $word " "$room/said" || { echo "$word has no line" && return 1; }
    done
}

# Whether a program of a small repository runs on these words.
runs_on() {
    launch "$@"
    [ $? = 5 ] && diff <(echo "released: $*") "$room/said"
}

other_words_are_passed() {
    released_repository passed && runs_on edits --help && runs_on '' --version && runs_on -- -h \
        && runs_on --helping && runs_on --build megaswitch
}

# Whether the version is told in these lines.
tells_version() {
    launch --version && [ ! -s "$room/complained" ] && diff <(printf '%s\n' "$@") "$room/said"
}

version_is_told() {
    local by='as proved and built by rattle-kit-0 logic 0' one other
    released_repository version && one=$(home=$PWD sources_sum megaswitch | head -c 16) \
        && tells_version "megaswitch $one" "released, $by" && echo more >>crates/low/src/lib.rt \
        && other=$(home=$PWD sources_sum megaswitch | head -c 16) && [ "$one" != "$other" ] \
        && tells_version "megaswitch $other" "not released; the release is $one, $by" \
        && rm -r release && tells_version "megaswitch $other" 'not released' && [ -z "$(ls -d crates/*/out)" ]
}

# ---- the release

# Whether the checksum of the small repository that is here is this one.
has_sources() {
    [ "$(home=$PWD sources_sum megaswitch)" = "$1" ]
}

# Whether it is another after this change, which is undone then.
changes_sources() {
    local made
    eval "$2" && made=$(home=$PWD sources_sum megaswitch) && [ "$made" != "$1" ] \
        || { echo "the same after: $2" && return 1; }
    git checkout -q . && git clean -qfd && has_sources "$1"
}

sum_is_of_contents() {
    local sum
    small_repository sum && sum=$(home=$PWD sources_sum megaswitch) && [ ${#sum} = 64 ] \
        && cp -r . "$room/another sum" && cd "$room/another sum" && touch crates/*/*/* && mkdir crates/low/out \
        && echo more | tee -a crates/low/out/more crates/low/must-fail/none.edit crates/beside/src/lib.rt \
        && sed -i 's/^# .*/# All/; s/^beside:.*/beside:/' crates.txt && has_sources "$sum" \
        && (export LC_ALL=en_US.UTF-8 && has_sources "$sum")
}

sum_is_of_all_sources() {
    local sum
    small_repository all && sum=$(home=$PWD sources_sum megaswitch) \
        && changes_sources "$sum" 'echo more >>crates/megaswitch/src/main.rt' \
        && changes_sources "$sum" 'echo more >>crates/low/src/lib.rt' \
        && changes_sources "$sum" 'echo more >>crates/low/specs/Low.antt' \
        && changes_sources "$sum" 'mkdir crates/low/proofs && echo more >crates/low/proofs/More.antt' \
        && changes_sources "$sum" 'mv crates/low/specs/Low.antt crates/low/specs/High.antt' \
        && changes_sources "$sum" 'rm crates/low/specs/Low.antt' && changes_sources "$sum" 'echo more >>HANDLES' \
        && changes_sources "$sum" "sed -i 's/^low:/low: std/' crates.txt" \
        && changes_sources "$sum" "sed -i 's/^megaswitch:.*/& beside/' crates.txt"
}

# Whether tools/release makes nothing, for a reason that begins so.
refuses_release() {
    ! make_release && [ ! -e release ] && [ ! -s "$room/said" ] && grep "^release: $1" "$room/complained"
}

release_is_refused() {
    small_repository refused && refuses_release 'megaswitch is not built' && stand_in one | make_program "$built" \
        && touch crates/low/src/lib.rt && refuses_release 'a source of megaswitch is newer' \
        && echo more >crates/low/src/more.rt && touch "$built" \
        && refuses_release 'the tree is not that of a commit: ?? crates/low/src/more.rt' \
        && rm crates/low/src/more.rt && touch "$built" && rm -rf .git && refuses_release "$PWD is no clone"
}

# Made of the same program it is the same, and made of another it is that.
release_is_made_again() {
    released_repository again && stand_in released | make_program "$built" && make_release \
        && [ -z "$(git status --porcelain)" ] \
        && stand_in next | make_program "$built" && make_release && make_release \
        && rm -r crates/megaswitch/out && runs next "$unpacked to $PWD/release/out$how"
}

release_is_of_these_sources() {
    local name
    for name in $programs; do
        [ "$(released "$name sources")" = "$(sources_sum "$name")" ] \
            || { echo "$name is of other sources" && return 1; }
        [ "$(gzip -dc "release/$name.gz" | sha256sum)" = "$(released "$name program")  -" ] \
            || { echo "$name is damaged" && return 1; }
    done
}

release_is_the_proved_build() {
    gzip -dc "release/$1.gz" | cmp - "crates/$1/out/$1"
}

# Whether a copy of the repository, with nothing built or unpacked, runs the released programs within a minute, and
# with no kit.
clone_runs_at_once() {
    local begun=$SECONDS name
    plain_path && mkdir "$room/clone" && tar -c --exclude=./.git --exclude=out . | tar -x -C "$room/clone" \
        && cd "$room/clone" || return 1
    for name in $programs; do
        launcher=./$name
        launch
        [ $? = 2 ] && diff <(
            echo "${unpacked/megaswitch/$name} to $PWD/release/out${how/megaswitch/$name}"
            tools/advise "$name" 2 2>&1
        ) "$room/complained" || return 1
    done
    launcher=./megaswitch
    launch --generate 7 && [ ! -s "$room/complained" ] \
        && grep -x 'ports=4 frames=20000 edits=81 blocks=2' "$room/said" && [ $((SECONDS - begun)) -lt 60 ]
}
