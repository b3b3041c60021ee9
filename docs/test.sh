#!/usr/bin/env bash
# Holds the documents to the crates: the picture of the rooms, the README's table of them, and what PROMISES names;
# the definitions of the ideal dispatcher to reading no byte; and the knee to what it may know of the dispatcher.
# The very last line is 'N passed, M failed'.
set -u -o pipefail
cd "$(dirname "${BASH_SOURCE[0]}")/.." || exit 2

work=$(mktemp -d) || exit 2
trap 'rm -rf "$work"' EXIT
. tools/trying

# The rooms of crates.txt in its order, a static library as any other.
rooms() {
    sed -n 's/[ :].*//p' crates.txt
}

has_each_room_below_those_that_it_uses() {
    sed 's/ staticlib:/:/' crates.txt | awk -F '[: ]+' '
        { for (i = 2; i <= NF; i++) if ($i != "" && !($i in seen)) { print $1 " stands above " $i; bad = 1 } seen[$1] }
        END { exit bad }'
}

shows_these_rooms() {
    tools/map >"$work/rooms.svg" && diff docs/rooms.svg "$work/rooms.svg"
}

# In the order of crates.txt, each once.
has_a_line_for_each_room() {
    rooms >"$work/rooms"
    awk -F '|' '/^\| layer \|/ { inside = 1 } /^$/ { inside = 0 } inside && $3 ~ /`/ { gsub(/[` ]/, "", $3); print $3 }' README.md |
        diff "$work/rooms" -
}

# The part of PROMISES that goes through the rooms, without the definitions that the wrong programs are of: a colon stands behind those.
by_room() {
    sed -n '/^## Wrong programs/,$p' docs/PROMISES.md | sed -E 's/`[A-Za-z0-9_-]+`://g'
}

# What stands in backquotes and has an underscore in it, as every wrong program's name has.
names() {
    grep -oE '`[a-z0-9]+(_[a-z0-9]+)+`' | tr -d '`' || true # a room may have none
}

lists_the_wrong_programs_of_each_room() {
    local room
    find crates -path '*/must-fail/*.edit' | sed -E 's|crates/(.*)/must-fail/(.*)[.]edit|\1 \2|' | sort >"$work/there"
    for room in $(rooms); do
        by_room | sed -n "s/^| \`$room\` |//p" | names | sed "s/^/$room /"
    done | sort | diff "$work/there" -
}

# A guard may be a wrong program, a function, a test or a file. README and GLOSSARY may name these too, beside the definitions.
names_nothing_that_is_not_there() {
    {
        find crates host \( -name target -o -name out \) -prune -o -type f -print | tr '/.' '\n\n'
        grep -rhoE --exclude-dir=target --exclude-dir=out '[a-z0-9]+(_[a-z0-9]+)+' crates host
    } | sort -u >"$work/there"
    cat README.md docs/PROMISES.md docs/GLOSSARY.md | names | sort -u | comm -23 - "$work/there" | awk '{ print; bad = 1 } END { exit bad }'
}

# The definitions and theorems that they name: words in backquotes with a capital letter in them, or names joined by a dash.
name_no_definition_that_is_not_there() {
    find crates -name '*.antt' -not -path '*/out/*' -exec cat {} + | grep -oE '[A-Za-z][A-Za-z0-9_-]*' | sort -u >"$work/words"
    grep -ohE '`[A-Za-z][A-Za-z0-9_-]*([.][a-z_-]+)?`' README.md docs/PROMISES.md docs/GLOSSARY.md | tr -d '`' | sed 's/[.].*//' |
        grep '[A-Z-]' | grep -v '^KILMSTRA_' | sort -u | comm -23 - "$work/words" | awk '{ print; bad = 1 } END { exit bad }'
}

# The files of definitions that one rests on, itself among them, within a room.
rests_on() {
    awk -v room="$1" -v first="$2" '
        function walk(name,    path, line, used, list, i) {
            if (name in seen) return
            seen[name]
            print name
            path = "crates/" room "/specs/" name ".antt"
            while ((getline line <path) > 0)
                if (match(line, "^use Rattle[.]" room "[.]specs[.][A-Z][A-Za-z]*")) {
                    used = substr(line, 1, RLENGTH)
                    sub(/.*[.]/, "", used)
                    list = list " " used
                }
            close(path)
            while (match(list, /[A-Za-z]+/)) {
                used = substr(list, RSTART, RLENGTH)
                list = substr(list, RSTART + RLENGTH)
                walk(used)
            }
        }
        BEGIN { walk(first) }'
}

# The one that does rest on the block shows that the walk finds it.
reads_no_byte() {
    rests_on reclaiming Run | grep -qx StateBlock || return 1
    ! rests_on reclaiming Ideal | grep -xE 'StateBlock|States|Fields|Calls|Run|Numbers|Play'
}

# 02, No. 7: the knee knows of the dispatcher "only what its contracts say". It may use the definitions that they cite, and of
# other rooms' proofs those of plain arithmetic alone. That such lines are seen at all, another room shows.
knows_only_the_contracts() {
    proofs_used_by dispatcher | grep -q . || return 1
    ! proofs_used_by knee | grep .
}

proofs_used_by() { # ROOM
    grep -rhoE --include='*.antt' --exclude-dir=out '^use Rattle[.][a-z_]+[.]proofs[.].*' "crates/$1" |
        grep -vE "^use Rattle[.]($1|arith|core|std)[.]"
}

try 'crates.txt has each room below those that it uses' has_each_room_below_those_that_it_uses
try 'the picture shows these rooms' shows_these_rooms
try 'the README has a line for each room' has_a_line_for_each_room
try 'PROMISES lists the wrong programs of each room' lists_the_wrong_programs_of_each_room
try 'README, PROMISES and GLOSSARY name nothing that is not there' names_nothing_that_is_not_there
try 'README, PROMISES and GLOSSARY name no definition that is not there' name_no_definition_that_is_not_there
try 'the ideal dispatcher reads no byte' reads_no_byte
try 'the knee knows of the dispatcher only its contracts' knows_only_the_contracts

tried
