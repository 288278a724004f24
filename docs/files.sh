#!/usr/bin/env bash
# Writes docs/FILES.md: every file of the crates with its lines and the comment that it begins with, and the sums. A file of specs/ says first whether it
# is a rule, which a reader of the contracts must believe, or a helper of proofs.
#
#   docs/files.sh            writes docs/FILES.md
#   docs/files.sh --check    writes nothing; fails, and says why, where
#                            - docs/FILES.md is not what would be written,
#                            - a file of specs/ begins with neither '-- Rule: ' nor '-- Helper: ',
#                            - a rule uses a helper,
#                            - a call lacks one of the files that have its name,
#                            - a theorem of docs/THEOREMS.md is not in the file that its row names.
#
# What is written of a function's proof stands in proofs/<module>/<function>/ of its crate, in Answers.antt and Invariants.antt or in Proof.antt: it is counted
# and not listed. Lib.antt only lists a folder's modules: it is neither.
set -eu
cd -- "$(dirname -- "${BASH_SOURCE[0]}")/.."
export LC_ALL=C

# The calls of the pool, by the Rust's method (`new` is `open` here).
calls='open take_spare preserve_plan retire note_write note_mip_regeneration pop_retired park note_allocated take_doomed drain_versions trim forget_texture'

# Where a call's file has another name than the call. CALL PLACE FILE: why. One of several files, parted by '|', is enough.
exceptions='
open line crates/event_sessions/src/opening.rt: opening makes the session, so it is no call on one
open any crates/pool_open/src/calls/open.rt|crates/pool/src/calls/open.rt: opening reads no store, so one form serves, which `pool` hands on
open code crates/pool_open/src/calls/open.rt|crates/pool/src/calls/open.rt: the same
open definition opened_pool: it answers the pool to begin with, and leaves the stores as they are
open model opened: the same, on the model
note_mip_regeneration rule crates/pool_rules/specs/NoteWrite.antt: both report writes to one history, and share its definitions
'

# Rules that import a helper file for definitions of theirs that are no rule. CRATE/FILE CRATE/FILE: why.
mixed='
event_sessions/Parts event_answers/Answers: only the definitions for proofs, at the end of Parts, use it
pool_preserve_plan/PreservePlan pool_records/Find: only the definitions for proofs, before plannedTold, use it
'

# ---- the list

mapfile -t files < <(find crates -path 'crates/*/out' -prune -o -type f \( -name '*.rt' -o -name '*.antt' -o -name '*.edit' \) ! -name Lib.antt -print | sort -t/ -k2,2 -k3,3r -k4)

# One pass over all files. `want` is 'list' for the text of FILES.md, 'marks' for what is wrong with the first lines of specs.
read_files() {
    awk -v want="$1" -v mixed="$mixed" '
        function group(crate) { sub(/_.*/, "", crate); return crate }
        # The comment at the beginning, up to its first full stop.
        function sentence(text) {
            if (match(text, /[.]( |$)/)) text = substr(text, 1, RSTART)
            gsub(/\|/, "\\|", text)
            return text
        }
        # A file right in proofs/ has laws, whatever its name; a folder there belongs to a function.
        function kind_of(part, name, depth) {
            if (part == "src") return "code"
            if (part == "must-fail") return "edits"
            if (part == "proofs") return depth > 4 && name ~ /^(Proof|Answers|Invariants)[.]antt$/ ? "proofs" : "laws"
            return "specs"
        }
        function end_file() {
            if (file == "") return
            if (kind == "specs") {
                if (text ~ /^Rule: /) kind = "rules"
                else if (text ~ /^Helper: /) kind = "helpers"
                else {
                    unmarked = unmarked file " begins with neither \"-- Rule: \" nor \"-- Helper: \"\n"
                    kind = "helpers"
                }
                if (sub(/^(Rule|Helper): /, "", text)) marked[crate "/" module] = kind
            }
            n = kind == "edits" ? 1 : lines
            sums[group(crate), kind] += n
            all[kind] += n
            if (kind == "edits" || kind == "proofs") return
            mark = kind == "rules" ? "rule, " : kind == "helpers" ? "helper, " : ""
            short = file
            sub(/^crates\/[^\/]*\//, "", short)
            rows[crate] = rows[crate] "- `" short "` (" mark lines "): " sentence(text) "\n"
        }
        FNR == 1 {
            end_file()
            file = FILENAME
            split(file, part, "/")
            crate = part[2]
            count = split(file, part, "/")
            module = part[count]
            sub(/[.].*/, "", module)
            kind = kind_of(part[3], part[count], count)
            text = ""
            reading = 1
        }
        { lines = FNR }
        reading && /^(\/\/|--)/ {
            line = $0
            sub(/^(\/\/!?|--) ?/, "", line)
            text = text (text == "" ? "" : " ") line
            if (text ~ /[.]( |$)/) reading = 0
            next
        }
        { reading = 0 }
        kind == "specs" && /^use Rattle[.]/ {
            from = $2
            sub(/^Rattle[.]/, "", from)
            if (split(from, step, ".") >= 3 && step[2] == "specs" && step[3] != "declared")
                uses[crate "/" module " " step[1] "/" step[3]] = 1
        }
        END {
            end_file()
            if (want == "marks") {
                printf "%s", unmarked
                split(mixed, row, "\n")
                for (i in row) {
                    pair = row[i]
                    sub(/:.*/, "", pair)
                    allowed[pair] = 1
                }
                for (pair in uses) {
                    split(pair, side, " ")
                    if (marked[side[1]] == "rules" && marked[side[2]] == "helpers" && !(pair in allowed))
                        print side[1] " is a rule and uses " side[2] ", which is a helper: mark that as a rule, or list the pair in docs/files.sh"
                }
                exit
            }
            print "# Files\n"
            print "Every file of the crates, in the order of crates.txt, with its lines and the comment that it begins with. docs/files.sh writes this list."
            print "A *rule* is a file of specs/ that a reader of the contracts and theorems must believe; a *helper* only serves proofs. Laws are the lemmas of"
            print "proofs/; those of a trait, which the code cites, stand in specs/ and count as helpers (`pool_records`, `Codecs.antt` and `Counts.antt`). What is"
            print "written of the functions\047 own proofs is counted and not listed.\n"
            print "| lines | rules | helpers | code | laws | proofs of functions | must-fail edits |"
            print "|---|---|---|---|---|---|---|"
            split("base grid pool event test bench", name, " ")
            for (i = 1; i <= 6; i++) {
                label = name[i] == "pool" ? "`pool`, `pool_`" : "`" name[i] "_`"
                g = name[i]
                printf "| %s | %d | %d | %d | %d | %d | %d |\n", label, sums[g, "rules"], sums[g, "helpers"], sums[g, "code"], sums[g, "laws"], sums[g, "proofs"], sums[g, "edits"]
            }
            printf "| all | **%d** | %d | %d | %d | %d | %d |\n", all["rules"], all["helpers"], all["code"], all["laws"], all["proofs"], all["edits"]
            while ((getline line < "crates.txt") > 0) {
                if (line !~ /^[a-z_]+:/) continue
                sub(/:.*/, "", line)
                printf "\n## %s\n\n%s", line, rows[line]
            }
        }' "${files[@]}"
}

# ---- the names

# excepted CALL PLACE: what the table has instead, if anything.
excepted() {
    local row
    while IFS= read -r row; do
        case $row in
        "$1 $2 "*)
            row=${row#"$1 $2 "}
            printf '%s' "${row%%:*}"
            return
            ;;
        esac
    done <<<"$exceptions"
}

# In capitals as a module of specs/: take_spare is TakeSpare.
in_capitals() {
    local word text=
    for word in ${1//_/ }; do text+=${word^}; done
    printf '%s' "$text"
}

want_file() {
    local file
    for file in ${2//|/ }; do
        [ ! -f "$file" ] || return 0
    done
    echo "$1 lacks ${2//|/ or }"
}

want_definition() {
    grep -q "pub $2 :" "$3" 2>/dev/null || echo "$1 lacks the definition $2 in $3"
}

check_call() {
    local call=$1 capitals definition model line rule code any found file
    capitals=$(in_capitals "$call")
    line=$(excepted "$call" line)
    rule=$(excepted "$call" rule)
    code=$(excepted "$call" code)
    any=$(excepted "$call" any)
    definition=$(excepted "$call" definition)
    model=$(excepted "$call" model)
    rule=${rule:-crates/pool_rules/specs/$capitals.antt}
    want_file "$call" "$rule"
    want_definition "$call" "${model:-$call}" "$rule"
    want_definition "$call" "${definition:-${call}_on}" crates/pool_memory/specs/Calls.antt
    want_file "$call" "${any:-crates/pool/src/calls/$call.rt}"
    want_file "$call" "${line:-crates/event_calls/src/calls/$call.rt}"
    if [ -n "$code" ]; then
        want_file "$call" "$code"
        return
    fi
    found=0
    for file in crates/pool_*/src/calls/"$call.rt"; do
        case $file in
        crates/pool_lent_pacing/*) ;;
        *) [ ! -f "$file" ] || found=$((found + 1)) ;;
        esac
    done
    [ "$found" -eq 1 ] || echo "$call has $found files crates/pool_*/src/calls/$call.rt (pool_lent_pacing aside), not one"
}

# The rows of docs/THEOREMS.md: | `name` | `file below crates/` | sentence |
check_theorems() {
    local name file
    while IFS=' ' read -r name file; do
        grep -q "pub $name :" "crates/$file" 2>/dev/null || echo "docs/THEOREMS.md: crates/$file has no theorem $name"
    done < <(sed -n 's/^| `\([^`]*\)` | `\([^`]*[.]antt\)` |.*/\1 \2/p' docs/THEOREMS.md)
}

if [ "${1:-}" = --check ]; then
    wrong=$(
        read_files marks
        for call in $calls; do check_call "$call"; done
        check_theorems
        read_files list | cmp -s - docs/FILES.md || echo 'docs/FILES.md is not as docs/files.sh writes it: run docs/files.sh'
    )
    if [ -n "$wrong" ]; then
        printf '%s\n' "$wrong"
        exit 1
    fi
else
    read_files list >docs/FILES.md
fi
