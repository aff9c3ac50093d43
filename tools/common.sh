# What the scripts of bench/, trials/ and tools/ share: where things stand, a clone to work in,
# settings files, and building a program.
top=$(cd "$(dirname "$0")/.." && pwd)
out=$top/out
mkdir -p "$out"

# clone [COMMIT]: makes a folder `room` of its own, removed at the end, and in it a clone of what is committed, `$room/clone`;
# at a commit, if one is named
clone() {
    room=$(mktemp -d)
    trap 'rm -rf "$room"' EXIT
    git clone -q "$top" "$room/clone"
    [ -z "${1:-}" ] || git -C "$room/clone" checkout -q "$1"
}

# row WHAT HOW_MANY FAILED: a row of the table of hostile.sh, where it asks for one
row() {
    [ -z "${HOSTILE_ROWS:-}" ] || printf '%s\t%s\t%s\n' "$1" "$2" "$3" >>"$HOSTILE_ROWS"
}

# build CRATE [WORD]: proves and builds the program of a crate, and runs it once with the word
build() {
    echo "proving and building $1"
    (cd "$top/crates/$1" && rt run -- ${2:+"$2"} >"$out/$1-build.log" 2>&1) || { cat "$out/$1-build.log"; exit 1; }
}

# place TREE NAME ROOM [KIND]: makes a crate of ROOM of what is kept as text in bench/NAME or trials/NAME of a tree of this
# repository, where each file's name ends in .txt and `libraries` has what it stands on. KIND is `staticlib` for a library for C
place() {
    kept=$1/bench/$2
    [ -d "$kept" ] || kept=$1/trials/$2
    echo "$2${4:+ $4}: $(cat "$kept/libraries")" >>"$3/crates.txt"
    (cd "$kept" && find src proofs specs -name '*.txt' 2>/dev/null) | while read -r file; do
        mkdir -p "$3/crates/$2/$(dirname "$file")"
        cp "$kept/$file" "$3/crates/$2/${file%.txt}"
    done
}

# alone TREE NAME [KIND]: makes a folder `room` of its own, and in it that crate beside copies of the crates below it with
# the work that they keep
alone() {
    room=$(mktemp -d)
    mkdir -p "$room/crates"
    cp "$1/HANDLES" "$1/crates.txt" "$room"
    place "$1" "$2" "$room" "${3:-}"
    # its line and those of the crates below: what a line of the list names joins the list
    awk -v program="$2" '
        /^[a-z]/ { name = $1; sub(/:/, "", name); line[name] = $0 }
        END {
            queue[1] = program; last = 1; seen[program] = 1
            for (i = 1; i <= last; i++) {
                print line[queue[i]]
                count = split(line[queue[i]], names, /[ :]+/)
                for (j = 2; j <= count; j++) if ((names[j] in line) && !(names[j] in seen)) { seen[names[j]] = 1; queue[++last] = names[j] }
            }
        }' "$room/crates.txt" >"$room/lines"
    mv "$room/lines" "$room/crates.txt"
    for below in $(sed 's/[ :].*//' "$room/crates.txt"); do
        [ "$below" = "$2" ] || cp -a "$1/crates/$below" "$room/crates"
    done
}

# program TREE NAME FOLDER [WORD]: proves and builds the program that is kept as text in bench/NAME or trials/NAME of a tree of
# this repository, leaves it as FOLDER/NAME, and runs it once with the word
program() {
    mkdir -p "$3"
    alone "$1" "$2"
    echo "proving and building $2"
    (cd "$room/crates/$2" && rt run -- ${4:+"$4"} >"$out/$2-build.log" 2>&1) || { cat "$out/$2-build.log"; echo "left in $room"; exit 1; }
    cp "$room/crates/$2/out/$2" "$3"
    rm -rf "$room"
}

# drawn FILE RINGS N K WORKERS ACTIONS: settings of rings that start at 0, with so many drawn workers
drawn() {
    awk -v rings="$2" -v n="$3" -v k="$4" -v workers="$5" -v actions="$6" 'BEGIN {
        printf "{\"rings\":["
        for (r = 0; r < rings; r++) {
            printf "%s{\"n\":%d,\"k\":%d,\"start\":[", (r > 0 ? "," : ""), n, k
            for (i = 0; i < n; i++) printf "%s0", (i > 0 ? "," : "")
            printf "]}"
        }
        printf "],\"workers\":["
        for (w = 0; w < workers; w++) printf "%s{\"seed\":%d,\"actions\":%d}", (w > 0 ? "," : ""), w + 1, actions
        print "]}"
    }' >"$out/$1"
}

# passes FILE K ACTIONS STEP: one worker that lets each of eight machines pass in turn, so that each pass is granted; the
# orders begin with 1 and grow by STEP
passes() {
    awk -v k="$2" -v actions="$3" -v step="$4" 'BEGIN {
        printf "{\"rings\":[{\"n\":8,\"k\":%d,\"start\":[0,0,0,0,0,0,0,0]}],\"workers\":[{\"script\":[", k
        for (i = 0; i < actions; i++) printf "%s[\"pass\",0,%d,%d]", (i > 0 ? "," : ""), i % 8, 1 + i * step
        print "]}]}"
    }' >"$out/$1"
}
