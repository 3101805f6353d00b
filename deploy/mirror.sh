#!/bin/sh
# Keeps a copy of a registry's pci.ids: asks what changed since the last time, and fetches the file
# where the registry has moved on.
#
#   mirror.sh [--key KEY] [--history] SERVER FOLDER
#   mirror.sh http://127.0.0.1:8086 /var/lib/pciids-mirror
#
# The folder holds `pci.ids`, and in `revision` the number to ask from the next time. What changed
# is printed, a line for each item: the number of the change, the path and the name; removed items
# are not printed, and are not in the file.
#
# With --key the text is the published one, with its signature in `pci.ids.asc`, and nothing is kept
# that the key has not signed, nor a text that is older than the copy. KEY is a file of public keys
# as gpgv reads it, such as the `key.gpg` of the site. With --history the folder `history` has the
# logs of the published history, which only grow: one that was written anew is refused.
#
# Status 0: the copy is the registry's text at that revision or at a later one. Any other: nothing
# was saved, and the next run begins where this one did; 1 comes with a line that begins with
# `mirror:`, other faults are those of curl and of the tools. Of the history each file is saved by
# itself, after the text.
#
# A site shows an epoch, which is another one after each restore: the copy begins anew then, and the
# run prints all items. Where the revision goes back and the epoch stays, or there is none, each run
# says so until the folder is emptied.
#
# Each request says `Cache-Control: no-cache`, and a cache on the way has to ask the server then, as
# RFC 9111 has it (nginx does with `proxy_cache_bypass $http_cache_control`). A text that a cache
# keeps in spite of it is found out where it lacks a change; one that has an item which was removed
# since is not. The site answers such a request for `pci.ids` by the registry itself, so one for the
# published text says `max-age=0`, and may get what a cache keeps for a minute.
#
# A site may limit how fast one address asks. A request that it refuses with 429, or that meets a
# server that is busy or just starting (500, 502, 503, 504, a refused connection), is sent again up
# to six times: when Retry-After says, or after a second.
set -eu
export LC_ALL=C

fail() {
    echo "mirror: $1" >&2
    exit 1
}

key=
has_history=
while [ $# -gt 2 ]; do
    case $1 in
        --key)
            key=$(realpath -e "$2")
            shift 2
            ;;
        --history)
            has_history=yes
            shift
            ;;
        *) fail "usage: mirror.sh [--key KEY] [--history] SERVER FOLDER" ;;
    esac
done
server=${1%/}
cd "$2"

exec 9< .
flock -n 9 || fail "another run is at work in this folder"
known=
[ ! -e revision ] || known=$(cat revision)
case $known in
    *[!0-9]*) fail "the file revision holds no number" ;;
esac
new=$(mktemp -d new.XXXXXX)
trap 'rm -rf "$new"' EXIT
trap 'exit 1' HUP INT TERM

# What curl says of tries is shown if all of them failed.
freshness=no-cache
fetch() {
    curl -sS --connect-timeout 10 --max-time 240 --retry 6 --retry-delay 1 --retry-max-time 120 \
        --retry-connrefused -H "Cache-Control: $freshness" "$@" 2> "$new/said" || {
        status=$?
        cat "$new/said" >&2
        exit "$status"
    }
}

# Writes what is at a path into a file.
ask() {
    fetch -f -o "$2" "$server/$1"
}

# Has something fetched that sets `fault` if it does not fit together, and again after a while: a
# text, its signature and the changes are published one after the other, and a cache may have an
# older one of them for a minute.
fault=
in_time() {
    fault=
    "$@"
    for _ in 1 2 3 4 5 6 7 8 9; do
        [ -n "$fault" ] || return 0
        sleep "${MIRROR_PAUSE:-10}"
        fault=
        "$@"
    done
    [ -z "$fault" ] || fail "$fault"
}

check_signature() {
    gpgv -q --keyring "$key" "$2.asc" "$2" 2> "$new/said" || fault="$1 is not signed by the key"
}

# A registry that is another one than before, or was restored, counts anew.
take_epoch() {
    status=$(fetch -o "$new/epoch" -w '%{http_code}' "$server/epoch")
    case $status in
        200) ;;
        404) return 0 ;;
        *) fail "epoch: status $status" ;;
    esac
    [ "$(grep -cxE '[0-9a-f]{32}' "$new/epoch")" = 1 ] || fail "what came for /epoch is none"
    if [ -e epoch ] && cmp -s epoch "$new/epoch"; then return 0; fi
    if [ -e epoch ]; then
        echo "mirror: the registry was restored, and the copy begins anew" >&2
        rm -f revision
        known=
    fi
    sync .
    mv -f "$new/epoch" epoch
}

# Writes the changes since the copy's revision into a file, page by page up to one that is not full.
# The revision is that of the first page: what comes later is printed the next time.
find_changes() {
    revision=
    after=
    : > "$1"
    while :; do
        ask "changes?format=text&since=${known:-0}&after=$after" "$new/page"
        told=$(sed -n '1s/^revision \([0-9]\{1,\}\)$/\1/p' "$new/page")
        [ -n "$told" ] || fail "what came for /changes is no page of changes"
        [ "$told" -ge "$latest" ] || fail "the registry went back from revision $latest to $told"
        latest=$told
        revision=${revision:-$told}
        sed 1d "$new/page" >> "$1"
        lines=$(wc -l < "$new/page")
        [ "$lines" -gt 100 ] || return 0
        last=$(sed -n '$s/^[0-9]* \([^ ]*\) .*/\1/p' "$new/page")
        [ "$last" != "$after" ] || fail "the same page of changes came again"
        after=$last
    done
}

# The changes that the text has, each name at its path, and those that it has not.
find_told() {
    : > "$new/missing"
    awk -v missing="$new/missing" '
    FNR < NR {
        if (name[$2] == substr($0, length($1) + length($2) + 3)) print
        else print > missing
        next
    }
    /^S / { at[0] = "PS/" substr($0, 3); next }
    {
        blanks = index($0, "  ")
        id = substr($0, 1, blanks - 1)
        depth = gsub(/\t/, "", id)
        class = sub(/^C /, "", id)
        sub(/ /, "", id)
        at[depth] = (depth ? at[depth - 1] "/" : class ? "PD/" : "PC/") id
        name[at[depth]] = substr($0, blanks + 2)
    }
' "$new/pci.ids" "$new/changes" > "$new/told"
}

# A change that is not in the text was undone by another meanwhile, and is not printed any more;
# else the text is an old one.
refuse_late() {
    find_told
    [ -s "$new/missing" ] || return 0
    find_changes "$new/changes"
    sort -o "$new/changes" "$new/changes"
    sort -o "$new/missing" "$new/missing"
    comm -12 "$new/changes" "$new/missing" > "$new/late"
    [ ! -s "$new/late" ] || fault="the file is older than the changes"
}

# The text is of a revision that was reached after the request, so of none before that of the
# changes.
take_text() {
    ask pci.ids "$new/pci.ids"
    [ "$(sed -n 1p "$new/pci.ids")" = "# PCI ID registry" ] ||
        fail "what came for /pci.ids is no file of a registry"
    refuse_late
    [ -z "$fault" ] || fail "$fault"
}

date_of() {
    sed -n '/^#/!q; s/^#\tDate: *//p' "$1"
}

# The published text. Whoever stands between may send one that was signed long ago.
take_signed_text() {
    freshness=max-age=0
    fetch -f --compressed -o "$new/pci.ids" "$server/pci.ids"
    freshness=no-cache
    ask pci.ids.asc "$new/pci.ids.asc"
    check_signature pci.ids "$new/pci.ids"
    [ -z "$fault" ] || return 0
    if [ -e pci.ids.asc ]; then
        first=$({ date_of pci.ids; date_of "$new/pci.ids"; } | sort | sed -n 1p)
        [ "$first" = "$(date_of pci.ids)" ] || fault="the file is older than the copy"
    fi
    [ -n "$fault" ] || refuse_late
}

mirror_text() {
    latest=${known:-0}
    find_changes "$new/changes"
    reached=$revision
    if [ "$reached" = "$known" ] && [ -e "pci.ids${key:+.asc}" ]; then return 0; fi
    if [ -n "$key" ]; then in_time take_signed_text; else take_text; fi

    echo "$reached" > "$new/revision"
    sync "$new/pci.ids" "$new/revision"
    cat "$new/told"
    # The text first: a stop between the two leaves a number that is earlier than the text, and the
    # changes are printed again.
    [ ! -e "$new/pci.ids.asc" ] || mv -f "$new/pci.ids.asc" pci.ids.asc
    mv -f "$new/pci.ids" pci.ids
    sync .
    mv -f "$new/revision" revision
}

# A log of a month, where it has grown.
take_log() {
    old=history/$1
    kept=
    if [ -e "$old" ] && [ -e "$old${key:+.asc}" ]; then kept=$old; fi
    status=$(fetch -R -o "$new/log" -w '%{http_code}' ${kept:+-z "$kept"} "$server/$old")
    case $status in
        304) return 0 ;;
        404) [ ! -e "$old" ] || fail "$old is gone" ;;
        200) keep_log "$old" ;;
        *) fail "$old: status $status" ;;
    esac
}

keep_log() {
    if [ -n "$key" ]; then
        ask "$1.asc" "$new/log.asc"
        check_signature "$1" "$new/log"
        [ -z "$fault" ] || return 0
    elif [ -n "$(tail -c 1 "$new/log")" ]; then
        # A line that is being written.
        sed -i '$d' "$new/log"
    fi
    if [ -e "$1" ]; then
        head -c "$(wc -c < "$1")" "$new/log" | cmp -s - "$1" || fail "$1 was written anew"
    fi
    sync "$new/log"
    [ -z "$key" ] || mv -f "$new/log.asc" "$1.asc"
    mv -f "$new/log" "$1"
}

next_month() {
    year=${1%-*}
    number=${1#*-}
    number=$((${number#0} + 1))
    [ "$number" -le 12 ] || { year=$((year + 1)) && number=1; }
    printf '%d-%02d\n' "$year" "$number"
}

# The logs of each month from the last one that is here on. Its calendar comes last, and says that
# the others are here.
mirror_history() {
    mkdir -p history
    ask history/index.json "$new/index"
    month=$(sed -n 's/.*"began":"\([0-9]\{4\}-[0-9][0-9]\)-.*/\1/p' "$new/index")
    [ -n "$month" ] || fail "what came for /history/index.json is no index"
    for it in history/calendar-*.jsonl; do
        [ ! -e "$it" ] || month=$(basename "${it#history/calendar-}" .jsonl)
    done
    end=$(date -u +%Y%m)
    while [ "${month%-*}${month#*-}" -le "$end" ]; do
        for front in "" decisions- calendar-; do in_time take_log "$front$month.jsonl"; done
        month=$(next_month "$month")
    done
}

take_epoch
mirror_text
[ -z "$has_history" ] || mirror_history
