usage() {
    cat >&2 << END
usage: $0 WORD [I], on all machines or on machine I alone
  copy            gives a machine its folder, once
  init            makes its store, once for all time: never again after a store was lost
  start, stop     starts its process, or leaves alone the one that runs; ends it
  firewall        drops at this match's ports whoever isn't to be there; firewall off removes that again
  status          prints a table of all nodes (without I)
  notes, doctor   its last notes; what is wrong there
  fetch           copies its logs and notes into a new folder of $here
copy and init end at the first machine where something fails, all others go on.
END
    exit 2
}

# The command line: a word, a machine's number, a flag.
here=$(cd "$(dirname "$0")" && pwd) || exit 2
failed=0 only='' flag='' word=$1
[ $# = 0 ] || shift
for argument; do
    case $word:$argument in
    status:*) usage ;;
    *:[0-9]) case $numbers in *"$argument"*) ;; *) usage ;; esac; [ -z "$only" ] || usage; only=$argument ;;
    init:--never-ran | firewall:off) [ -z "$flag" ] || usage; flag=$argument ;;
    *) usage ;;
    esac
done
case $flag:$only in --never-ran:) usage ;; esac

# A command on the machine: with a terminal, where sudo may ask for a password, and without. A machine that answers nothing costs
# five seconds, one that is cut off meanwhile fifteen.
patience='-o ConnectTimeout=5 -o ServerAliveInterval=5'
with_terminal() { if [ $is_here = yes ]; then sh -c "$1"; else ssh $patience -t "$target" "$1"; fi }
at() { if [ $is_here = yes ]; then sh -c "$1"; else ssh $patience "$target" "$1"; fi }

# Of a node whose process is one of this machine: whether the one in its file pid runs, by the program that it runs.
runs_here() {
    process=$(cat pid 2> /dev/null) || return 1
    case "$(readlink "/proc/$process/exe")" in "$(pwd -P)/holdem_table"*) ;; *) return 1 ;; esac
}
start_here() (
    cd "$place" || exit
    if runs_here; then echo "run: it runs already (process $process)"; exit; fi
    setsid ./holdem_table node --times match.toml "$number" 2>> notes > /dev/null < /dev/null &
    process=$!
    sleep 0.5 || sleep 1
    if ! readlink "/proc/$process/exe" > /dev/null; then
        if wait "$process"; then echo "run: it ended already, since the match is over"; exit; fi
        echo "run: it ended at once, with these last notes:" >&2; tail -n 2 notes >&2; exit 1
    fi
    echo "$process" > pid
)
stop_here() (
    cd "$place" || exit
    if ! runs_here; then echo "run: it doesn't run"; rm -f pid; exit; fi
    kill "$process"
    for _ in 1 2 3 4 5 6 7 8 9 10; do runs_here || break; sleep 0.2 || sleep 1; done
    if runs_here; then kill -9 "$process"; echo "run: it hung, and was ended by kill -9"; fi
    rm -f pid
)

# Where the folder above is root's, root gives it to the user. A folder that is there already ends it: no store is ever written over.
do_copy() {
    above=$(dirname "$place")
    make="if [ -e $place ]; then echo $place: there already >&2; exit 1; fi; { mkdir -p $above && mkdir -m 700 $place; }"
    if [ $is_here = yes ]; then
        at "$make" && cp -pR "$here/machine$number/." "$place/"
    else
        with_terminal "$make 2> /dev/null || sudo install -d -m 700 -o \"\$(id -un)\" -g \"\$(id -gn)\" $place" &&
            scp $patience -pr "$here/machine$number/." "$scp:$place/"
    fi
}
# What is known of a node's store is kept beside this script, since the disk of its machine may be lost: 'begun', and then 'made'.
do_init() {
    mark=$here/init$number
    before=$(cat "$mark" 2> /dev/null)
    if [ -z "$flag" ] && [ -n "$before" ]; then refuse_init; return 9; fi
    at true || return
    echo "begun $(date -u +%FT%TZ)" > "$mark" || return
    at "cd $place && ./holdem_table init match.toml $number"
    status=$?
    if [ $status = 0 ]; then
        echo "made $(date -u +%FT%TZ)" > "$mark"
    elif [ $status -lt 128 ]; then
        # (it ended by itself, and made nothing; what lasts longer than the connection isn't known)
        rm -f "$mark"
        [ -z "$before" ] || echo "$before" > "$mark"
    fi
    return $status
}
refuse_init() {
    case $before in
    made*) echo "run: the store of node $number was made before (${before#* }). If it was lost, leave the node out." ;;
    *) echo "run: whether the store of node $number was made isn't known: the connection was cut (${before#* }). Type $0 doctor $number: if it says ok of the store, it was, and all is well." ;;
    esac >&2
    echo "run: a second store lacks the promises that the first one gave, and the match can split into two histories. If you know that node $number never ran, type: $0 init $number --never-ran" >&2
}
do_start() { if [ $is_here = yes ]; then start_here; else with_terminal "sudo systemctl enable --now $place/$unit"; fi }
do_stop() {
    if [ $is_here = yes ]; then stop_here; return; fi
    with_terminal "if [ -h /etc/systemd/system/$unit ]; then sudo systemctl disable --now $unit; else echo \"run: it doesn't run\"; fi"
}
do_firewall() {
    case $is_here:$flag in
    yes:*) echo "run: a node at a loopback address needs none" ;;
    no:off) with_terminal "sudo nft 'add table inet $table; delete table inet $table'" ;;
    *) with_terminal "sudo nft -f $place/firewall" ;;
    esac
}
do_notes() { at "tail -n 10 $place/notes"; }
do_doctor() {
    at "cd $place && ./doctor match.toml $number"
    status=$?
    # (what it found it has told)
    [ $status != 1 ] || { failed=1; return 0; }
    return $status
}
do_fetch() {
    mkdir -p "$into/machine$number" || return
    if [ $is_here = yes ]; then cp -pR "$place/notes" "$place/logs" "$into/machine$number/"; return; fi
    scp $patience -pr "$scp:$place/notes" "$scp:$place/logs" "$into/machine$number/"
}

case $word in
status) exec "$here/status" "$here/machine0/match.toml" ;;
copy | init | start | stop | firewall | notes | doctor) ;;
fetch) umask 077; into=$here/fetched.$(date -u +%Y%m%dT%H%M%SZ) && mkdir "$into" && echo "run: into $into" || exit 1 ;;
*) usage ;;
esac
for number in $numbers; do
    case $only in "" | "$number") ;; *) continue ;; esac
    machine "$number"
    what="$word${flag:+ $flag} machine $number ($target)"
    echo "run: $what"
    "do_$word" && continue
    status=$?
    echo "run: $what failed (status $status)" >&2
    failed=1
    case $only:$word:$status in
    :init:9) echo "run: the machines behind it weren't touched. For each that never had a store type: $0 init I" >&2; exit 1 ;;
    :copy:* | :init:*) echo "run: the machines behind it weren't touched. Once that is mended, type: $0 $word $number; and so for each machine behind it" >&2; exit 1 ;;
    esac
done
exit $failed
