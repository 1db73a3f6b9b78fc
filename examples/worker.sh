#!/usr/bin/env bash
# Pays an order, with activities in bash: worker.sh DB ORDER. It needs jq. It reads a line, does what it says, writes a line, and reads on.
# Kill it or its `flow` at any moment, and start it again: the order goes on where it was. $FLOW names the program, else it is ./flow.
set -eu

# What the workflow calls: each prints its value as JSON. One that ends with another status than 0 has failed, and is tried again as the
# workflow says. One may be run twice. (jq before 1.7 rounds numbers from 2^53 up.)
charge() { jq -n --arg order "$1" '"payment " + $order'; }
ship() { jq -n --arg order "$1" '"parcel " + $order'; }
refund() { jq -n --argjson amount "$2" '$amount'; }

[[ $# = 2 && $2 =~ ^[0-9]+$ ]] || { echo "usage: worker.sh DB ORDER, a number" >&2 && exit 2; }
base=$1 order=$2 text=$(dirname "$0")/refund.flow
trap '' PIPE # a `flow` that has ended is seen by the loop below
coproc "${FLOW:-./flow}" serve "$base"
child=$!
exec {from}<&"${COPROC[0]}" {to}>&"${COPROC[1]}"
eval "exec ${COPROC[0]}<&- ${COPROC[1]}>&-"
sent=() # the lines that have no reply yet: replies come in their order

send() {
    sent+=("$1")
    printf '%s\n' "$1" >&"$to" || true
}

# Makes a line of another one: make LINE FILTER [WORD ..]
make() { jq -c "${@:3}" "$2" <<<"$1"; }

run() {
    local words value report
    eval "words=($(make "$1" '[.activity] + .args | @sh' -r))"
    case ${words[0]} in
        charge | ship | refund) ;;
        *) echo "no activity is called ${words[0]}: its task stays open" >&2 && return ;;
    esac
    value=$("${words[@]}") &&
        report=$(make "$1" '{do: "complete", run, event, attempt, at: 0, value: $value}' --argjson value "$value") ||
        report=$(make "$1" '{do: "fail", run, event, attempt, at: 0, reason: $reason}' --arg reason "ended with $?")
    send "$report"
    send "$(make "$1" '{do: "describe", run}')"
}

# What comes of the reply to a line.
hear() {
    case $(make "$1" '"\(.reply) \(.code)"' -r):$(make "$2" .do -r) in
        "not applied"*) sleep 1 && send "$2" ;;
        "refused "*:register | "refused "*:start) echo "$(make "$2" .do -r) is refused: $1" >&2 && exit 1 ;;
        *E02:complete | *E66:complete) send "$(make "$2" '{do: "fail", run, event, attempt, at, reason: "wrong type"}')" ;;
        *:register) send "$(make "$1" '{do: "start", text, flow: $name, req: $name, args: [$order, 500], at: 0}' \
            --arg name "order-$order" --argjson order "$order")" ;;
        *:start) send "$(make "$1" '{do: "describe", run}')" ;;
        *:describe) ended=$(make "$1" 'select(.state != "open" and .flow == $name) | "\(.flow) \(.state)"' -r --arg name "order-$order") ;;
    esac
}

ended=
send "$(jq -Rsc '{do: "register", src: .}' "$text")"
while [ -z "$ended" ] && IFS= read -r line <&"$from"; do
    if [ "$(make "$line" .reply -r)" = task ]; then
        run "$line"
    else
        asked=${sent[0]} sent=("${sent[@]:1}")
        hear "$line" "$asked"
    fi
done
exec {to}>&-
wait "$child" || true
if [ -z "$ended" ]; then
    echo "flow has ended: start this again" >&2
    exit 1
fi
echo "$ended"
