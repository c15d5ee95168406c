#!/usr/bin/env bash
# Shows that a ticket can be neither dropped nor handed in twice: both misuses must be refused by the compiler, and the
# same code without the misuse must compile. Only the ticket's own module is needed for that.
set -eu
top=$(cd "$(dirname "$0")/.." && pwd)
folder=$(mktemp -d)
trap 'rm -rf "$folder"' EXIT
mkdir -p "$folder/crates/tickets/src" "$folder/crates/host/src"
cp "$top/crates/engine/src/ticket.rt" "$folder/crates/tickets/src/ticket.rt"
printf '#![tactic(auto)]\n\npub mod ticket;\n' > "$folder/crates/tickets/src/lib.rt"
printf 'tickets:\nhost: tickets\n' > "$folder/crates.txt"
cd "$folder"

# host CODE: whether rt accepts a crate with this code above the ticket
host() {
    printf '#![tactic(auto)]\n\nuse tickets::ticket::Ticket;\n\n%s\n' "$1" > crates/host/src/lib.rt
    (cd crates/host && rt check) > out 2>&1
}

host 'pub fn kept(ticket: Ticket) -> Ticket { ticket }' || { cat out; echo 'ticket-misuse: the proper use is refused'; exit 1; }
if host 'pub fn dropped(ticket: Ticket) { }' || ! grep -q 'error\[linear-value-let-go\]' out; then
    cat out; echo 'ticket-misuse: a dropped ticket is not refused'; exit 1
fi
if host 'pub fn twice(ticket: Ticket) -> (Ticket, Ticket) { (ticket, ticket) }' || ! grep -q 'error\[borrow-e0382\]' out; then
    cat out; echo 'ticket-misuse: a ticket that is handed in twice is not refused'; exit 1
fi
echo 'ticket-misuse: dropping a ticket and handing it in twice are both refused'
