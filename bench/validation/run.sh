#!/usr/bin/env bash
# Solves the IEEE 13-node feeder with the built program and prints the tables of docs/VALIDATION.md: its published
# magnitudes beside ours, at the published taps; the same where the distributed load stands in the middle of its line,
# where bus 650 is held besides, where the regulators have no impedance, and where the loads have their nominal voltage and wide
# limits; and where the regulators come to rest, with the voltages of their relays. Then those of the other feeders (others.py), and what
# ladder sweeps come to (sweeps.py).
set -eu
here=$(cd "$(dirname "$0")" && pwd)
top=$(cd "$here/../.." && pwd)
binary=$("$top/tools/built" feeder)
work=$(mktemp -d)
trap 'rm -rf "$work"' EXIT
held='New Circuit.IEEE13 basekv=4.16 phases=3 bus1=650 r1=0 x1=0.000001 r0=0 x0=0.000001'
published=$top/examples/thirteen.dss
sed -e 's/Length=667 /Length=1000 /' -e 's/Length=1333 /Length=1000 /' "$published" >"$work/middle.dss"
sed -e "s/^New Circuit.*/$held/" -e '/^New Transformer.Sub/,/^~ wdg=2/d' "$work/middle.dss" >"$work/held.dss"
sed -e 's/XHL=0.01 \(.*\)%LoadLoss=0.01/XHL=0 \1%LoadLoss=0/' "$work/held.dss" >"$work/ideal.dss"
sed -e '/^New Load/{s/vminpu=0.8 vmaxpu=1.2//;s/kV=2.4 /kV=2.40178 /;s/kV=0.277 /kV=0.277128 /;s/$/ vminpu=0.8 vmaxpu=1.2/}' \
    -e '/^New Capacitor/s/kv=2.4$/kv=2.40178/' "$work/ideal.dss" >"$work/wide.dss"
cp "$published" "$work/published.dss"
for script in published middle held ideal wide; do
    "$binary" solve "$work/$script.dss" >"$work/$script.csv"
done
python3 "$here/table.py" "$work/published.csv" "$work/middle.csv" "$work/held.csv"
echo "the same with ideal regulators, and with nominal voltages and wide limits besides"
python3 "$here/table.py" "$work/held.csv" "$work/ideal.csv" "$work/wide.csv" | tail -n 3
"$binary" solve "$top/examples/thirteen-regulated.dss" >"$work/regulated.csv"
grep -E '^(act|tap),' "$work/regulated.csv"
python3 "$here/relays.py" "$work/regulated.csv" "$work/published.csv"
python3 "$here/others.py"
python3 "$here/sweeps.py" "$binary"
