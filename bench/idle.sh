#!/usr/bin/env bash
# Refuses each entry of crates.txt that no file of its crate names: prints it, and ends with 1. Runs at the top.
set -u
status=0
while IFS=: read -r name lows; do
  name=${name%% *}
  for low in $lows; do
    grep -rqw --exclude-dir=out --include='*.rt' --include='*.antt' "$low" "crates/$name" && continue
    echo "crates.txt: $name names $low nowhere"
    status=1
  done
done < <(sed 's/#.*//' crates.txt)
exit $status
