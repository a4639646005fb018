#!/usr/bin/env bash
# Checks that the documents have their form, and that what they list stands in the sources.
#   scripts/documents.sh            makes tables and pictures anew where they are of other sources, first
#   scripts/documents.sh --check    only looks, and ends with 1 where something differs
set -euo pipefail
cd "$(dirname "$0")/.."
checks=(pages claims commands definitions faults pictures speed wrong_bodies)
if [ "${1:-}" != --check ]; then
  for made in speed pictures; do
    python3 "scripts/$made.py" --check > /dev/null 2>&1 || python3 "scripts/$made.py"
  done
fi
for check in "${checks[@]}"; do
  python3 "scripts/$check.py" --check
done
