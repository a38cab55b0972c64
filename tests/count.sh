#!/usr/bin/env bash
# Lines without blank ones: code, definitions, laws, proofs, and the separate implementation; and characters.
set -euo pipefail
cd "$(dirname "$0")/.."
lines() { grep -cv '^[[:space:]]*$' || true; }
code() { grep -v '^ghost\|^[[:space:]]*//\|^[[:space:]]*requires .*{\|^[[:space:]]*ensures .*{' || true; }
echo "code $(find crates -name '*.rt' -not -path '*/out/*' -exec cat {} + | code | lines)"
echo "functions $(find crates -name '*.rt' -not -path '*/out/*' -exec cat {} + | grep -cE '^(pub )?(extern "C" )?fn ')"
echo "definitions $(find crates/model/specs -name '*.antt' -not -path '*/out/*' -exec cat {} + | lines)"
echo "laws $(find crates -path '*/specs/*.antt' -not -path 'crates/model/*' -not -path '*/out/*' -exec cat {} + | lines)"
echo "of these recovery $(find crates/recovery/specs -name '*.antt' -not -path '*/out/*' -exec cat {} + | lines)"
echo "proofs $(find crates -path '*/proofs/*.antt' -not -path '*/out/*' -exec cat {} + | lines)"
# without spaces, so that it does not matter how lines are set
characters() { tr -d '[:space:]' | LC_ALL=C.UTF-8 wc -m; }
echo "characters of code $(find crates -name '*.rt' -not -path '*/out/*' -exec cat {} + | code | characters)"
echo "characters of laws $(find crates -path '*/specs/*.antt' -not -path 'crates/model/*' -not -path '*/out/*' -exec cat {} + | characters)"
echo "of these serial $(find crates/serial -name '*.antt' -not -path '*/out/*' -exec cat {} + | characters)"
echo "characters of proofs $(find crates -path '*/proofs/*.antt' -not -path '*/out/*' -exec cat {} + | characters)"
echo "reference $(find reference/src reference/tests reference/build -name '*.rs' -not -path '*/out/*' -exec cat {} + | lines)"
echo "faults $(cat reference/faults/*.txt | grep -c '^fault: ')"
