#!/usr/bin/env bash
# bench/edits.sh [CRATE..]: has the prover try the edits of crates/CRATE/planted, of the crates that are named or of all, on a copy
# of these crates and those below them, in which they are edits that have to be refused, and puts into bench/edits.txt at which commit
# and why each was refused. What an earlier run on this machine proved or refused of the same files is taken from there. It fails
# where one isn't refused for what a contract says. bench/edits.sh CRATE/NAME.edit..: the same of these edits alone.
# bench/edits.sh --some: tries those alone that .ci/planted chooses for this commit, and writes nothing. The gate runs it.
set -eu -o pipefail
cd "$(dirname "$0")/.."

copy=$(mktemp -d)
said=$(mktemp)
trap 'rm -rf -- "$copy" "$said"' EXIT

some=()
records=1
if [ "${1-}" = --some ]; then
  records=0
  mapfile -t some < <(.ci/planted --some)
  mapfile -t crates < <(printf '%s\n' "${some[@]%%/*}" | sort -u)
elif [[ ${1-} == */* ]]; then
  some=("$@")
  mapfile -t crates < <(printf '%s\n' "${some[@]%%/*}" | sort -u)
elif [ $# -gt 0 ]; then
  crates=("$@")
else
  mapfile -t crates < <(printf '%s\n' crates/*/planted | cut -d / -f 2)
fi

.ci/planted --below "${crates[@]}" >"$copy/crates.txt"
cut -d : -f 1 "$copy/crates.txt" | sed 's,^,crates/,' | xargs git ls-files -z HANDLES | xargs -0 tar -cf - | tar -xf - -C "$copy"
rm -rf "$copy"/crates/*/must-fail
for crate in "${crates[@]}"; do
  mv "$copy/crates/$crate/planted" "$copy/crates/$crate/must-fail"
done
if [ ${#some[@]} -gt 0 ]; then
  for edit in "$copy"/crates/*/must-fail/*.edit; do
    crate=${edit%/must-fail/*}
    case " ${some[*]} " in *" ${crate##*/}/${edit##*/} "*) ;; *) rm -- "$edit" ;; esac
  done
fi
if [ "$records" = 1 ] && ! git diff --quiet HEAD -- crates crates.txt HANDLES; then
  echo "bench/edits.sh: crates/ isn't what the commit has, so what comes is of no commit" >&2
  exit 1
fi

status=0
(cd "$copy" && rt ci) 2>&1 | grep -E '^rt: (must-fail|note|FAILED|.*(NOT|trying|kept from|tried by an earlier))|passed' | tee "$said" || status=$?
.ci/edits "$said" "$(find "$copy"/crates/*/must-fail -name '*.edit' | wc -l)" || status=$?
if [ "$records" = 1 ]; then .ci/planted --record "$said"; fi
exit "$status"
