# What the scripts of this folder share: each prints a table and, with --page as its first word, writes it into docs/FIGURES.md with
# the machine, the commit and the date. A script sets `root` and `work`, and takes its words with: . table.sh

page=no
if [ "${1-}" = --page ]; then
  page=yes
  shift
fi
load=$(cut -d ' ' -f 1 /proc/loadavg)

# row CELL ..: prints a row of the table
row() {
  { printf '|'; printf ' %s |' "$@"; printf '\n'; } | tee -a "$work/table"
}

# head_row CELL ..: prints the first row
head_row() {
  row "$@"
  row "${@//*/---}"
}

# write_page NAME ABOUT: with --page the table goes into docs/FIGURES.md, as the one of bench/NAME
write_page() {
  [ $page = yes ] || return 0
  local changed=
  git -C "$root" diff --quiet HEAD -- crates || changed=' with changes'
  {
    printf 'Command `bench/%s`, commit %s%s, %s; %s processors (%s), Linux %s, %s, load %s at the begin. %s\n\n' "$1" \
      "$(git -C "$root" rev-parse --short=8 HEAD)" "$changed" "$(date -u +%F)" "$(nproc)" \
      "$(sed -n 's/^model name\s*: //p' /proc/cpuinfo | sed -n 1p)" "$(uname -r)" "$(df --output=fstype "$work" | tail -n 1)" "$load" "$2"
    cat "$work/table"
  } | python3 "$root/docs/page.py" docs/FIGURES.md "bench/$1"
}
