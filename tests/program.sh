#!/usr/bin/env bash
# The built program on real files: each case has its status and its complaint, and leaves what it should.
# Run it behind `rt ci`, which builds the program.
set -u
top=$(cd "$(dirname "$0")/.." && pwd)
program=$top/crates/tuplex/out/tuplex
work=$(mktemp -d)
trap 'rm -rf "$work"' EXIT
failed=0
sums='csv("in.csv").withColumn("s", lambda x: x["a"] + x["b"]).tocsv("out.csv")'
report=out.csv.exceptions.csv

if [ ! -x "$program" ]; then
  echo "tests: $program is missing; run 'rt ci' first"
  exit 1
fi

# fresh NAME: a folder of its own with the script and its input
fresh() {
  name=$1
  mkdir -p "$work/$name" && cd "$work/$name" || exit 1
  printf '%s\n' "$sums" >s.txs
  printf 'a,b\n1,2\n3,4\n' >in.csv
}

# wants WHAT FOUND WANTED: two words
wants() {
  if [ "$2" != "$3" ]; then
    printf 'tests: %s: %s is\n%s\nand not\n%s\n' "$name" "$1" "$2" "$3"
    failed=1
  fi
}

# holds FILE TEXT: the file has exactly the bytes of the text, which printf writes
holds() {
  if ! printf "$2" | cmp -s - "$1"; then
    printf 'tests: %s: %s has other bytes than\n%b\n' "$name" "$1" "$2"
    failed=1
  fi
}

# ends STATUS COMPLAINT SAID WORD..: runs the program on the words
ends() {
  local want=$1 complaint=$2 said=$3
  shift 3
  "$program" "$@" >"$work/said" 2>"$work/complained"
  wants status "$?" "$want"
  holds "$work/complained" "$complaint"
  holds "$work/said" "$said"
}

# both: the output and the report of the first case are whole
both() {
  holds out.csv 'a,b,s\n1,2,3\n3,4,7\n'
  holds $report 'operator,kind,class,row\n'
}

# shown TEXT: what the README shows behind the line with this text
shown() {
  awk -v text="$1" '
    index($0, text) && !seen { seen = 1; next }
    seen && /^    / { print substr($0, 5); began = 1; next }
    began { exit }
  ' "$top/README.md"
}

# same FILE FILE: two files with the same bytes
same() {
  if ! cmp -s "$1" "$2"; then
    printf 'tests: %s: %s and %s differ\n' "$name" "$1" "$2"
    failed=1
  fi
}

# keeps: the script and the input are as they were, and nothing was written
keeps() {
  wants "the folder" "$(ls -A | tr '\n' ' ')" "in.csv s.txs "
  holds in.csv 'a,b\n1,2\n3,4\n'
  holds s.txs "$sums\n"
}

usage='usage: tuplex run SCRIPT [--sample N] [--order K] [--stats] | check SCRIPT | generate SEED ROWS FILE\n'

fresh two-sums
ends 0 '' 'rows 2 exceptions 0\n' run s.txs
holds out.csv 'a,b,s\n1,2,3\n3,4,7\n'
holds $report 'operator,kind,class,row\n'

# What the README shows: its files are those of examples/, and its answers are what comes.
mkdir "$work/readme" && cd "$work/readme" || exit 1
name=readme
cp "$top"/examples/orders/* .
shown 'The script `totals.txs`' | cmp -s - totals.txs || wants 'the script' "$(cat totals.txs)" "$(shown 'The script `totals.txs`')"
shown 'Its input `orders.csv`' | cmp -s - orders.csv || wants 'the input' "$(cat orders.csv)" "$(shown 'Its input `orders.csv`')"
ends 0 '' 'rows 4 exceptions 1\n' run totals.txs
grep -q 'It says `rows 4 exceptions 1`' "$top/README.md" || wants 'the line' 'not in the README' 'rows 4 exceptions 1'
shown 'What it writes to `totals.csv`' >shown.csv
same totals.csv shown.csv
shown 'the report `totals.csv.exceptions.csv`' >shown.csv
same totals.csv.exceptions.csv shown.csv

# The other examples.
example() {
  name=examples/$1
  mkdir -p "$work/$name" && cd "$work/$name" || exit 1
  cp "$top/$name"/* .
}

example two-sums
ends 0 '' 'rows 3 exceptions 2\n' run sums.txs
holds totals.csv 'id,price,shipping,note,total\n1,250,20,"books, two",270\n2,90,5,,95\n5,1200,True,"by ""post""",1201\n'
holds totals.csv.exceptions.csv 'operator,kind,class,row\n2,withColumn,TypeError,1:3\n2,withColumn,TypeError,1:4\n'

example listings
ends 0 '' 'rows 2 exceptions 1\n' run listings.txs
holds clean.csv 'title,beds,sqft,price\nHouse For Sale,3,1560,489000\nCondo For Sale,0,520,210000\n'
holds clean.csv.exceptions.csv 'operator,kind,class,row\n4,withColumn,TypeError,1:3\n'

example customers
ends 0 '' 'rows 3 exceptions 1\n' run named.txs
holds named.csv 'order,name,town,amount\n1,Ada,Bern,12\n2,Max,Bonn,30\n3,,,5\n'
holds named.csv.exceptions.csv 'operator,kind,class,row\n4,mapColumn,ValueError,3:5\n'

# A table that a seed gives, as the README shows it: the same at each run, whatever the sample and the order are.
example generated
ends 0 '' 'rows 100000\n' generate 1 100000 g.csv
wants 'the size' "$(wc -c <g.csv)" 1657196
wants 'the first row' "$(sed -n 2p g.csv)" '1,574,214,n0'
ends 0 '' 'rows 90001 exceptions 9999\ninterp 100000 typed 0\n' run generated.txs --stats
for line in 'rows 90001 exceptions 9999' 'interp 100000 typed 0'; do
  grep -q "^    $line\$" "$top/README.md" || wants 'the line' 'not in the README' "$line"
done
awk -F, 'NR == 1 { print $0 ",total" } NR > 1 && $2 ~ /^[0-9]/ { print $0 "," $2 * $3 }' g.csv >wanted.csv
awk -F, 'BEGIN { print "operator,kind,class,row" }
  NR > 1 && $2 == "" { print "2,withColumn,TypeError,1:" NR - 1 }
  NR > 1 && $2 ~ /^x/ { print "2,withColumn,ValueError,1:" NR - 1 }' g.csv >wanted.report
same totals.csv wanted.csv
same totals.csv.exceptions.csv wanted.report
ends 0 '' 'rows 90001 exceptions 9999\n' run --sample=0 --order 7 generated.txs
same totals.csv wanted.csv
same totals.csv.exceptions.csv wanted.report
rm totals.csv totals.csv.exceptions.csv
ends 0 '' 'accepted\n' check generated.txs
wants "the folder" "$(ls -A | tr '\n' ' ')" "g.csv generated.txs wanted.csv wanted.report "

# 100,000 records, of which every seventh raises.
fresh many-records
awk 'BEGIN { print "a,b"; for (i = 1; i <= 100000; i++) print (i % 7 ? i : "x") "," i % 1000 }' >in.csv
awk 'BEGIN { print "a,b,s"; for (i = 1; i <= 100000; i++) if (i % 7) print i "," i % 1000 "," i + i % 1000 }' >wanted.csv
awk 'BEGIN { print "operator,kind,class,row"; for (i = 7; i <= 100000; i += 7) print "2,withColumn,TypeError,1:" i }' >wanted.report
ends 0 '' 'rows 85715 exceptions 14285\n' run s.txs
same out.csv wanted.csv
same $report wanted.report

fresh no-words
ends 2 "$usage" ''
keeps

fresh run-alone
ends 2 "$usage" '' run
keeps

fresh a-word-that-is-no-text
ends 2 "$usage" '' run $'s\xff'
keeps

fresh a-sample-that-is-too-large
ends 2 "$usage" '' run s.txs --sample 10001
keeps

fresh a-check
ends 0 '' 'accepted\n' check s.txs
keeps

fresh a-check-without-its-input
mv in.csv in
ends 6 'tuplex: in.csv: read failed\n' '' check s.txs
mv in in.csv
keeps

fresh a-table-that-is-not-written
ends 7 'tuplex: none/g.csv: write failed\n' '' generate 1 3 none/g.csv
keeps

fresh too-many-words
ends 2 "$usage" '' run s.txs s.txs
keeps

fresh a-script-that-is-a-folder
mkdir d
ends 6 'tuplex: d: read failed\n' '' run d
rmdir d
keeps

fresh a-missing-script
ends 6 'tuplex: none.txs: read failed\n' '' run none.txs
keeps

fresh a-missing-input
rm in.csv
ends 6 'tuplex: in.csv: read failed\n' '' run s.txs
wants "the folder" "$(ls -A)" s.txs

fresh a-refused-script
printf 'csv("in.csv").sort().tocsv("out.csv")\n' >t.txs
ends 3 'tuplex: script line 1: Operator\n' '' run t.txs
rm t.txs
keeps

fresh a-missing-column
printf 'csv("in.csv").selectColumns(["a", "zz"]).tocsv("out.csv")\n' >t.txs
ends 4 'tuplex: operator 2: no column zz\n' '' run t.txs
rm t.txs
keeps

# A script of exactly the limit, and one of a byte more.
fresh a-long-script
{ printf '%s\n#' "$sums"; head -c $((262144 - ${#sums} - 2)) /dev/zero | tr '\0' x; } >t.txs
wants 'the size' "$(wc -c <t.txs)" 262144
ends 0 '' 'rows 2 exceptions 0\n' run t.txs
printf x >>t.txs
rm out.csv $report
ends 3 'tuplex: script line 0: TooLong\n' '' run t.txs
rm t.txs
keeps

# An input of exactly the limit, and one of a byte more. Its one record is a field that is too long.
fresh a-large-input
printf 'csv("in.csv").tocsv("out.csv")\n' >t.txs
{ printf 'a\n'; head -c 67108862 /dev/zero | tr '\0' x; } >in.csv
ends 0 '' 'rows 0 exceptions 1\n' run t.txs
holds out.csv 'a\n'
holds $report 'operator,kind,class,row\n1,csv,RecordError,1:1\n'
rm out.csv $report
printf x >>in.csv
ends 5 'tuplex: in.csv: too large\n' '' run t.txs
wants "the folder" "$(ls -A | tr '\n' ' ')" "in.csv s.txs t.txs "
rm in.csv

# A file that is too large comes behind a read fault of an earlier input.
fresh a-missing-input-ahead-of-a-large-one
printf 'r = csv("none.csv")\ncsv("in.csv").join(r, "a", "a").tocsv("out.csv")\n' >t.txs
{ printf 'a\n'; head -c 67108863 /dev/zero | tr '\0' x; } >in.csv
ends 6 'tuplex: none.csv: read failed\n' '' run t.txs
rm in.csv

fresh an-output-that-is-a-folder
mkdir out.csv
ends 7 'tuplex: out.csv: write failed\n' '' run s.txs
rmdir out.csv
keeps

fresh a-report-that-is-a-folder
mkdir $report
ends 7 "tuplex: $report: write failed\n" '' run s.txs
holds out.csv 'a,b,s\n1,2,3\n3,4,7\n'

fresh a-full-console
"$program" run s.txs >/dev/full 2>"$work/complained"
wants status "$?" 9
holds "$work/complained" ''
holds out.csv 'a,b,s\n1,2,3\n3,4,7\n'
holds $report 'operator,kind,class,row\n'

fresh a-full-disk
ln -s /dev/full out.csv
ends 7 'tuplex: out.csv: write failed\n' '' run s.txs
wants "the folder" "$(ls -A | tr '\n' ' ')" "in.csv out.csv s.txs "

# A standard descriptor that is closed: what is said or complained there is lost, and lands in no file.
fresh a-closed-output
"$program" run s.txs >&- 2>"$work/complained"
wants status "$?" 9
holds "$work/complained" ''
both

fresh closed-complaints
"$program" run s.txs 2>&- >"$work/said"
wants status "$?" 0
holds "$work/said" 'rows 2 exceptions 0\n'
both

fresh a-complaint-that-is-lost
mkdir $report
"$program" run s.txs 2>&- >"$work/said"
wants status "$?" 7
holds "$work/said" ''
holds out.csv 'a,b,s\n1,2,3\n3,4,7\n'

fresh a-full-report-and-a-lost-complaint
ln -s /dev/full $report
"$program" run s.txs >&- 2>&-
wants status "$?" 7
holds out.csv 'a,b,s\n1,2,3\n3,4,7\n'

fresh both-closed
"$program" run s.txs >&- 2>&-
wants status "$?" 9
both

fresh all-closed
"$program" run s.txs <&- >&- 2>&-
wants status "$?" 9
both

fresh no-input
"$program" run s.txs <&- >"$work/said" 2>"$work/complained"
wants status "$?" 0
holds "$work/said" 'rows 2 exceptions 0\n'
both

fresh no-input-and-no-output
"$program" run s.txs <&- >&- 2>"$work/complained"
wants status "$?" 9
both

fresh no-input-and-no-complaints
"$program" run s.txs <&- 2>&- >"$work/said"
wants status "$?" 0
holds "$work/said" 'rows 2 exceptions 0\n'
both

fresh overwritten-files
printf 'old\n' >out.csv
printf 'old\n' >$report
ends 0 '' 'rows 2 exceptions 0\n' run s.txs
holds out.csv 'a,b,s\n1,2,3\n3,4,7\n'
holds $report 'operator,kind,class,row\n'

[ "$failed" = 0 ] && echo "tests: the built program ends as it should"
exit "$failed"
