#!/bin/sh
# Writes the inputs of check.sh into a folder: texts of about 1,048,576 bytes at most, each a problem file.
# Usage: bench/inputs.sh FOLDER
set -eu
mkdir -p "$1"
head='field 32003
parameters a b
variables x y
order lex'
# many short lines
awk -v head="$head" 'BEGIN { print head; for (i = 0; i < 95000; i++) print "poly x+" i % 9; print "end" }' >"$1/many_short_lines"
# one line of 100,000 products: all distinct, all equal, alternating
awk -v head="$head" 'BEGIN { print head; printf "poly 1"; for (i = 0; i < 99999; i++) printf "+%s^%d", substr("xyab", i % 4 + 1, 1), int(i / 4) + 1; print ""; print "end" }' >"$1/distinct_products"
awk -v head="$head" 'BEGIN { print head; printf "poly x*y"; for (i = 1; i < 100000; i++) printf "+3*x*y"; print ""; print "end" }' >"$1/equal_products"
awk -v head="$head" 'BEGIN { print head; printf "poly x"; for (i = 1; i < 100000; i++) printf i % 2 ? "+a*y" : "+7*x"; print ""; print "end" }' >"$1/alternating_products"
# as many products as the limit allows
awk -v head="$head" 'BEGIN { print head; printf "poly x"; for (i = 1; i < 524200; i++) printf "+x"; print ""; print "end" }' >"$1/most_products"
# one long token, and one long line of names
awk 'BEGIN { printf "field "; for (i = 0; i < 1048000; i++) printf "7"; print "" }' >"$1/one_long_number"
awk 'BEGIN { print "field 7"; printf "parameters"; for (i = 0; i < 500000; i++) printf " a"; print "" }' >"$1/many_names"
# a mebibyte of comments, of blanks, and of points; and names that are all long
awk -v head="$head" 'BEGIN { print head; for (i = 0; i < 16300; i++) print "# a line of sixty-three bytes that says nothing of any problem"; print "end" }' >"$1/comments"
awk -v head="$head" 'BEGIN { print head; printf "poly x"; for (i = 0; i < 262000; i++) printf " \t \t"; print ""; print "end" }' >"$1/tabs"
awk -v head="$head" 'BEGIN { print head; for (i = 0; i < 90000; i++) print "point " i % 9 " 77"; print "end" }' >"$1/points"
awk 'BEGIN { n = "a23456789012345678901234567890"; print "field 32003"; printf "parameters"; for (i = 1; i < 9; i++) printf " %sp%d", n, i; print ""; printf "variables"; for (i = 1; i < 9; i++) printf " %sx%d", n, i; print ""; print "order grevlex"; printf "poly 1"; for (i = 0; i < 15000; i++) printf "-%sp%d*%sx%d", n, i % 8 + 1, n, int(i / 8) % 8 + 1; print ""; print "end" }' >"$1/long_names"
